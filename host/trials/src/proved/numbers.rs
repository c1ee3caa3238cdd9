//! Numbers and the digest.
use super::across;
use second::Refusal;

/// The number at a place, and the place after it.
pub fn read_number(bytes: &[u8], at: usize) -> Result<(u64, usize), Refusal> {
    ledger::read_number(bytes, at).map_err(across::refusal)
}

/// Writes a number at a place of a buffer and gives the place after it.
pub fn write_number(value: u64, buffer: &mut [u8], at: usize) -> Result<usize, Refusal> {
    ledger::write_number(value, at, buffer).map_err(across::refusal)
}

/// SHA-256 of a slice.
pub fn digest(message: &[u8]) -> Result<[u8; 32], Refusal> {
    ledger::digest(message).map_err(across::refusal)
}

#[cfg(test)]
mod tests {
    use crate::both;
    use crate::rounds::rounds;
    use ledger::{raw, BlockCount};
    use second::chance::Chance;
    use second::number::{self, LARGEST};
    use second::refusal;
    use second::samples::FILLER;

    /// Reads a number with both, and sees that the proved one leaves zeros beside a refusal.
    fn reads_alike(bytes: &[u8], at: usize) {
        if let Err(refused) = both::read_number(bytes, at) {
            let zeros = raw::NumberAnswer {
                refusal: refused.number,
                place: BlockCount(0),
                value: 0,
                next: 0,
            };
            assert_eq!(raw::ledger_read_number(bytes, at), zeros);
        }
    }

    #[test]
    fn numbers_are_read_alike() {
        for high in 0..=5 {
            for last in 0..=255 {
                let bytes = [vec![0x80 | last; high], vec![last]].concat();
                reads_alike(&bytes, 0);
                reads_alike(&bytes, 1);
                reads_alike(&bytes[..high], 0);
            }
        }
        let mut chance = Chance::of_seed(1);
        for _ in 0..rounds(2_000) {
            let bytes = chance.array::<12>().map(|byte| byte | (byte << 5 & 0x80));
            reads_alike(&bytes, chance.place(12));
            reads_alike(&number::bytes(chance.number()), 0);
        }
    }

    #[test]
    fn numbers_are_written_alike() {
        let mut chance = Chance::of_seed(2);
        for _ in 0..rounds(2_000) {
            let value = chance.number();
            let length = chance.below(12);
            let at = chance.of(&[0, 3, length, usize::MAX]);
            let _ = both::write_number(value, &mut vec![FILLER; length], at);
        }
    }

    /// Next to each power of 2, into buffers of every length up to a number's longest and beyond.
    #[test]
    fn numbers_next_to_powers_of_2() {
        for shift in 0..64 {
            let power = 1u64 << shift;
            for value in [power - 1, power, power + 1, power + 6, u64::MAX - power] {
                reads_alike(&number::bytes(value), 0);
                for length in 0..8 {
                    let _ = both::write_number(value, &mut vec![FILLER; length], 0);
                    let _ = both::write_number(value, &mut vec![FILLER; length], 1);
                }
            }
        }
    }

    /// "A number above it, written alone, is 4, before 15": the largest has five bytes.
    #[test]
    fn the_largest_and_above() {
        let form = [0xFF, 0xFF, 0xFF, 0xFF, 0x7F];
        let mut buffer = [FILLER; 5];
        assert_eq!(both::write_number(LARGEST, &mut buffer, 0), Ok(5));
        assert_eq!(buffer, form);
        assert_eq!(both::read_number(&form, 0), Ok((LARGEST, 5)));
        for length in 0..8 {
            let write = |value| both::write_number(value, &mut vec![FILLER; length], 0);
            assert_eq!(write(LARGEST).err(), (length < 5).then_some(refusal(15)));
            assert_eq!(write(LARGEST + 1), Err(refusal(4)));
            assert_eq!(write(u64::MAX), Err(refusal(4)));
        }
    }

    #[test]
    fn digests_agree() {
        let message: Vec<u8> = (0..70_000u32).map(|i| ((i * i) >> 5) as u8).collect();
        for length in (0..300).chain([1_000, 4_095, 65_535, 65_536, 65_537, 70_000]) {
            let _ = both::digest(&message[..length]);
        }
    }
}
