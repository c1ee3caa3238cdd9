//! The genesis table, and the rules that hang on it.
use super::across;
use ledger::Genesis;
use second::order::Slot;
use second::Refusal;

pub fn read_genesis(bytes: &[u8]) -> Result<Genesis, Refusal> {
    Genesis::read(bytes).map_err(across::refusal)
}

/// A controller's key.
pub fn key(bytes: &[u8], controller: u32) -> Result<&[u8; 32], Refusal> {
    ledger::key(bytes, controller).map_err(across::refusal)
}

/// Whose turn a slot is.
pub fn turn(table: &Genesis, slot: Slot) -> u32 {
    table.turn(across::lent_slot(slot))
}

#[cfg(test)]
mod tests {
    use super::*;
    use crate::both;
    use crate::rounds::rounds;
    use ledger::{genesis_fault, raw, BlockCount};
    use second::chance::Chance;
    use second::{number, samples};

    /// A table of zeros but for these, which can be told apart.
    fn table(n: u32, t: u32) -> Genesis {
        Genesis {
            n,
            t,
            u: 77,
            releases: std::array::from_fn(|display| (1 << 33) + display as u64),
            keys_at: 55,
        }
    }

    /// Reads a table with both, and sees that the proved one leaves zeros beside a refusal, and that the wrapper has words exactly for that.
    fn reads_alike(bytes: &[u8]) {
        let read = both::read_genesis(bytes);
        assert_eq!(genesis_fault(bytes).is_ok(), read.is_ok());
        if let Err(refused) = read {
            let zeros = raw::GenesisAnswer {
                refusal: refused.number,
                place: BlockCount(refused.place),
                table: Genesis {
                    n: 0,
                    t: 0,
                    u: 0,
                    releases: [0; 64],
                    keys_at: 0,
                },
            };
            assert_eq!(raw::ledger_read_genesis(bytes), zeros);
        }
    }

    #[test]
    fn tables_are_read_alike() {
        for n in 1..=31 {
            for t in 0..=(n - 1) / 3 {
                reads_alike(&samples::genesis(n, t, n + 1).bytes());
            }
        }
        for (_, bytes) in samples::bad_geneses() {
            reads_alike(&bytes);
        }
        let mut large = samples::genesis(31, 10, 64);
        large.releases = std::array::from_fn(|display| number::LARGEST - display as u64);
        reads_alike(&large.bytes());
        large.releases[63] = number::LARGEST + 1;
        reads_alike(&large.bytes());
        let mut chance = Chance::of_seed(3);
        for _ in 0..rounds(2_000) {
            let bytes = chance.table().bytes();
            reads_alike(&bytes);
            reads_alike(&chance.faulty(bytes));
        }
    }

    #[test]
    fn tables_that_were_not_read() {
        assert_eq!(turn(&table(0, 3), Slot(9)), 0);
        assert_eq!(turn(&table(6, 3), Slot(0)), 1);
        assert_eq!(turn(&table(5, 3), Slot(9)), 4);
        assert_eq!(table(0, 0).depth(), 0);
        assert_eq!(table(1, u32::MAX).depth(), 0);
    }

    /// Every size, read or not, and those where 3t + 1 or 6t + 1 is small in 32 bits.
    #[test]
    fn depths_are_alike() {
        let wrapping = [1_431_655_765, 1_431_655_766, 715_827_883, u32::MAX];
        for n in (0..=33).chain([u32::MAX]) {
            for t in (0..=12).chain(wrapping) {
                let other = samples::genesis(n.min(33), t, 1);
                let other = second::genesis::Genesis { n, ..other };
                let depth = u64::from(other.depth());
                assert_eq!(table(n, t).depth(), depth, "n = {n}, t = {t}");
            }
        }
    }
}
