//! Numbers in groups of seven bits (01, "Numbers and digests"; the largest: 02, b).
use super::{lent, refusal, Refusal};

/// "Numbers are read and written up to 34,359,738,367": all that five groups hold.
pub const LARGEST: u64 = 34_359_738_367;

/// The number at the front of `bytes` and how many bytes it takes.
pub fn read(bytes: &[u8]) -> Result<(u64, usize), Refusal> {
    let ahead = &bytes[..bytes.len().min(5)];
    let Some(last) = ahead.iter().position(|byte| byte & 0x80 == 0) else {
        return Err(refusal(if ahead.len() < 5 { 3 } else { 4 }));
    };
    if last > 0 && ahead[last] == 0 {
        return Err(refusal(4));
    }
    let groups = ahead[..=last].iter().rev();
    let value = groups.fold(0, |value, byte| value << 7 | u64::from(byte & 0x7F));
    Ok((value, last + 1))
}

/// The bytes of a number. One above the largest has more than five, which nobody reads.
pub fn bytes(mut value: u64) -> Vec<u8> {
    let mut bytes = Vec::new();
    while value > 0x7F {
        bytes.push(lowest_byte(value) | 0x80);
        value >>= 7;
    }
    bytes.push(lowest_byte(value));
    bytes
}

fn lowest_byte(value: u64) -> u8 {
    value.to_le_bytes()[0]
}

/// Writes a number into a buffer from a place on and gives its length: 4, then 15.
pub fn write(value: u64, buffer: &mut [u8], at: usize) -> Result<usize, Refusal> {
    if value > LARGEST {
        return Err(refusal(4));
    }
    lent::put(&bytes(value), buffer, at)
}

#[cfg(test)]
mod tests {
    use super::*;

    /// 01's table, 02's largest, and the numbers next to it and to what 32 bits hold.
    const TABLE: [(u64, &[u8]); 10] = [
        (0, &[0x00]),
        (127, &[0x7F]),
        (128, &[0x80, 0x01]),
        (300, &[0xAC, 0x02]),
        (16_383, &[0xFF, 0x7F]),
        (16_384, &[0x80, 0x80, 0x01]),
        (4_294_967_295, &[0xFF, 0xFF, 0xFF, 0xFF, 0x0F]),
        (4_294_967_296, &[0x80, 0x80, 0x80, 0x80, 0x10]),
        (34_359_738_366, &[0xFE, 0xFF, 0xFF, 0xFF, 0x7F]),
        (34_359_738_367, &[0xFF, 0xFF, 0xFF, 0xFF, 0x7F]),
    ];

    #[test]
    fn tables_of_01_and_02() {
        for (value, form) in TABLE {
            assert_eq!(bytes(value), form);
            assert_eq!(read(form), Ok((value, form.len())));
            for end in 0..form.len() {
                assert_eq!(read(&form[..end]), Err(refusal(3)));
            }
        }
    }

    /// "So FF FF FF FF 10 becomes readable": 16 times 2^28, and what four groups hold.
    #[test]
    fn what_was_too_large() {
        let value = (16 << 28) + 268_435_455;
        assert_eq!(read(&[0xFF, 0xFF, 0xFF, 0xFF, 0x10]), Ok((value, 5)));
    }

    #[test]
    fn not_read() {
        assert_eq!(read(&[0x80, 0x00]), Err(refusal(4)));
        assert_eq!(read(&[0x80, 0x80, 0x00, 0x55]), Err(refusal(4)));
        assert_eq!(read(&[0xFF, 0xFF, 0xFF, 0xFF, 0x00]), Err(refusal(4)));
        assert_eq!(read(&[0x80]), Err(refusal(3)));
        assert_eq!(read(&[]), Err(refusal(3)));
        assert_eq!(read(&[0x80, 0x80, 0x80, 0x80]), Err(refusal(3)));
        assert_eq!(read(&[0x80; 5]), Err(refusal(4)));
        assert_eq!(read(&[0xFF; 5]), Err(refusal(4)));
        assert_eq!(read(&[0x80, 0x80, 0x80, 0x80, 0x80, 0x00]), Err(refusal(4)));
        assert_eq!(read(&bytes(LARGEST + 1)), Err(refusal(4)));
        assert_eq!(read(&bytes(u64::MAX)), Err(refusal(4)));
    }

    #[test]
    fn every_form_is_the_shortest() {
        for shift in 1..=35 {
            for value in [(1 << shift) - 2, (1 << shift) - 1, 1 << shift] {
                if value <= LARGEST {
                    let form = bytes(value);
                    assert_eq!(read(&form), Ok((value, form.len())));
                }
            }
        }
    }

    #[test]
    fn every_last_byte() {
        for last in 1..=0x7F {
            let form = [0x80, 0x80, 0x80, 0x80, last];
            assert_eq!(read(&form), Ok((u64::from(last) << 28, 5)));
        }
    }

    #[test]
    fn written_where_it_was_asked() {
        let mut buffer = [0xEE; 7];
        assert_eq!(write(LARGEST, &mut buffer, 1), Ok(5));
        assert_eq!(buffer, [0xEE, 0xFF, 0xFF, 0xFF, 0xFF, 0x7F, 0xEE]);
        assert_eq!(write(1 << 32, &mut buffer, 2), Ok(5));
        assert_eq!(buffer, [0xEE, 0xFF, 0x80, 0x80, 0x80, 0x80, 0x10]);
    }

    /// "A number above it, written alone, is 4, before 15."
    #[test]
    fn too_large_before_too_short() {
        for length in [0, 4, 5, 20] {
            let mut buffer = vec![0xEE; length];
            for value in [LARGEST + 1, 1 << 36, 1 << 63, u64::MAX] {
                assert_eq!(write(value, &mut buffer, 0), Err(refusal(4)));
                assert_eq!(write(value, &mut buffer, usize::MAX), Err(refusal(4)));
            }
            let short = write(LARGEST, &mut buffer, length.saturating_sub(4));
            assert_eq!(short, Err(refusal(15)));
            assert_eq!(buffer, vec![0xEE; length]);
        }
    }
}
