//! Lent bytes: parts taken off the front of a slice (3, 4), and bytes put into a buffer (15).
use super::{number, refusal, Refusal};

/// Takes the number at the front of `rest`.
pub fn number(rest: &mut &[u8]) -> Result<u64, Refusal> {
    let (value, length) = number::read(rest)?;
    *rest = &rest[length..];
    Ok(value)
}

/// Takes `N` bytes off the front of `rest`.
pub fn array<const N: usize>(rest: &mut &[u8]) -> Result<[u8; N], Refusal> {
    let (front, after) = rest.split_first_chunk().ok_or(refusal(3))?;
    *rest = after;
    Ok(*front)
}

/// Puts bytes into a lent buffer from a place on and gives their length, or 15. "Bytes past what a call writes stay."
pub fn put(bytes: &[u8], buffer: &mut [u8], at: usize) -> Result<usize, Refusal> {
    let room = buffer
        .get_mut(at..)
        .and_then(|rest| rest.get_mut(..bytes.len()))
        .ok_or(refusal(15))?;
    room.copy_from_slice(bytes);
    Ok(bytes.len())
}

#[cfg(test)]
mod tests {
    use super::*;

    #[test]
    fn parts_are_taken_off_the_front() {
        let mut rest: &[u8] = &[0xAC, 0x02, 7, 8, 9];
        assert_eq!(number(&mut rest), Ok(300));
        assert_eq!(array(&mut rest), Ok([7, 8]));
        assert_eq!(array::<2>(&mut rest), Err(refusal(3)));
        assert_eq!(rest, [9]);
        assert_eq!(array(&mut rest), Ok([9]));
        assert_eq!(number(&mut rest), Err(refusal(3)));
        assert_eq!(array(&mut rest), Ok([]));
    }

    #[test]
    fn other_bytes_stay() {
        let mut buffer = [1; 5];
        assert_eq!(put(&[8, 9], &mut buffer, 1), Ok(2));
        assert_eq!(buffer, [1, 8, 9, 1, 1]);
        assert_eq!(put(&[6, 7], &mut buffer, 3), Ok(2));
        assert_eq!(buffer, [1, 8, 9, 6, 7]);
        assert_eq!(put(&[], &mut buffer, 5), Ok(0));
    }

    #[test]
    fn too_short() {
        for at in [4, 5, 6, usize::MAX] {
            let mut buffer = [1; 5];
            assert_eq!(put(&[8, 9], &mut buffer, at), Err(refusal(15)));
            assert_eq!(buffer, [1; 5]);
        }
    }
}
