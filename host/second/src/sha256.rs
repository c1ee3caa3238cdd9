//! SHA-256 (FIPS 180-4). The constants are computed from the primes, as the standard says where they come from.
use super::{refusal, Refusal};
use std::sync::OnceLock;

/// "SHA-256 takes any slice of up to 65,536 bytes."
pub const LONGEST: usize = 65_536;

/// The digest of a slice, or 16.
pub fn digest(message: &[u8]) -> Result<[u8; 32], Refusal> {
    if message.len() > LONGEST {
        return Err(refusal(16));
    }
    Ok(sha256(message))
}

/// The digest of a slice of any length.
pub(crate) fn sha256(message: &[u8]) -> [u8; 32] {
    let mut state = constants().1;
    let mut blocks = message.chunks_exact(64);
    for block in &mut blocks {
        compress(&mut state, block.try_into().unwrap());
    }
    let rest = blocks.remainder();
    let mut tail = [0u8; 128];
    tail[..rest.len()].copy_from_slice(rest);
    tail[rest.len()] = 0x80;
    let end = if rest.len() < 56 { 64 } else { 128 };
    tail[end - 8..end].copy_from_slice(&(8 * message.len() as u64).to_be_bytes());
    for block in tail[..end].chunks_exact(64) {
        compress(&mut state, block.try_into().unwrap());
    }
    let mut out = [0u8; 32];
    for (bytes, word) in out.chunks_exact_mut(4).zip(state) {
        bytes.copy_from_slice(&word.to_be_bytes());
    }
    out
}

fn compress(state: &mut [u32; 8], block: &[u8; 64]) {
    let k = &constants().0;
    let mut w = [0u32; 64];
    for (word, bytes) in w.iter_mut().zip(block.chunks_exact(4)) {
        *word = u32::from_be_bytes(bytes.try_into().unwrap());
    }
    for t in 16..64 {
        let s0 = w[t - 15].rotate_right(7) ^ w[t - 15].rotate_right(18) ^ (w[t - 15] >> 3);
        let s1 = w[t - 2].rotate_right(17) ^ w[t - 2].rotate_right(19) ^ (w[t - 2] >> 10);
        w[t] = w[t - 16]
            .wrapping_add(s0)
            .wrapping_add(w[t - 7])
            .wrapping_add(s1);
    }
    let [mut a, mut b, mut c, mut d, mut e, mut f, mut g, mut h] = *state;
    for t in 0..64 {
        let s1 = e.rotate_right(6) ^ e.rotate_right(11) ^ e.rotate_right(25);
        let choice = (e & f) ^ (!e & g);
        let t1 = h
            .wrapping_add(s1)
            .wrapping_add(choice)
            .wrapping_add(k[t])
            .wrapping_add(w[t]);
        let s0 = a.rotate_right(2) ^ a.rotate_right(13) ^ a.rotate_right(22);
        let majority = (a & b) ^ (a & c) ^ (b & c);
        let t2 = s0.wrapping_add(majority);
        (h, g, f, e, d, c, b, a) = (g, f, e, d.wrapping_add(t1), c, b, a, t1.wrapping_add(t2));
    }
    for (old, new) in state.iter_mut().zip([a, b, c, d, e, f, g, h]) {
        *old = old.wrapping_add(new);
    }
}

/// The round constants and the initial hash: the first 32 bits of the fractional parts of the cube roots of the first
/// 64 primes and of the square roots of the first eight.
fn constants() -> &'static ([u32; 64], [u32; 8]) {
    static CONSTANTS: OnceLock<([u32; 64], [u32; 8])> = OnceLock::new();
    CONSTANTS.get_or_init(|| {
        let primes: Vec<u128> = (2u128..)
            .filter(|n| (2..*n).all(|d| n % d != 0))
            .take(64)
            .collect();
        let mut rounds = [0; 64];
        let mut initial = [0; 8];
        for (constant, prime) in rounds.iter_mut().zip(&primes) {
            *constant = root(|x| x * x * x <= prime << 96) as u32;
        }
        for (constant, prime) in initial.iter_mut().zip(&primes) {
            *constant = root(|x| x * x <= prime << 64) as u32;
        }
        (rounds, initial)
    })
}

/// The greatest number below 2^40 that is small enough.
fn root(small: impl Fn(u128) -> bool) -> u128 {
    (0..40).rev().fold(
        0,
        |x, bit| if small(x | 1 << bit) { x | 1 << bit } else { x },
    )
}

#[cfg(test)]
mod tests {
    use super::*;

    fn hex(message: &[u8]) -> String {
        sha256(message)
            .iter()
            .map(|byte| format!("{byte:02x}"))
            .collect()
    }

    /// The standard's own examples.
    #[test]
    fn examples_of_the_standard() {
        assert_eq!(
            hex(b""),
            "e3b0c44298fc1c149afbf4c8996fb92427ae41e4649b934ca495991b7852b855"
        );
        assert_eq!(
            hex(b"abc"),
            "ba7816bf8f01cfea414140de5dae2223b00361a396177a9cb410ff61f20015ad"
        );
        assert_eq!(
            hex(b"abcdbcdecdefdefgefghfghighijhijkijkljklmklmnlmnomnopnopq"),
            "248d6a61d20638b8e5c026930c3e6039a33ce45964ff2167f6ecedd419db06c1"
        );
        assert_eq!(
            hex(b"abcdefghbcdefghicdefghijdefghijkefghijklfghijklmghijklmnhijklmnoijklmnopjklmnopqklmnopqrlmnopqrsmnopqrstnopqrstu"),
            "cf5b16a778af8380036ce59e7b0492370b249b11e8f07a51afac45037afee9d1"
        );
    }

    #[test]
    fn first_and_last_constants() {
        let (rounds, initial) = constants();
        assert_eq!((rounds[0], rounds[63]), (0x428a2f98, 0xc67178f2));
        assert_eq!((initial[0], initial[7]), (0x6a09e667, 0x5be0cd19));
    }

    #[test]
    fn longest() {
        assert!(digest(&[0; LONGEST]).is_ok());
        assert_eq!(digest(&[0; LONGEST + 1]), Err(refusal(16)));
    }
}
