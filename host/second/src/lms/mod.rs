//! LMS signatures (RFC 8554) of the one kind that 02, l) names: LMS_SHA256_M32_H5 with LMOTS_SHA256_N32_W8, and no HSS.
pub mod published;
pub mod signer;

use crate::sha256::sha256;
use crate::{refusal, Refusal};

/// LMS_SHA256_M32_H5 (RFC 8554, Table 2): a tree of height 5, so that a key has 32 leaves.
pub const LMS_TYPE: u32 = 5;
/// LMOTS_SHA256_N32_W8 (Table 1): digits of eight bits, 34 of them.
pub const LMOTS_TYPE: u32 = 4;
pub const HEIGHT: usize = 5;
pub const LEAVES: u32 = 32;
pub const DIGITS: usize = 34;

/// Type codes, I and T[1].
pub const KEY_BYTES: usize = 4 + 4 + 16 + 32;
/// q, the LM-OTS type, C, y[0] to y[33], the LMS type and the path.
pub const SIGNATURE_BYTES: usize = 4 + 4 + 32 + 32 * DIGITS + 4 + 32 * HEIGHT;

/// The places in a signature where something begins.
pub const OTS_TYPE_AT: usize = 4;
const RANDOM_AT: usize = 8;
const CHAINS_AT: usize = 40;
pub const TYPE_AT: usize = CHAINS_AT + 32 * DIGITS;
const PATH_AT: usize = TYPE_AT + 4;

/// What tells one use of the hash from another (section 7.1).
const MESSAGE: [u8; 2] = [0x81, 0x81];
const PUBLIC: [u8; 2] = [0x80, 0x80];
const LEAF: [u8; 2] = [0x82, 0x82];
const INNER: [u8; 2] = [0x83, 0x83];

pub type Hash = [u8; 32];

/// Whether a signature over a message verifies under a public key (Algorithm 6): 23 for a wrong length or type code, 24 for all else.
pub fn verify(key: &[u8], message: &[u8], signature: &[u8]) -> Result<(), Refusal> {
    if key.len() != KEY_BYTES || signature.len() != SIGNATURE_BYTES {
        return Err(refusal(23));
    }
    let lms_types = [word(key, 0), word(signature, TYPE_AT)];
    let ots_types = [word(key, 4), word(signature, OTS_TYPE_AT)];
    if lms_types != [LMS_TYPE; 2] || ots_types != [LMOTS_TYPE; 2] {
        return Err(refusal(23));
    }
    let leaf = word(signature, 0);
    let tree = Tree(part(key, 8));
    if leaf >= LEAVES || tree.root(leaf, message, signature) != part::<32>(key, 24) {
        return Err(refusal(24));
    }
    Ok(())
}

/// The identifier I of a key, which goes into every hash.
#[derive(Clone, Copy)]
struct Tree([u8; 16]);

impl Tree {
    /// The root that a signature over a message leads to (Algorithm 6a).
    fn root(self, leaf: u32, message: &[u8], signature: &[u8]) -> Hash {
        let digits = self.digits(leaf, &part(signature, RANDOM_AT), message);
        let ends = (0u16..).zip(digits).map(|(i, digit)| {
            let begin = part(signature, CHAINS_AT + 32 * usize::from(i));
            self.chain(leaf, i, begin, digit, u8::MAX)
        });
        let key = self.ots_key(leaf, ends);
        let path = (0..HEIGHT).map(|level| part(signature, PATH_AT + 32 * level));
        self.climb(LEAVES + leaf, self.leaf_node(leaf, key), path)
    }

    /// The digits of a message's hash, and those of its checksum (Algorithm 4b, and 2 for the checksum, which is not shifted for W8).
    fn digits(self, leaf: u32, random: &Hash, message: &[u8]) -> [u8; DIGITS] {
        let hash = self.hash(leaf, &[&MESSAGE, random, message]);
        let sum: u16 = hash.iter().map(|digit| u16::from(u8::MAX - digit)).sum();
        let mut digits = [0; DIGITS];
        digits[..32].copy_from_slice(&hash);
        digits[32..].copy_from_slice(&sum.to_be_bytes());
        digits
    }

    /// The steps of the chain `i` from one place to another: each is a hash of I, q, i, the step and the value before.
    fn chain(self, leaf: u32, i: u16, begin: Hash, from: u8, to: u8) -> Hash {
        let mut message = [0; 55];
        message[..16].copy_from_slice(&self.0);
        message[16..20].copy_from_slice(&leaf.to_be_bytes());
        message[20..22].copy_from_slice(&i.to_be_bytes());
        message[23..].copy_from_slice(&begin);
        for step in from..to {
            message[22] = step;
            let value = sha256(&message);
            message[23..].copy_from_slice(&value);
        }
        part(&message, 23)
    }

    /// The key of one leaf, from the ends of its chains.
    fn ots_key(self, leaf: u32, ends: impl Iterator<Item = Hash>) -> Hash {
        let ends: Vec<u8> = ends.flatten().collect();
        self.hash(leaf, &[&PUBLIC, &ends])
    }

    fn leaf_node(self, leaf: u32, key: Hash) -> Hash {
        self.hash(LEAVES + leaf, &[&LEAF, &key])
    }

    fn inner_node(self, node: u32, left: &Hash, right: &Hash) -> Hash {
        self.hash(node, &[&INNER, left, right])
    }

    /// From a node up to the root, beside the nodes of a path.
    fn climb(self, node: u32, value: Hash, path: impl Iterator<Item = Hash>) -> Hash {
        let root = path.fold((node, value), |(node, value), beside| {
            let (left, right) = match node % 2 {
                0 => (value, beside),
                _ => (beside, value),
            };
            (node / 2, self.inner_node(node / 2, &left, &right))
        });
        root.1
    }

    /// Every hash begins with I and a number, a leaf's or a node's.
    fn hash(self, number: u32, parts: &[&[u8]]) -> Hash {
        let mut message = self.0.to_vec();
        message.extend(number.to_be_bytes());
        parts
            .iter()
            .for_each(|part| message.extend_from_slice(part));
        sha256(&message)
    }
}

/// So many bytes from a place on.
fn part<const N: usize>(bytes: &[u8], at: usize) -> [u8; N] {
    bytes[at..at + N].try_into().unwrap()
}

fn word(bytes: &[u8], at: usize) -> u32 {
    u32::from_be_bytes(part(bytes, at))
}

#[cfg(test)]
mod tests {
    use super::published::{cases, Published};
    use super::signer::Signer;
    use super::*;

    fn verifies(case: &Published) -> Result<(), Refusal> {
        verify(&case.key, &case.message, &case.signature)
    }

    /// A flipped byte of a type code is 23, any other 24.
    fn flipped(at: usize, codes: &[usize]) -> Result<(), Refusal> {
        let coded = codes.iter().any(|begin| (*begin..begin + 4).contains(&at));
        Err(refusal(if coded { 23 } else { 24 }))
    }

    #[test]
    fn published_cases() {
        let cases = cases();
        assert_eq!(cases.len(), 3);
        for case in &cases {
            assert_eq!(verifies(case), Ok(()), "{}", case.name);
        }
        for (case, other) in cases.iter().zip(cases.iter().cycle().skip(1)) {
            let crossed = verify(&other.key, &case.message, &case.signature);
            assert_eq!(crossed, Err(refusal(24)));
            let crossed = verify(&case.key, &other.message, &case.signature);
            assert_eq!(crossed, Err(refusal(24)));
        }
    }

    #[test]
    fn every_byte_of_a_signature_flipped() {
        let mut case = cases().remove(0);
        for at in 0..SIGNATURE_BYTES {
            case.signature[at] ^= 1;
            assert_eq!(verifies(&case), flipped(at, &[4, 1_128]), "byte {at}");
            case.signature[at] ^= 1;
        }
    }

    #[test]
    fn every_byte_of_a_key_flipped() {
        for mut case in cases() {
            for at in 0..KEY_BYTES {
                case.key[at] ^= 0x80;
                assert_eq!(verifies(&case), flipped(at, &[0, 4]), "byte {at}");
                case.key[at] ^= 0x80;
            }
        }
    }

    #[test]
    fn every_byte_of_a_message_flipped() {
        let mut case = cases().remove(2);
        for at in 0..case.message.len() {
            case.message[at] ^= 0x10;
            assert_eq!(verifies(&case), Err(refusal(24)), "byte {at}");
            case.message[at] ^= 0x10;
        }
    }

    #[test]
    fn cut_and_extended() {
        let mut case = cases().remove(1);
        for length in (0..KEY_BYTES).chain([57, 60, 112]) {
            let mut key = case.key.clone();
            key.resize(length, 0);
            let told = verify(&key, &case.message, &case.signature);
            assert_eq!(told, Err(refusal(23)));
        }
        for length in (0..SIGNATURE_BYTES).chain([1_293, 1_324, 2_584]) {
            let mut signature = case.signature.clone();
            signature.resize(length, 0);
            let told = verify(&case.key, &case.message, &signature);
            assert_eq!(told, Err(refusal(23)));
        }
        case.message.pop();
        assert_eq!(verifies(&case), Err(refusal(24)));
    }

    /// The good codes are 5 and 4: all others of the RFC's tables, and some that it does not have, are 23.
    #[test]
    fn every_type_code() {
        let codes = (0..=10).chain([0x0400, 0x0500_0000, 0x8000_0005, u32::MAX]);
        for code in codes {
            for (in_key, at, good) in [(true, 0, 5), (true, 4, 4), (false, 1_128, 5), (false, 4, 4)]
            {
                let mut case = cases().remove(0);
                let bytes = if in_key {
                    &mut case.key
                } else {
                    &mut case.signature
                };
                bytes[at..at + 4].copy_from_slice(&code.to_be_bytes());
                let expected = if code == good {
                    Ok(())
                } else {
                    Err(refusal(23))
                };
                assert_eq!(verifies(&case), expected, "{code} at {at}");
            }
        }
    }

    /// The published signature is of leaf 5.
    #[test]
    fn every_other_leaf() {
        let mut case = cases().remove(0);
        for leaf in (0..40).chain([63, 64, 1 << 31, u32::MAX]) {
            case.signature[..4].copy_from_slice(&leaf.to_be_bytes());
            let expected = if leaf == 5 { Ok(()) } else { Err(refusal(24)) };
            assert_eq!(verifies(&case), expected, "{leaf}");
        }
    }

    /// A bad code is looked for before a bad leaf, and before what does not verify.
    #[test]
    fn form_before_signature() {
        let mut case = cases().remove(0);
        case.signature[0] = 1;
        assert_eq!(verifies(&case), Err(refusal(24)));
        case.signature[1_131] = 6;
        assert_eq!(verifies(&case), Err(refusal(23)));
    }

    /// Appendix A and Algorithms 3 and 5: the RFC's seed gives its key, and with its randomizer its signature, byte for byte.
    #[test]
    fn the_published_key_and_signature_are_made_again() {
        let case = cases().remove(2);
        let signer = Signer::new(part(&case.key, 8), case.seed.unwrap());
        assert_eq!(signer.key(), case.key);
        let random = part(&case.signature, RANDOM_AT);
        let leaf = word(&case.signature, 0);
        let signature = signer.sign_with(leaf, &random, &case.message);
        assert_eq!(signature, case.signature);
    }

    #[test]
    fn every_leaf_signs() {
        let signer = Signer::new([7; 16], [8; 32]);
        for leaf in 0..LEAVES {
            let signature = signer.sign(leaf, b"message");
            assert_eq!(verify(&signer.key(), b"message", &signature), Ok(()));
        }
    }
}
