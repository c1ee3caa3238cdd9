//! The boot manifest.
use super::across;
use second::order::Release;
use second::Refusal;

pub fn check_manifest(
    image: &[u8],
    manifest: &[u8],
    key: &[u8],
    settled: Release,
) -> Result<(), Refusal> {
    ledger::check_manifest(image, manifest, key, settled).map_err(across::refusal)
}

#[cfg(test)]
mod tests {
    use std::collections::BTreeMap;

    use crate::both;
    use crate::rounds::{all_are_made, rounds};
    use second::chance::Chance;
    use second::lms::{KEY_BYTES, OTS_TYPE_AT, SIGNATURE_BYTES, TYPE_AT};
    use second::number::LARGEST;
    use second::refusal;
    use second::samples::{refuses_boots_in_order, Boot};

    /// The number of the refusal, 0 where there is none. The place is always 0.
    fn checked(boot: &Boot) -> u32 {
        match boot.check(both::check_manifest) {
            Ok(()) => 0,
            Err(refused) => {
                assert_eq!(refused, refusal(refused.number));
                refused.number
            }
        }
    }

    #[test]
    fn the_earliest_of_several_faults() {
        assert_eq!(checked(&Boot::good()), 0);
        refuses_boots_in_order(both::check_manifest);
    }

    /// What a flipped bit of the good manifest brings, whose release is AC 02 and whose digest begins with BC E0 AF.
    fn flipped(at: usize, bit: usize) -> u32 {
        match (at, bit) {
            // 2C is a whole number, and the signature behind the digest has a byte more
            (0, 7) => 23,
            // AC 00 is not the shortest form, and AC 82 BC E0 AF is too large
            (1, 1 | 7) => 4,
            (38..42 | 1_162..1_166, _) => 23,
            _ => 24,
        }
    }

    /// Every bit but of the chains, 1,088 bytes that all go the same way: there one bit of each byte.
    #[test]
    fn bits_of_the_manifest_flipped() {
        let good = Boot::good();
        let every = usize::try_from(100 / rounds(100)).unwrap();
        let bits = (0..good.manifest.len()).flat_map(|at| (0..8).map(move |bit| (at, bit)));
        let bits = bits.filter(|(at, bit)| !(74..1_162).contains(at) || at % 8 == *bit);
        for (at, bit) in bits.step_by(every) {
            let mut boot = good.clone();
            boot.manifest[at] ^= 1 << bit;
            assert_eq!(checked(&boot), flipped(at, bit), "byte {at}, bit {bit}");
        }
    }

    #[test]
    fn every_bit_of_the_key_flipped() {
        let good = Boot::good();
        for bit in 0..8 * KEY_BYTES {
            let mut boot = good.clone();
            boot.key[bit / 8] ^= 1 << (bit % 8);
            assert_eq!(checked(&boot), if bit < 64 { 23 } else { 24 }, "bit {bit}");
        }
    }

    #[test]
    fn cut_at_every_byte_and_extended() {
        for good in [Boot::good(), Boot::of(LARGEST, vec![], 7)] {
            let text = good.manifest.len() - SIGNATURE_BYTES;
            for length in 0..good.manifest.len() + 70 {
                let mut boot = good.clone();
                boot.manifest.resize(length, 0);
                let expected = match length {
                    _ if length == good.manifest.len() => 0,
                    _ if length < text => 3,
                    _ => 23,
                };
                assert_eq!(checked(&boot), expected, "{length} bytes");
            }
            for length in (0..KEY_BYTES).chain([57, 60, 64, 112, 1_292]) {
                let mut boot = good.clone();
                boot.key.resize(length, 0);
                assert_eq!(checked(&boot), 23, "a key of {length} bytes");
            }
        }
    }

    #[test]
    fn every_type_code() {
        let codes = (0..=10).chain([0x0400, 0x0500, 0x0400_0000, 0x8000_0005, u32::MAX]);
        for code in codes {
            for (at, good) in [(OTS_TYPE_AT, 4), (TYPE_AT, 5)] {
                let mut boot = Boot::good();
                boot.put(at, code);
                assert_eq!(checked(&boot), if code == good { 0 } else { 23 });
            }
            for (at, good) in [(0, 5), (4, 4)] {
                let mut boot = Boot::good();
                boot.key[at..at + 4].copy_from_slice(&code.to_be_bytes());
                assert_eq!(checked(&boot), if code == good { 0 } else { 23 });
            }
        }
    }

    /// Every leaf signs, and no signature is good as another leaf's.
    #[test]
    fn every_leaf() {
        for leaf in 0..32 {
            let good = Boot::of(1 << 33, vec![5; 20], leaf);
            assert_eq!(checked(&good), 0, "leaf {leaf}");
            for other in [leaf ^ 1, leaf ^ 16, 32 + leaf, 32, 33, u32::MAX] {
                let mut boot = good.clone();
                boot.put(0, other);
                assert_eq!(checked(&boot), 24, "leaf {leaf} as {other}");
            }
        }
    }

    /// At the edges of the digest's blocks, and of what is digested.
    #[test]
    fn images() {
        for length in [0, 1, 55, 56, 63, 64, 119, 120, 65_535, 65_536] {
            let good = Boot::of(7, vec![0xA5; length], 3);
            assert_eq!(checked(&good), 0, "{length} bytes");
            for other in [length + 1, length.saturating_sub(1)] {
                let mut boot = good.clone();
                boot.image.resize(other, 0xA5);
                let expected = match other {
                    65_537 => 16,
                    _ if other == length => 0,
                    _ => 25,
                };
                assert_eq!(checked(&boot), expected, "{length} as {other} bytes");
            }
        }
        assert_eq!(checked(&Boot::of(7, vec![0xA5; 65_537], 3)), 16);
    }

    /// Numbers of every length, and settled releases that differ in one bit, above the largest too.
    #[test]
    fn releases() {
        for release in [0, 127, 128, 16_384, 1 << 21, 1 << 28, 1 << 32, LARGEST] {
            let good = Boot::of(release, vec![1, 2, 3], 30);
            assert_eq!(checked(&good), 0, "release {release}");
            for bit in [0, 1, 31, 32, 34, 35, 63] {
                let mut boot = good.clone();
                boot.settled ^= 1 << bit;
                assert_eq!(checked(&boot), 26, "release {release}, bit {bit}");
            }
        }
    }

    #[test]
    fn by_chance() {
        let mut chance = Chance::of_seed(9);
        let mut met = BTreeMap::new();
        for _ in 0..rounds(1_500) {
            *met.entry(checked(&chance.boot())).or_insert(0) += 1;
        }
        if all_are_made() {
            let numbers: Vec<u32> = met.keys().copied().collect();
            assert_eq!(numbers, [0, 3, 4, 23, 24, 25, 26], "{met:?}");
        }
    }
}
