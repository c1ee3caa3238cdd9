//! The boot manifest (02, l): a release, the digest of its image, and an LMS signature over both.
use crate::lms::{self, signer::Signer};
use crate::order::Release;
use crate::{number, refusal, sha256, Refusal};

/// Whether a manifest is for this image and this release, and signed under this key: 16, 3 and 4 in byte order, 23, 24, 25, 26.
pub fn check(image: &[u8], manifest: &[u8], key: &[u8], settled: Release) -> Result<(), Refusal> {
    let image_digest = sha256::digest(image)?;
    let (release, digest_at) = number::read(manifest)?;
    let (text, signature) = manifest
        .split_at_checked(digest_at + image_digest.len())
        .ok_or(refusal(3))?;
    lms::verify(key, text, signature)?;
    if text[digest_at..] != image_digest {
        return Err(refusal(25));
    }
    if release != settled {
        return Err(refusal(26));
    }
    Ok(())
}

/// What is signed of a manifest: the release as a number, and a digest.
pub fn text(release: Release, digest: &[u8; 32]) -> Vec<u8> {
    [&number::bytes(release), &digest[..]].concat()
}

/// A manifest over this text, signed with a leaf.
pub fn signed(signer: &Signer, leaf: u32, text: &[u8]) -> Vec<u8> {
    [text, &signer.sign(leaf, text)].concat()
}

#[cfg(test)]
mod tests {
    use super::*;
    use crate::number::LARGEST;
    use crate::samples::{refuses_boots_in_order, signer, Boot};

    fn checked(boot: &Boot) -> Result<(), Refusal> {
        boot.check(check)
    }

    #[test]
    fn refusals_in_order() {
        assert_eq!(checked(&Boot::good()), Ok(()));
        refuses_boots_in_order(check);
    }

    /// Numbers of one to five bytes, and images at the edges of the digest's blocks and of what is digested.
    #[test]
    fn every_length_of_a_number_and_of_an_image() {
        for release in [0, 127, 128, 16_384, 1 << 21, 1 << 28, 1 << 32, LARGEST] {
            let boot = Boot::of(release, vec![9; 10], 0);
            assert_eq!(checked(&boot), Ok(()));
            for settled in [release.wrapping_sub(1), release + 1, release | 1 << 35] {
                let other = Boot {
                    settled,
                    ..boot.clone()
                };
                assert_eq!(checked(&other), Err(refusal(26)));
            }
        }
        for length in [0, 1, 55, 56, 64, 65_536] {
            assert_eq!(checked(&Boot::of(7, vec![9; length], 31)), Ok(()));
        }
        let longer = Boot::of(7, vec![9; 65_537], 31);
        assert_eq!(checked(&longer), Err(refusal(16)));
    }

    /// A number of five bytes: up to them and the digest the manifest is cut, and from there on the signature is too short.
    #[test]
    fn cut_and_extended() {
        let good = Boot::of(LARGEST, vec![9; 10], 2);
        assert_eq!(good.manifest.len(), 5 + 32 + 1_292);
        for length in (0..good.manifest.len()).chain([1_330, 1_400]) {
            let mut boot = good.clone();
            boot.manifest.resize(length, 0);
            let number = if length < 37 { 3 } else { 23 };
            assert_eq!(checked(&boot), Err(refusal(number)), "{length} bytes");
        }
    }

    /// In byte order: a number is read before the bytes behind it are missed.
    #[test]
    fn badly_written_numbers() {
        for (bytes, number) in [
            (&[0x80][..], 3),
            (&[0x80, 0x80, 0x80, 0x80], 3),
            (&[0x80, 0x00], 4),
            (&[0x80, 0x80, 0x80, 0x80, 0x80], 4),
            (&[0x05], 3),
        ] {
            let mut boot = Boot::good();
            boot.manifest = bytes.to_vec();
            assert_eq!(checked(&boot), Err(refusal(number)), "{bytes:?}");
        }
    }

    /// A digest or a release that was changed after signing is 24: only what is signed is compared with the image and the settled release.
    #[test]
    fn what_is_signed_is_judged_last() {
        let mut boot = Boot::good();
        boot.manifest[2] ^= 1;
        assert_eq!(checked(&boot), Err(refusal(24)));
        let mut boot = Boot::good();
        boot.manifest[0] ^= 1;
        boot.settled ^= 1;
        assert_eq!(checked(&boot), Err(refusal(24)));
        let other = text(300, &[7; 32]);
        let boot = Boot {
            manifest: signed(signer(), 4, &other),
            settled: 301,
            ..Boot::good()
        };
        assert_eq!(checked(&boot), Err(refusal(25)));
    }

    /// A number that no caller can have settled is not cut down to one that can.
    #[test]
    fn a_settled_release_above_the_largest() {
        for settled in [LARGEST + 1, 300 + (1 << 35), 300 + (1 << 63), u64::MAX] {
            let boot = Boot {
                settled,
                ..Boot::good()
            };
            assert_eq!(checked(&boot), Err(refusal(26)));
        }
    }

    #[test]
    fn every_leaf() {
        for leaf in 0..32 {
            let boot = Boot::of(1, vec![1], leaf);
            assert_eq!(checked(&boot), Ok(()));
            for other in [leaf ^ 1, leaf ^ 16, leaf + 32, 32, u32::MAX] {
                let mut boot = boot.clone();
                boot.put(0, other);
                assert_eq!(checked(&boot), Err(refusal(24)), "{leaf} as {other}");
            }
        }
    }
}
