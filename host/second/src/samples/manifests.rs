//! A good manifest with what a bootloader has beside it, and faults to put into them.
use std::sync::OnceLock;

use crate::lms::signer::Signer;
use crate::lms::{OTS_TYPE_AT, SIGNATURE_BYTES, TYPE_AT};
use crate::order::Release;
use crate::{manifest, sha256, Refusal};

/// The signer of all samples, made once: its key takes some 280,000 digests.
pub fn signer() -> &'static Signer {
    static SIGNER: OnceLock<Signer> = OnceLock::new();
    SIGNER.get_or_init(|| Signer::new([0x49; 16], [0x5E; 32]))
}

/// The arguments of the check.
#[derive(Debug, Clone, PartialEq, Eq)]
pub struct Boot {
    pub image: Vec<u8>,
    pub manifest: Vec<u8>,
    pub key: Vec<u8>,
    pub settled: Release,
}

/// The check of an implementation.
pub type Check = fn(&[u8], &[u8], &[u8], Release) -> Result<(), Refusal>;

impl Boot {
    /// What is accepted: this release is settled, and the manifest is for it and for this image.
    pub fn of(release: Release, image: Vec<u8>, leaf: u32) -> Boot {
        let digest = sha256::sha256(&image);
        Boot {
            image,
            manifest: manifest::signed(signer(), leaf, &manifest::text(release, &digest)),
            key: signer().key(),
            settled: release,
        }
    }

    /// Release 300, whose number has two bytes.
    pub fn good() -> Boot {
        Boot::of(300, (0..100).collect(), 19)
    }

    pub fn check(&self, check: Check) -> Result<(), Refusal> {
        check(&self.image, &self.manifest, &self.key, self.settled)
    }

    /// The signature, counted from the manifest's end.
    pub fn signature(&mut self) -> &mut [u8] {
        let at = self.manifest.len().saturating_sub(SIGNATURE_BYTES);
        &mut self.manifest[at..]
    }

    /// Puts a number of four bytes at a place of the signature, where it is a whole one.
    pub fn put(&mut self, at: usize, word: u32) {
        if let Some(bytes) = self.signature().get_mut(at..at + 4) {
            bytes.copy_from_slice(&word.to_be_bytes());
        }
    }
}

/// The number of a refusal, and what brings it about in a good case.
pub type BootFault = (u32, fn(&mut Boot));

/// Every refusal, in the order in which they are looked for. A badly written number stands before the digest, so that its 4 comes before a cut
/// digest's 3.
#[rustfmt::skip]
pub const BOOT_FAULTS: [BootFault; 14] = [
    (16, |boot| boot.image.resize(65_537, 0)),
    (4, |boot| boot.manifest[1] = 0),
    (3, |boot| boot.manifest.truncate(20)),
    (23, |boot| boot.manifest.push(0)),
    (23, |boot| boot.manifest.truncate(1_000)),
    (23, |boot| boot.put(OTS_TYPE_AT, 3)),
    (23, |boot| boot.put(TYPE_AT, 6)),
    (23, |boot| boot.key.push(0)),
    (23, |boot| boot.key[3] = 6),
    (23, |boot| boot.key[7] = 3),
    (24, |boot| boot.put(0, 32)),
    (24, |boot| boot.key[55] ^= 1),
    (25, |boot| boot.image[0] ^= 1),
    (26, |boot| boot.settled += 1),
];

/// Sees that a check refuses a good case with one fault or two of them by the one that is looked for first.
pub fn refuses_boots_in_order(check: Check) {
    for (place, (number, fault)) in BOOT_FAULTS.iter().enumerate() {
        let mut boot = Boot::good();
        fault(&mut boot);
        let expected = Err(crate::refusal(*number));
        assert_eq!(boot.check(check), expected, "fault {place}");
        for (later, (_, other)) in BOOT_FAULTS.iter().enumerate().skip(place + 1) {
            let mut boot = boot.clone();
            other(&mut boot);
            assert_eq!(boot.check(check), expected, "faults {place} and {later}");
        }
    }
}
