//! Manifests by chance, with what a bootloader has beside them.
use super::Chance;
use crate::lms::{OTS_TYPE_AT, TYPE_AT};
use crate::samples::Boot;

/// Type codes of RFC 8554's tables, and some that it does not have.
const CODES: [u8; 11] = [0, 1, 2, 3, 4, 5, 6, 7, 8, 9, 255];

impl Chance {
    /// The arguments of the check, with a fault in about two of three.
    pub fn boot(&mut self) -> Boot {
        let length = self.of(&[0, 1, 55, 56, 63, 64, 65, 300]);
        let image = vec![self.array::<1>()[0]; length];
        let leaf = self.of(&[0, 1, 15, 16, 30, 31]);
        let mut boot = Boot::of(self.release(), image, leaf);
        match self.below(12) {
            0 | 1 => boot.manifest = self.faulty(boot.manifest),
            2 => boot.key = self.faulty(boot.key),
            3 => boot.image = self.faulty(boot.image),
            4 => boot.settled = self.number(),
            5 => {
                let place = self.below(boot.manifest.len());
                boot.manifest[place] ^= 1 << self.below(8);
            }
            6 => boot.put(0, self.small()),
            7 => boot.put(self.of(&[OTS_TYPE_AT, TYPE_AT]), self.of(&CODES).into()),
            8 => boot.key[self.of(&[3, 7])] = self.of(&CODES),
            _ => {}
        }
        boot
    }
}
