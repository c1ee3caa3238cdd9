//! The check of a manifest against a plain one in C and the second implementation's.
use std::hint::black_box;

use second::manifest;
use second::samples::Boot;
use trials::proved;

use crate::digests::row;
use crate::{keep, least};

type Plain = unsafe extern "C" fn(*const u8, usize, *const u8, usize, *const u8, usize, u64) -> u32;

extern "C" {
    fn plain_lms_O2(
        image: *const u8,
        image_length: usize,
        manifest: *const u8,
        manifest_length: usize,
        key: *const u8,
        key_length: usize,
        settled: u64,
    ) -> u32;
    fn plain_lms_O3(
        image: *const u8,
        image_length: usize,
        manifest: *const u8,
        manifest_length: usize,
        key: *const u8,
        key_length: usize,
        settled: u64,
    ) -> u32;
}

/// The number of the refusal, 0 where there is none.
fn c_check(check: Plain, boot: &Boot) -> u32 {
    let (image, manifest, key) = (&boot.image, &boot.manifest, &boot.key);
    unsafe {
        check(
            image.as_ptr(),
            image.len(),
            manifest.as_ptr(),
            manifest.len(),
            key.as_ptr(),
            key.len(),
            boot.settled,
        )
    }
}

fn compare(name: &str, boot: &Boot) {
    assert_eq!(boot.check(proved::check_manifest), Ok(()));
    row(
        name,
        &least(
            100,
            &mut [
                &mut || keep(black_box(boot).check(proved::check_manifest)),
                &mut || keep(c_check(plain_lms_O2, black_box(boot))),
                &mut || keep(c_check(plain_lms_O3, black_box(boot))),
                &mut || keep(black_box(boot).check(manifest::check)),
            ],
        ),
    );
}

pub fn table() {
    println!(
        "| check of a manifest | proved | against C, gcc -O2 | against C, gcc -O3 | against Rust |"
    );
    println!("|---|---|---|---|---|");
    compare("image of 100 bytes", &Boot::good());
    compare(
        "image of 65,536 bytes",
        &Boot::of(300, vec![0xA5; 65_536], 19),
    );
}

#[cfg(test)]
mod tests {
    use super::*;
    use second::chance::Chance;
    use second::samples::refuses_boots_in_order;
    use second::{refusal, Refusal};
    use trials::rounds::rounds;

    fn plain(image: &[u8], bytes: &[u8], key: &[u8], settled: u64) -> Result<(), Refusal> {
        let boot = Boot {
            image: image.to_vec(),
            manifest: bytes.to_vec(),
            key: key.to_vec(),
            settled,
        };
        match c_check(plain_lms_O2, &boot) {
            0 => Ok(()),
            number => Err(refusal(number)),
        }
    }

    /// What is compared with does the same work.
    #[test]
    fn the_plain_check_is_right() {
        refuses_boots_in_order(plain);
        let mut chance = Chance::of_seed(11);
        for _ in 0..rounds(300) {
            let boot = chance.boot();
            assert_eq!(boot.check(plain), boot.check(manifest::check), "{boot:?}");
        }
    }
}
