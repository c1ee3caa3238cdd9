//! The digest against a plain one in C and the second implementation's.
use std::hint::black_box;

use trials::proved;

use crate::{keep, least};

extern "C" {
    fn plain_sha256_O2(message: *const u8, length: usize, digest: *mut u8);
    fn plain_sha256_O3(message: *const u8, length: usize, digest: *mut u8);
}

fn c_digest(f: unsafe extern "C" fn(*const u8, usize, *mut u8), message: &[u8]) -> [u8; 32] {
    let mut digest = [0; 32];
    unsafe { f(message.as_ptr(), message.len(), digest.as_mut_ptr()) };
    digest
}

/// A row of the table: how many times as fast as each of the others the proved library is, which comes first.
pub fn row(name: &str, times: &[f64]) {
    let ratios: Vec<String> = times[1..]
        .iter()
        .map(|time| format!("{:.2}", time / times[0]))
        .collect();
    println!(
        "| {name} | {:.2} µs | {} |",
        times[0] * 1e6,
        ratios.join(" | ")
    );
}

fn compare(name: &str, length: usize, times: usize) {
    let message: Vec<u8> = (0..length).map(|i| (i * 7 % 251) as u8).collect();
    let expected = second::sha256::digest(&message).unwrap();
    assert_eq!(proved::digest(&message), Ok(expected));
    assert_eq!(c_digest(plain_sha256_O2, &message), expected);
    let repeat = |f: &dyn Fn()| (0..times).for_each(|_| f());
    row(
        name,
        &least(
            300,
            &mut [
                &mut || repeat(&|| keep(proved::digest(black_box(&message)))),
                &mut || repeat(&|| keep(c_digest(plain_sha256_O2, black_box(&message)))),
                &mut || repeat(&|| keep(c_digest(plain_sha256_O3, black_box(&message)))),
                &mut || repeat(&|| keep(second::sha256::digest(black_box(&message)))),
            ],
        )
        .iter()
        .map(|time| time / times as f64)
        .collect::<Vec<_>>(),
    );
}

pub fn table() {
    println!("| digest of | proved | against C, gcc -O2 | against C, gcc -O3 | against Rust |");
    println!("|---|---|---|---|---|");
    compare("65,536 bytes", 65_536, 1);
    compare("1,315 bytes (a genesis)", 1_315, 50);
    compare("251 bytes (the longest block)", 251, 200);
    compare("162 bytes (the shortest block)", 162, 200);
}
