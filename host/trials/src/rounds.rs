//! How many rounds the trials make. Under an emulator they are many times slower: there LEDGER_ROUNDS says what share of them to make, as a
//! percentage.
use std::env;

/// The share of the rounds, in percent.
fn share() -> u64 {
    match env::var("LEDGER_ROUNDS") {
        Ok(share) => share.parse().expect("LEDGER_ROUNDS: a percentage"),
        Err(_) => 100,
    }
}

/// The share of so many rounds, and at least one.
pub fn rounds(all: u64) -> u64 {
    (all * share()).div_ceil(100).max(1)
}

/// Whether all of them are made: only then must everything be met that chance can bring.
pub fn all_are_made() -> bool {
    share() >= 100
}
