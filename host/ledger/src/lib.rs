//! The proved ledger library for hosts in Rust: what firmware takes. It links the archive of the proved library and nothing else, allocates
//! nothing and keeps no state.
//!
//! Every call answers for any bytes, any length and any number, with a value or a [`Refusal`]. A refusal leaves every lent buffer and the pool
//! as they came. A controller's chain is a [`Held`], which keeps buffer and length together. `genesis` is always the station's genesis bytes,
//! and `now` the slot that the clock shows.
//!
//! The first report of a station of one controller, before its first block:
//!
//! ```
//! use ledger::{BlockCount, Held, Kind, Slot, CHAIN_BYTES, GENESIS_BYTES};
//!
//! // t = 0, display 0 starts at release 7, and one key, of zeros
//! let mut releases = [0; 64];
//! releases[0] = 7;
//! let mut buffer = [0; GENESIS_BYTES];
//! let genesis = ledger::write_genesis(0, &releases, &[[0; 32]], &mut buffer).unwrap();
//!
//! let held = Held::new([0; CHAIN_BYTES]);
//! let report = held.report(genesis, Slot(1)).unwrap();
//! assert_eq!((report.held, report.settled), (BlockCount(0), BlockCount(0)));
//! assert_eq!(report.releases[0], 7);
//!
//! let refused = held.report(genesis, Slot(257)).unwrap_err();
//! assert_eq!(refused.kind, Kind::BadClock);
//! ```
//!
//! `host/example` is a whole small run.
#![no_std]
#![deny(unsafe_code)]

#[cfg(test)]
extern crate std;

mod blocks;
mod chains;
mod genesis;
mod held;
mod limits;
mod manifest;
#[allow(unsafe_code)]
pub mod raw;
mod refusal;
mod single;
mod values;
mod verdicts;

pub use blocks::{blocks, Blocks};
pub use chains::{check, choose, Checked};
pub use genesis::{genesis_fault, key, write_genesis, GenesisFault, Part};
pub use held::{Held, Issue, Report};
pub use limits::*;
pub use manifest::check_manifest;
pub use refusal::{Kind, Refusal};
pub use single::{digest, read_block, read_number, slot_text, write_block, write_number};
pub use values::*;

/// What an answer gives, or its refusal.
fn told<T>(number: u32, place: BlockCount, value: T) -> Result<T, Refusal> {
    match number {
        0 => Ok(value),
        number => Err(Refusal {
            kind: Kind::of_number(number),
            place,
        }),
    }
}

/// The front of a buffer that a call has written.
fn written(out: &[u8], length: usize) -> &[u8] {
    &out[..length.min(out.len())]
}
