//! The calls of the proved library with the second implementation's types, so that either can stand where the other does. What crosses from the
//! one's types to the other's does so in `across` alone.
//!
//! Nothing checks the declarations in `ledger::raw` against the library's source: the tests here call each function with arguments that can be
//! told apart, and compare it with the second implementation.
pub mod across;
mod blocks;
mod chains;
mod manifests;
mod numbers;
mod pools;
mod tables;

pub use blocks::{read_block, slot_text, walk_step, write_block};
pub use chains::{adopt, check, choose, report};
pub use manifests::check_manifest;
pub use numbers::{digest, read_number, write_number};
pub use pools::{add_order, append, block_text, draft, drop_entries};
pub use tables::{key, read_genesis, turn};
