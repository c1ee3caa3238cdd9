//! The calls of an implementation as values, so that a run or a case can be made with one or another.
use crate::issue::{self, Issue};
use crate::order::{BlockCount, Order, Releases, Slot};
use crate::pool::{self, Pool};
use crate::report;
use crate::{adopt, Refusal};

pub type Check = fn(&[u8], Slot, &[u8], &[u8]) -> Result<(BlockCount, Releases), Refusal>;
pub type Choose = for<'a> fn(&[u8], Slot, &'a [u8], &'a [u8], &[u8]) -> (&'a [u8], Option<Refusal>);
pub type Adopt =
    fn(&[u8], Slot, &mut [u8], usize, &[u8], &[u8]) -> Result<(usize, BlockCount), Refusal>;
pub type Report = fn(&[u8], Slot, &[u8], usize) -> Result<report::Report, Refusal>;
pub type DropEntries = fn(&[u8], Slot, &[u8], usize, &mut Pool) -> Result<(), Refusal>;
/// With the depot that the order comes from.
pub type AddOrder = fn(&[u8], Slot, &[u8], usize, &mut Pool, Order, u32) -> Result<(), Refusal>;
/// The draft, or the block text.
pub type Write = fn(&Issue, &[u8], usize, &mut [u8]) -> Result<usize, Refusal>;
pub type Append = fn(&Issue, &mut [u8], usize, [u8; 64]) -> Result<usize, Refusal>;

/// The calls with which a controller takes part in a run.
#[derive(Clone, Copy)]
pub struct Calls {
    pub adopt: Adopt,
    pub drop_entries: DropEntries,
    pub add_order: AddOrder,
    pub block_text: Write,
    pub append: Append,
    pub report: Report,
}

/// The second implementation.
pub const SECOND: Calls = Calls {
    adopt: adopt::adopt,
    drop_entries: pool::drop_entries,
    add_order: pool::add_order,
    block_text: issue::block_text,
    append: issue::append,
    report: report::report,
};
