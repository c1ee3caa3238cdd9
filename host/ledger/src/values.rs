//! What crosses between a host and the calls, laid out as `include/ledger.h` has it.
use crate::{DISPLAYS, LINK_BYTES, ORDERS, POOL_ROOM, SIGNATURE_BYTES};

/// A slot: a block's stamp, or what the clock shows. Apart from a number of blocks, so that neither can be taken for the other.
#[repr(C)]
#[derive(Debug, Clone, Copy, Default, PartialEq, Eq, PartialOrd, Ord, Hash)]
pub struct Slot(pub u32);

/// A number of blocks, or a block by its place in a chain, counted from 1.
#[repr(C)]
#[derive(Debug, Clone, Copy, Default, PartialEq, Eq, PartialOrd, Ord, Hash)]
pub struct BlockCount(pub u32);

/// A release. What is read is at most [`LARGEST`](crate::LARGEST); one above it that a host hands in is refused, never cut.
pub type Release = u64;

/// The release of each display.
pub type Releases = [Release; DISPLAYS];

/// An order: the release that a display is to have before, and the one that it is to have then.
#[repr(C)]
#[derive(Debug, Clone, Copy, Default, PartialEq, Eq)]
pub struct Order {
    pub display: u32,
    pub expected: Release,
    pub new: Release,
}

/// The first `count` orders of the list are meant. Read from bytes, the others are zeros.
#[repr(C)]
#[derive(Debug, Clone, Copy, Default, PartialEq, Eq)]
pub struct Orders {
    pub count: u32,
    pub list: [Order; ORDERS],
}

impl Orders {
    /// The orders that are meant.
    pub fn as_slice(&self) -> &[Order] {
        within(self.count, &self.list)
    }
}

/// A block without its last 64 bytes.
#[repr(C)]
#[derive(Debug, Clone, Copy, PartialEq, Eq)]
pub struct Front {
    pub link: [u8; LINK_BYTES],
    pub orders: Orders,
    pub slot: Slot,
    pub slot_signature: [u8; SIGNATURE_BYTES],
}

#[repr(C)]
#[derive(Debug, Clone, Copy, PartialEq, Eq)]
pub struct Block {
    pub front: Front,
    pub block_signature: [u8; SIGNATURE_BYTES],
}

/// An order, the slot in which it was pooled, and the depot that it came from, 0 to 3.
#[repr(C)]
#[derive(Debug, Clone, Copy, Default, PartialEq, Eq)]
pub struct Entry {
    pub order: Order,
    pub slot: Slot,
    pub depot: u32,
}

/// The first `count` entries are meant.
#[repr(C)]
#[derive(Debug, Clone, Copy, PartialEq, Eq)]
pub struct Pool {
    pub count: u32,
    pub entries: [Entry; POOL_ROOM],
}

impl Pool {
    /// The pool of no entries: what to begin with, and what takes the place of a bad pool (18).
    pub const EMPTY: Pool = Pool {
        count: 0,
        entries: [Entry {
            order: Order {
                display: 0,
                expected: 0,
                new: 0,
            },
            slot: Slot(0),
            depot: 0,
        }; POOL_ROOM],
    };

    /// The entries that are meant.
    pub fn as_slice(&self) -> &[Entry] {
        within(self.count, &self.entries)
    }
}

impl Default for Pool {
    fn default() -> Pool {
        Pool::EMPTY
    }
}

#[repr(C)]
#[derive(Debug, Clone, Copy, PartialEq, Eq)]
pub struct Signature(pub [u8; SIGNATURE_BYTES]);

/// A genesis table: n controllers, of whom t may be faulty, and u, which has no effect.
#[repr(C)]
#[derive(Debug, Clone, Copy, PartialEq, Eq)]
pub struct Genesis {
    pub n: u32,
    pub t: u32,
    pub u: u32,
    /// The starting releases.
    pub releases: Releases,
    /// Where the first key stands in the genesis bytes.
    pub keys_at: usize,
}

/// The first so many of a list, and no more than there are.
fn within<T>(count: u32, list: &[T]) -> &[T] {
    &list[..list.len().min(count as usize)]
}
