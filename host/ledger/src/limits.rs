//! The limits of `include/ledger.h`, by its names.

/// The version of the header that the declarations in [`raw`](crate::raw) follow.
pub const VERSION: usize = 7;

/// Displays are 0 to 63.
pub const DISPLAYS: usize = 64;
/// The most controllers of a table.
pub const CONTROLLERS: usize = 31;
/// Slots are 1 to 256. A chain has at most as many blocks, and as many verdicts are enough.
pub const SLOTS: usize = 256;
/// The most orders of a block.
pub const ORDERS: usize = 8;
/// The most entries of a pool.
pub const POOL_ROOM: usize = 64;
/// Depots are 0 to 3.
pub const DEPOTS: usize = 4;
/// The most entries of one depot: in a pool that orders are added to all that it has, for every other call those that count.
pub const DEPOT_ROOM: usize = 16;
/// u is 1 to this, which new tables have. It has no effect.
pub const POOL_SLOTS: usize = 64;
/// The most bytes of a number.
pub const NUMBER_BYTES: usize = 5;
/// The largest number, and the largest release: 35 bits.
pub const LARGEST: u64 = 34359738367;
pub const KEY_BYTES: usize = 32;
pub const DIGEST_BYTES: usize = 32;
pub const LINK_BYTES: usize = 32;
pub const SIGNATURE_BYTES: usize = 64;
/// The most bytes of a slot text.
pub const SLOT_TEXT_BYTES: usize = 6;
/// The most bytes of a draft: a block without its last 64.
pub const DRAFT_BYTES: usize = 187;
/// The most bytes of a block text: a draft behind five letters.
pub const BLOCK_TEXT_BYTES: usize = 192;
/// The most bytes of a genesis.
pub const GENESIS_BYTES: usize = 1315;
/// The fewest bytes of a block.
pub const BLOCK_LEAST_BYTES: usize = 162;
/// And the most.
pub const BLOCK_BYTES: usize = 251;
/// The most bytes of a chain.
pub const CHAIN_BYTES: usize = 64256;
/// The most bytes that are digested.
pub const MESSAGE_BYTES: usize = 65536;
/// The most bytes of an image that a manifest is for.
pub const IMAGE_BYTES: usize = 65536;
/// The bytes of the key that manifests are signed under.
pub const MANIFEST_KEY_BYTES: usize = 56;
/// And of a manifest's signature.
pub const MANIFEST_SIGNATURE_BYTES: usize = 1292;
/// The most bytes of a manifest: a number, a digest and a signature.
pub const MANIFEST_BYTES: usize = 1329;
/// Both signatures verify under the key whose turn the slot is. Every other verdict is bad.
pub const GOOD_VERDICT: u8 = 3;
/// What a slot text begins with.
pub const SLOT_LETTERS: [u8; 4] = *b"slot";
/// What a block text begins with.
pub const BLOCK_LETTERS: [u8; 5] = *b"block";
