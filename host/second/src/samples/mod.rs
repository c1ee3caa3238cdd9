//! Material for tests: tables, chains with proper links, faults to put into them, one case with the arguments of every call, and manifests.
mod case;
mod manifests;

pub use case::*;
pub use manifests::*;

use super::block::Block;
use super::chain;
use super::genesis::Genesis;
use super::number::{self, LARGEST};
use super::order::{Order, Release, Slot};
use super::pool::{Entry, Pool, DEPOTS, ROOM};
use super::{sha256, Refusal};

/// The clock reading of the samples.
pub const NOW: Slot = Slot(20);

/// The stamps of the sample blocks.
pub const STAMPS: [u32; 5] = [1, 3, 4, 6, 9];

/// How many bytes each sample block takes.
pub const BLOCK: usize = 165;

/// What a lent buffer holds where nobody has written.
pub const FILLER: u8 = 0xEE;

/// Clock readings out of range; none may wrap into it.
pub const BAD_NOWS: [Slot; 5] = [Slot(0), Slot(257), Slot(512), Slot(65_792), Slot(u32::MAX)];

/// A table in which display 2 starts at release 40 and every other at 0. No two keys are equal.
pub fn genesis(n: u32, t: u32, u: u32) -> Genesis {
    let mut releases = [0; 64];
    releases[2] = 40;
    Genesis {
        n,
        t,
        u,
        releases,
        keys: (1..=n).map(|controller| [controller as u8; 32]).collect(),
    }
}

/// The bytes of the samples' table: n = 6, t = 1, u = 5. Slot 20 is controller 2's turn.
pub fn table() -> Vec<u8> {
    genesis(6, 1, 5).bytes()
}

/// 01's worked genesis: "n = 1, t = 0, u = 1, display 0 at release 7, the others 0, a key of zeros".
pub fn worked_genesis() -> Genesis {
    let mut releases = [0; 64];
    releases[0] = 7;
    Genesis {
        n: 1,
        t: 0,
        u: 1,
        releases,
        keys: vec![[0; 32]],
    }
}

/// Genesis bytes with any three numbers at their front, and as many keys as a reader would want who keeps n in one byte.
pub fn headed(n: u64, t: u64, u: u64) -> Vec<u8> {
    let Genesis { releases, keys, .. } = genesis(n.to_le_bytes()[0].into(), 0, 1);
    let numbers = [n, t, u].into_iter().chain(releases);
    let mut bytes: Vec<u8> = numbers.flat_map(number::bytes).collect();
    bytes.extend(keys.as_flattened());
    bytes
}

/// n, t and u that are out of their ranges. None may wrap into it.
pub const BAD_HEADS: [(u64, u64, u64); 21] = [
    (0, 0, 1),
    (32, 0, 1),
    (257, 0, 1),
    (4_294_967_295, 0, 1),
    (4_294_967_302, 1, 5),
    (1, 1, 1),
    (3, 1, 1),
    (6, 2, 1),
    (30, 10, 1),
    (31, 11, 1),
    (6, 257, 1),
    (1, 1_431_655_765, 1),
    (31, 1_431_655_766, 1),
    (31, 4_294_967_295, 1),
    (6, 4_294_967_297, 5),
    (31, LARGEST, 1),
    (6, 1, 0),
    (6, 1, 65),
    (6, 1, 320),
    (6, 1, 4_294_967_295),
    (6, 1, 4_294_967_301),
];

/// Genesis bytes whose n, t or u is out of its range.
fn bad_heads() -> Vec<(String, Vec<u8>)> {
    let named = |(n, t, u)| (format!("n = {n}, t = {t}, u = {u}"), headed(n, t, u));
    BAD_HEADS.map(named).into()
}

/// Genesis bytes that break a rule, and which.
pub fn bad_geneses() -> Vec<(String, Vec<u8>)> {
    let mut bad = bad_heads();
    let good = table();
    for end in 0..good.len() {
        bad.push((format!("cut to {end} bytes"), good[..end].to_vec()));
    }
    for place in 0..3 + 64 {
        let tail = &good[place + 1..];
        let long = [&good[..place], &[good[place] | 0x80, 0], tail].concat();
        let large = [&good[..place], &[0xFF; 5], tail].concat();
        bad.push((format!("number {place} not shortest"), long));
        bad.push((format!("number {place} too large"), large));
    }
    bad.push(("a byte after".into(), [&good[..], &[0]].concat()));
    bad.push(("a key after".into(), [&good[..], &[0; 32]].concat()));
    bad.push(("65,537 bytes".into(), vec![1; 65_537]));
    bad
}

/// A refusal at a block, counted from 1.
pub fn at(number: u32, place: usize) -> Refusal {
    Refusal {
        number,
        place: place as u32,
    }
}

/// An order.
pub fn order(display: u32, expected: Release, new: Release) -> Order {
    Order {
        display,
        expected,
        new,
    }
}

/// A block whose link is still zeros and whose signatures can be told apart.
pub fn block(slot: u32, orders: &[Order]) -> Block {
    Block {
        link: [0; 32],
        orders: orders.to_vec(),
        slot: Slot(slot),
        slot_signature: [slot as u8; 64],
        block_signature: [!slot as u8; 64],
    }
}

/// The five sample blocks: block i takes display 2 from release 39 + i to 40 + i, so that each of its numbers takes one byte.
pub fn blocks() -> Vec<Block> {
    (40..)
        .zip(STAMPS)
        .map(|(release, slot)| block(slot, &[order(2, release, release + 1)]))
        .collect()
}

/// Blocks without orders at these stamps.
pub fn empty_blocks(stamps: &[u32]) -> Vec<Block> {
    stamps.iter().map(|slot| block(*slot, &[])).collect()
}

/// The blocks end to end, each with the link it must carry.
pub fn chain(genesis: &[u8], blocks: &[Block]) -> Vec<u8> {
    edited_chain(genesis, blocks, 0, |_| ())
}

/// As `chain`, with the bytes of block `place` (counted from 1) changed before the next block is linked to them.
pub fn edited_chain(
    genesis: &[u8],
    blocks: &[Block],
    place: usize,
    change: impl Fn(&mut Vec<u8>),
) -> Vec<u8> {
    let mut chain = Vec::new();
    let mut before = genesis.to_vec();
    for (index, block) in blocks.iter().enumerate() {
        let link = sha256::digest(&before).unwrap();
        before = Block {
            link,
            ..block.clone()
        }
        .bytes();
        if index + 1 == place {
            change(&mut before);
        }
        chain.extend(&before);
    }
    chain
}

/// The chain of the five sample blocks.
pub fn good_chain(genesis: &[u8]) -> Vec<u8> {
    chain(genesis, &blocks())
}

/// As many good verdicts as blocks.
pub fn verdicts(blocks: usize) -> Vec<u8> {
    vec![3; blocks]
}

/// Where the releases of the longest chains start: with a block in every slot they end at the largest.
pub const LONG_START: Release = LARGEST - 256;

/// The longest good chain that ends at slot `last`, and its table: in each block 8 orders of 11 bytes.
pub fn longest_chain(last: u32) -> (Vec<u8>, Vec<u8>) {
    let mut table = genesis(1, 0, 1);
    table.releases = [LONG_START; 64];
    let genesis = table.bytes();
    let blocks: Vec<Block> = (1..=last)
        .map(|slot| {
            let release = LONG_START + Release::from(slot) - 1;
            let orders: Vec<Order> = (0..8)
                .map(|display| order(display, release, release + 1))
                .collect();
            block(slot, &orders)
        })
        .collect();
    let chain = chain(&genesis, &blocks);
    (genesis, chain)
}

/// A change in the bytes of a sample block, and the number of the refusal that it meets in a delivered chain.
pub struct Edit {
    pub name: &'static str,
    pub number: u32,
    pub change: fn(&mut Vec<u8>),
}

/// Where the parts of a sample block stand.
const COUNT: usize = 32;
const DISPLAY: usize = 33;
const EXPECTED: usize = 34;
const NEW: usize = 35;
const SLOT: usize = 36;

/// Puts other bytes where a number of one byte stands.
fn put(bytes: &mut Vec<u8>, place: usize, number: &[u8]) {
    bytes.splice(place..=place, number.iter().copied());
}

/// Faults of one block. Those with 6 need a block before it.
#[rustfmt::skip]
pub const EDITS: [Edit; 36] = [
    Edit { name: "count not shortest", number: 4, change: |b| put(b, COUNT, &[0x81, 0x00]) },
    Edit { name: "count 80 00", number: 4, change: |b| put(b, COUNT, &[0x80, 0x00]) },
    Edit { name: "count too large", number: 4, change: |b| put(b, COUNT, &[0x81; 5]) },
    Edit { name: "display not shortest", number: 4, change: |b| put(b, DISPLAY, &[0x82, 0x00]) },
    Edit { name: "display C0 00", number: 4, change: |b| put(b, DISPLAY, &[0xC0, 0x00]) },
    Edit { name: "expected not shortest", number: 4, change: |b| put(b, EXPECTED, &[0xA8, 0x80, 0x00]) },
    Edit { name: "expected of five bytes, not shortest", number: 4, change: |b| put(b, EXPECTED, &[0xFF, 0xFF, 0xFF, 0xFF, 0x00]) },
    Edit { name: "expected too large", number: 4, change: |b| put(b, EXPECTED, &[0x80; 5]) },
    Edit { name: "new not shortest", number: 4, change: |b| put(b, NEW, &[0x80 | 41, 0x00]) },
    Edit { name: "new too large", number: 4, change: |b| put(b, NEW, &[0xFF; 5]) },
    Edit { name: "slot not shortest", number: 4, change: |b| put(b, SLOT, &[0x89, 0x00]) },
    Edit { name: "slot too large", number: 4, change: |b| put(b, SLOT, &[0xFF; 5]) },
    Edit { name: "count 9", number: 5, change: |b| b[COUNT] = 9 },
    Edit { name: "count 257", number: 5, change: |b| put(b, COUNT, &[0x81, 0x02]) },
    Edit { name: "count 4,294,967,297", number: 5, change: |b| put(b, COUNT, &[0x81, 0x80, 0x80, 0x80, 0x10]) },
    Edit { name: "display 64", number: 5, change: |b| b[DISPLAY] = 64 },
    Edit { name: "display 256", number: 5, change: |b| put(b, DISPLAY, &[0x80, 0x02]) },
    Edit { name: "display 4,294,967,295", number: 5, change: |b| put(b, DISPLAY, &[0xFF, 0xFF, 0xFF, 0xFF, 0x0F]) },
    Edit { name: "display 4,294,967,298", number: 5, change: |b| put(b, DISPLAY, &[0x82, 0x80, 0x80, 0x80, 0x10]) },
    Edit { name: "slot 0", number: 5, change: |b| b[SLOT] = 0 },
    Edit { name: "slot 257", number: 5, change: |b| put(b, SLOT, &[0x81, 0x02]) },
    Edit { name: "slot 65,537", number: 5, change: |b| put(b, SLOT, &[0x81, 0x80, 0x04]) },
    Edit { name: "slot 4,294,967,305", number: 5, change: |b| put(b, SLOT, &[0x89, 0x80, 0x80, 0x80, 0x10]) },
    Edit { name: "slot 34,359,738,367", number: 5, change: |b| put(b, SLOT, &[0xFF, 0xFF, 0xFF, 0xFF, 0x7F]) },
    Edit { name: "slot 1 again", number: 6, change: |b| b[SLOT] = 1 },
    Edit { name: "slot just above now", number: 7, change: |b| b[SLOT] = 21 },
    Edit { name: "slot 256", number: 7, change: |b| put(b, SLOT, &[0x80, 0x02]) },
    Edit { name: "link's first bit", number: 9, change: |b| b[0] ^= 0x80 },
    Edit { name: "link's last bit", number: 9, change: |b| b[31] ^= 1 },
    Edit { name: "link of zeros", number: 9, change: |b| b[..32].fill(0) },
    Edit { name: "new as expected", number: 10, change: |b| b[NEW] = b[EXPECTED] },
    Edit { name: "new below expected", number: 10, change: |b| b[NEW] = b[EXPECTED] - 1 },
    Edit { name: "expected too low", number: 10, change: |b| b[EXPECTED] -= 1 },
    Edit { name: "expected too high", number: 10, change: |b| { b[EXPECTED] += 1; b[NEW] += 1 } },
    Edit { name: "expected 4,294,967,296 too high", number: 10, change: |b| put(b, EXPECTED, &[0x80 | b[EXPECTED], 0x80, 0x80, 0x80, 0x10]) },
    Edit { name: "another display", number: 10, change: |b| b[DISPLAY] = 3 },
];

/// Chains that fail at the first, the middle or the last of the sample blocks, delivered with good verdicts at slot 20: the fault, the bytes
/// and the refusal. As held chains all meet 17 at the same place.
pub fn bad_chains(genesis: &[u8]) -> Vec<(String, Vec<u8>, Refusal)> {
    let mut bad = Vec::new();
    for place in [1, 3, 5] {
        for edit in &EDITS {
            if (edit.number, place) != (6, 1) {
                let chain = edited_chain(genesis, &blocks(), place, edit.change);
                let fault = format!("{} in block {place}", edit.name);
                bad.push((fault, chain, at(edit.number, place)));
            }
        }
        let end = BLOCK * (place - 1);
        for more in 1..BLOCK {
            let chain = good_chain(genesis)[..end + more].to_vec();
            bad.push((
                format!("block {place} cut to {more} bytes"),
                chain,
                at(3, place),
            ));
        }
    }
    bad.extend(leftovers(genesis));
    bad
}

/// The sample chain with bytes after it that are no block.
fn leftovers(genesis: &[u8]) -> impl Iterator<Item = (String, Vec<u8>, Refusal)> {
    let chain = good_chain(genesis);
    let rest = [
        (3, vec![0]),
        (3, vec![0; 32]),
        (4, [&[0; 32], &[0x80, 0x00][..]].concat()),
        (5, vec![9; 33]),
    ];
    rest.into_iter().map(move |(number, rest)| {
        let fault = format!("{} leftover bytes", rest.len());
        (fault, [&chain[..], &rest].concat(), at(number, 6))
    })
}

/// Held chains that are bad whatever the blocks say: buffer and length, 17 at place 0.
pub fn bad_lengths(genesis: &[u8]) -> Vec<(Vec<u8>, usize)> {
    let chain = good_chain(genesis);
    vec![
        (chain.clone(), chain.len() + 1),
        (chain.clone(), usize::MAX),
        (vec![], 1),
        (vec![0; chain::LONGEST], chain::LONGEST + 1),
        (vec![0; chain::LONGEST + 1], chain::LONGEST + 1),
        (vec![0; 70_000], 70_000),
    ]
}

/// An entry of depot 0.
pub fn entry(order: Order, slot: u32) -> Entry {
    Entry {
        order,
        slot: Slot(slot),
        depot: 0,
    }
}

impl Entry {
    /// The same entry of another depot.
    pub fn of_depot(self, depot: u32) -> Entry {
        Entry { depot, ..self }
    }
}

/// These entries, of the four depots in turn: 64 of them are 16 of each.
pub fn in_turn(entries: &[Entry]) -> Vec<Entry> {
    let depots = DEPOTS.cycle();
    entries
        .iter()
        .zip(depots)
        .map(|(entry, depot)| entry.of_depot(depot))
        .collect()
}

/// An entry that counts at slot 20, with display 9 at release 0. No state makes it valid.
pub fn counting() -> Entry {
    entry(order(9, 9, 9), 16)
}

/// An entry that no longer counts, with display 2 at release 40.
pub fn old() -> Entry {
    entry(order(2, 39, 41), 16)
}

/// Puts an entry, as one of this depot, so many times behind those of a pool.
pub fn crowd(pool: &mut Pool, entry: Entry, depot: u32, times: u32) {
    for _ in 0..times {
        pool.entries[pool.count as usize] = entry.of_depot(depot);
        pool.count += 1;
    }
}

/// A pool of 64 entries, 16 of each depot, that count at slot 20.
fn full_pool() -> Pool {
    Pool::of(&in_turn(&[entry(order(0, 0, 1), 18); ROOM]))
}

/// The full pool with a fault at one of its places, and which.
fn bad_entries(place: usize) -> Vec<(String, Pool)> {
    let mut bad = Vec::new();
    let mut push = |fault: String, change: &dyn Fn(&mut Entry)| {
        let mut pool = full_pool();
        change(&mut pool.entries[place]);
        bad.push((format!("entry {place}: {fault}"), pool));
    };
    for display in [64, 256, u32::MAX] {
        push(format!("display {display}"), &|entry| {
            entry.order.display = display
        });
    }
    for slot in [0, 21, 257, 65_536, u32::MAX] {
        push(format!("slot {slot}"), &|entry| entry.slot = Slot(slot));
    }
    for above in [LARGEST + 1, u64::MAX] {
        push(format!("expected {above}"), &|entry| {
            entry.order.expected = above
        });
        push(format!("new {above}"), &|entry| entry.order.new = above);
    }
    for depot in [4, 256, u32::MAX] {
        push(format!("depot {depot}"), &|entry| entry.depot = depot);
    }
    bad
}

/// Pools with more than 16 counting entries of a depot, and of which.
fn crowded_pools() -> Vec<(String, Pool)> {
    let mut bad = Vec::new();
    for depot in DEPOTS {
        let mut pool = Pool::of(&[]);
        crowd(&mut pool, counting(), depot, 17);
        bad.push((format!("17 counting entries of depot {depot}"), pool));
    }
    let mut full = full_pool();
    full.entries[0].depot = 3;
    bad.push(("64 entries, 17 of depot 3".into(), full));
    let one = Pool::of(&[entry(order(0, 0, 1), 18); ROOM]);
    bad.push(("64 entries of depot 0".into(), one));
    bad
}

/// Pools with more than 16 entries of a depot, of which fewer count: for the adding call alone they are bad.
pub fn old_crowds() -> Vec<(String, Pool)> {
    let mut pools = Vec::new();
    for (counting_ones, old_ones) in [(0, 17), (1, 16), (16, 1), (0, 64), (16, 48)] {
        let mut pool = Pool::of(&[]);
        crowd(&mut pool, old(), 1, old_ones);
        crowd(&mut pool, counting(), 1, counting_ones);
        let name =
            format!("{counting_ones} entries of depot 1 that count and {old_ones} that do not");
        pools.push((name, pool));
    }
    pools
}

/// Pools that meet 18 at slot 20, and why.
pub fn bad_pools() -> Vec<(String, Pool)> {
    let mut bad = Vec::new();
    for count in [65, 128, 257, u32::MAX] {
        let pool = Pool {
            count,
            ..full_pool()
        };
        bad.push((format!("count {count}"), pool));
    }
    bad.extend([0, 31, 63].into_iter().flat_map(bad_entries));
    for (fault, old) in [
        (
            "display 2 to 34359738368",
            entry(order(2, 39, LARGEST + 1), 1),
        ),
        ("slot 21", entry(order(2, 39, 41), 21)),
        ("depot 4", old().of_depot(4)),
    ] {
        let mut pool = full_pool();
        (pool.count, pool.entries[0]) = (1, old);
        bad.push((format!("an entry that no longer counts: {fault}"), pool));
    }
    bad.extend(crowded_pools());
    bad
}
