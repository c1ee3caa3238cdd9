//! Checking and adopting a chain against the second implementation, and against the digests of its blocks.
use std::hint::black_box;

use second::calls::{Adopt, Check};
use second::order::{BlockCount, Slot};
use second::samples;
use trials::proved;

use crate::{keep, least};

/// A good chain of the longest blocks, a block in each slot from 1.
pub struct Chain {
    pub genesis: Vec<u8>,
    pub bytes: Vec<u8>,
    verdicts: Vec<u8>,
    /// The first slot at which every block is admitted from outside.
    pub now: Slot,
}

impl Chain {
    pub fn new(blocks: u32) -> Chain {
        let (genesis, bytes) = samples::longest_chain(blocks);
        Chain {
            genesis,
            bytes,
            verdicts: samples::verdicts(blocks as usize),
            now: Slot(blocks + 1),
        }
    }

    /// The blocks one by one.
    pub fn blocks(&self) -> Vec<&[u8]> {
        second::walk::blocks(&self.bytes)
            .map(|(_, bytes)| bytes)
            .collect()
    }
}

/// A row on chains: the proved call's time, also for each of the blocks it judges, over the proved digests of these blocks one by one, and
/// how many times as fast as the second implementation it is.
pub fn row(name: &str, blocks: &[&[u8]], proved: &mut dyn FnMut(), second: &mut dyn FnMut()) {
    let mut digests = || {
        for block in blocks {
            keep(proved::digest(black_box(block)));
        }
    };
    let times = least(1000, &mut [proved, &mut digests, second]);
    println!(
        "| {name} | {:.1} µs | {:.2} µs | {:.2} | {:.2} |",
        times[0] * 1e6,
        times[0] * 1e6 / blocks.len() as f64,
        times[0] / times[1],
        times[2] / times[0]
    );
}

fn checks(blocks: u32) {
    let chain = &Chain::new(blocks);
    let (genesis, now, verdicts) = (&chain.genesis, chain.now, &chain.verdicts);
    let checked = |check: Check| check(genesis, now, black_box(&chain.bytes), verdicts);
    let expected = checked(second::chain::check);
    assert_eq!(expected.map(|(count, _)| count), Ok(BlockCount(blocks)));
    assert_eq!(checked(proved::check), expected);
    row(
        &format!("check of {blocks} blocks"),
        &chain.blocks(),
        &mut || keep(checked(proved::check)),
        &mut || keep(checked(second::chain::check)),
    );
}

/// Adopts a chain where its first blocks, so many of them, are held: they are there after each turn too.
fn adopts(blocks: u32, held: usize) {
    let chain = &Chain::new(blocks);
    let (genesis, now, verdicts) = (&chain.genesis, chain.now, &chain.verdicts);
    let mut judged = chain.blocks();
    let length = judged[..held].iter().map(|block| block.len()).sum();
    judged.extend_from_within(..held);
    let mut first = chain.bytes.clone();
    let mut other = chain.bytes.clone();
    let expected = Ok((chain.bytes.len(), BlockCount(blocks)));
    let adopted = |adopt: Adopt, held: &mut [u8]| {
        adopt(
            genesis,
            now,
            held,
            length,
            black_box(&chain.bytes),
            verdicts,
        )
    };
    assert_eq!(adopted(proved::adopt, &mut first), expected);
    assert_eq!(adopted(second::adopt::adopt, &mut other), expected);
    row(
        &format!("adoption of {blocks} blocks where {held} are held"),
        &judged,
        &mut || keep(adopted(proved::adopt, black_box(&mut first))),
        &mut || keep(adopted(second::adopt::adopt, black_box(&mut other))),
    );
}

pub fn table() {
    println!("| call | proved | for each block | over its blocks' digests | against Rust |");
    println!("|---|---|---|---|---|");
    for blocks in [64, 128, 255] {
        checks(blocks);
    }
    adopts(255, 0);
    adopts(255, 254);
}
