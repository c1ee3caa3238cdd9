//! Makes every call with both implementations on arguments by chance, until the time is over. Each round has a seed of its own, which is told
//! where the two differ: that round alone is made again by `host/fuzz 0 SEED`.
use std::env;
use std::panic;
use std::process::exit;
use std::time::{Duration, Instant};

use second::chance::Chance;
use second::order::Slot;
use second::samples::{Case, FILLER};
use trials::both::{self, BOTH, CALLS};
use trials::run::{run, Plan};

/// Numbers, digests, tables and single blocks.
fn small_calls(chance: &mut Chance) {
    let bytes = chance.array::<12>().map(|byte| byte | (byte << 5 & 0x80));
    let _ = both::read_number(&bytes, chance.place(12));
    let room = chance.below(12);
    let _ = both::write_number(chance.number(), &mut vec![FILLER; room], chance.place(room));
    let message = vec![chance.below(256) as u8; chance.below(300)];
    let _ = both::digest(&message);
    let table = chance.table().bytes();
    let _ = both::read_genesis(&chance.faulty(table));
    let block = chance.block();
    let room = chance.of(&[block.bytes().len(), 251, 161, 400]);
    let _ = both::write_block(&block, &mut vec![FILLER; room], chance.place(room));
    let bytes = chance.faulty(block.bytes());
    let _ = both::read_block(&bytes, chance.place(bytes.len()));
    let chain = chance.chain();
    let chain = chance.faulty(chain);
    let _ = both::walk_step(&chain, chance.place(chain.len()));
    let room = chance.below(9);
    let _ = both::slot_text(Slot(chance.within(1, 256)), &mut vec![FILLER; room]);
}

/// Every call on a case. The copies have buffers of exactly the length that is lent, so that a checker of memory sees a read past it.
fn calls(case: &Case) {
    for call in &CALLS {
        (call.make)(&mut case.clone());
    }
}

fn round(seed: u64) {
    let mut chance = Chance::of_seed(seed);
    small_calls(&mut chance);
    calls(&chance.exchange());
    calls(&chance.issuing());
    // seldom: a manifest takes thousands of digests, where the other calls take some
    if chance.once_in(20) {
        let _ = chance.boot().clone().check(both::check_manifest);
    }
    if chance.once_in(2_000) {
        let (n, t) = chance.of(&[(1, 0), (6, 1), (7, 1), (11, 2)]);
        let slots = 40;
        let plan = Plan { n, t, slots, seed };
        run(plan, &BOTH).unwrap_or_else(|broken| panic!("{plan:?}: {broken:?}"));
    }
}

/// Makes rounds from this seed on, at least one, and gives how many.
fn rounds(time: Duration, first: u64) -> u64 {
    let start = Instant::now();
    let mut seed = first;
    loop {
        if panic::catch_unwind(|| round(seed)).is_err() {
            eprintln!("the two differ, or a run broke: make it again by `host/fuzz 0 {seed}`");
            exit(1);
        }
        seed = seed.wrapping_add(1);
        if start.elapsed() >= time {
            return seed.wrapping_sub(first);
        }
    }
}

fn main() {
    let words: Option<Vec<u64>> = env::args().skip(1).map(|word| word.parse().ok()).collect();
    let Some([seconds, seed]) = words.as_deref() else {
        eprintln!("usage: fuzz SECONDS SEED");
        exit(2);
    };
    let rounds = rounds(Duration::from_secs(*seconds), *seed);
    println!("seed {seed}: {rounds} rounds, no difference");
}

#[cfg(test)]
mod tests {
    use trials::rounds::rounds;

    #[test]
    fn some_rounds() {
        (1..=rounds(4_000)).for_each(super::round);
    }
}
