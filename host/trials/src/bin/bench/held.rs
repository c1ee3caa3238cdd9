//! The calls on a held chain and a pool against the second implementation, and where blocks are held, against the digests of its blocks.
use std::hint::black_box;

use second::calls::{AddOrder, DropEntries};
use second::pool::{Entry, Pool};
use second::samples::{self, Case, FILLER};
use trials::{both, proved};

use crate::chains::{row, Chain};
use crate::{digests, keep, least};

/// So many of the longest blocks are held, in the slot after the last, and so many orders are pooled for other displays than theirs, by the depots
/// in turn. One more is added by depot 3, which has room for it also behind 63.
fn case(blocks: u32, entries: u32) -> (Case, Chain) {
    let chain = Chain::new(blocks);
    let now = chain.now;
    let order = |place: u32| {
        let release = samples::LONG_START + u64::from(place / 56);
        samples::order(8 + place % 56, release, release + 1)
    };
    let pooled: Vec<Entry> = (0..entries)
        .map(|place| samples::entry(order(place), now.0))
        .collect();
    let mut held = chain.bytes.clone();
    held.resize(chain.bytes.len() + 251, FILLER);
    let case = Case {
        genesis: chain.genesis.clone(),
        now,
        held,
        held_length: chain.bytes.len(),
        pool: Pool::of(&samples::in_turn(&pooled)),
        order: order(entries),
        depot: 3,
        controller: 1,
        ..Case::good()
    };
    (case, chain)
}

/// A call as it is timed. What it changes in a case, it changes back.
type Timed = fn(&mut Case);

/// A call with the proved library and with the second implementation.
type Contenders = (&'static str, Timed, Timed);

/// It takes no pool.
#[rustfmt::skip]
const REPORT: Contenders =
    ("report", |case| keep(case.report(proved::report)), |case| keep(case.report(second::report::report)));

/// The calls on a held chain and a pool.
#[rustfmt::skip]
const POOL_CALLS: [Contenders; 4] = [
    ("drop", |case| drop_entries(case, proved::drop_entries), |case| drop_entries(case, second::pool::drop_entries)),
    ("add", |case| add_order(case, proved::add_order), |case| add_order(case, second::pool::add_order)),
    ("draft", |case| keep(case.write(proved::draft)), |case| keep(case.write(second::issue::draft))),
    ("append", |case| keep(case.append(proved::append)), |case| keep(case.append(second::issue::append))),
];

fn drop_entries(case: &mut Case, call: DropEntries) {
    let pool = case.pool.clone();
    keep(case.drop_entries(call));
    case.pool = pool;
}

fn add_order(case: &mut Case, call: AddOrder) {
    let pool = case.pool.clone();
    keep(case.add_order(call));
    case.pool = pool;
}

/// Sees that both accept.
fn accepted(case: &Case) {
    for call in &both::CALLS {
        let takes_delivered = call.refusals.contains(&8);
        assert!(takes_delivered || (call.make)(&mut case.clone()).is_none());
    }
}

/// A row for each call behind so many blocks.
fn behind(blocks: u32, entries: u32) {
    let (case, chain) = case(blocks, entries);
    accepted(&case);
    let timed = |name: &str, (_, proved, second): Contenders| {
        let [mut first, mut other] = [case.clone(), case.clone()];
        row(
            name,
            &chain.blocks(),
            &mut || proved(black_box(&mut first)),
            &mut || second(black_box(&mut other)),
        );
    };
    timed(&format!("{}: {blocks} blocks", REPORT.0), REPORT);
    for call in POOL_CALLS {
        timed(
            &format!("{}: {blocks} blocks, {entries} entries", call.0),
            call,
        );
    }
}

/// A row for a call where no block is held.
fn behind_none(name: &str, entries: u32, (_, proved, second): Contenders) {
    let (case, _) = case(0, entries);
    accepted(&case);
    let [mut first, mut other] = [case.clone(), case];
    let repeat = |call: Timed, case: &mut Case| (0..50).for_each(|_| call(black_box(case)));
    let times = least(
        1000,
        &mut [&mut || repeat(proved, &mut first), &mut || {
            repeat(second, &mut other)
        }],
    );
    let times: Vec<f64> = times.iter().map(|time| time / 50.0).collect();
    digests::row(name, &times);
}

pub fn table() {
    println!("| call | proved | for each block | over its blocks' digests | against Rust |");
    println!("|---|---|---|---|---|");
    behind(64, 63);
    behind(255, 63);
    println!();
    println!("| call, no block held | proved | against Rust |");
    println!("|---|---|---|");
    behind_none(REPORT.0, 0, REPORT);
    for entries in [0, 63] {
        for call in POOL_CALLS {
            behind_none(&format!("{}: {entries} entries", call.0), entries, call);
        }
    }
}
