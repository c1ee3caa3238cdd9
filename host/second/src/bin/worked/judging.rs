//! A delivered block behind the blocks before it: its stamp, its verdict, its link and its orders, checked.
use second::number::LARGEST;
use second::order::{Order, Slot};
use second::samples::{self, order, BLOCK, STAMPS};
use second::sha256;

use crate::case::{Case, Section};
use crate::chains::{chain_of, check, refused_at};
use crate::faults::stamped;

fn stamps() -> Vec<Case> {
    let mut cases = Vec::new();
    for place in 2..=5 {
        for (name, below) in [("the stamp before", 0), ("one below the stamp before", 1)] {
            let mut stamps = [2, 4, 6, 8, 10];
            stamps[place - 1] = stamps[place - 2] - below;
            let case = chain_of(format!("block {place} at {name}"), stamped(&stamps));
            cases.push(case.by_hand(refused_at(6, place)));
        }
    }
    for (place, stamp) in (1..).zip(STAMPS) {
        let case = check(format!("now is block {place}'s stamp, {stamp}"), |given| {
            given.now = Slot(stamp);
        });
        cases.push(case.by_hand(refused_at(7, place)));
    }
    let after = check("now is 10, above the last stamp", |given| {
        given.now = Slot(10)
    });
    cases.push(after.by_hand("count 5 releases 2:45"));
    cases
}

fn verdicts() -> Vec<Case> {
    let mut cases = Vec::new();
    for place in [1, 3, 5] {
        for verdict in [0, 1, 2, 4, 255] {
            let case = check(format!("{verdict} for block {place}"), |given| {
                given.verdicts[place - 1] = verdict;
            });
            cases.push(case.by_hand(refused_at(8, place)));
        }
    }
    for count in 0..5 {
        let case = check(format!("only {count}"), |given| {
            given.verdicts.truncate(count)
        });
        cases.push(case.by_hand(refused_at(8, count + 1)));
    }
    let spare = check("two spare ones, 0 and 255", |given| {
        given.verdicts.extend([0, 255])
    });
    cases.push(spare.by_hand("count 5 releases 2:45"));
    let none = check("none, and no blocks", |given| {
        given.delivered.clear();
        given.verdicts.clear();
    });
    cases.push(none.by_hand("count 0 releases 2:40"));
    cases
}

/// "Digesting a block without its signatures for the link."
fn links() -> Vec<Case> {
    let genesis = samples::table();
    let chain = samples::good_chain(&genesis);
    let mut cases = Vec::new();
    for place in [2, 3, 5] {
        let before = &chain[BLOCK * (place - 2)..BLOCK * (place - 1)];
        for (part, left_out) in [("its last 64 bytes", 64), ("its signatures", 128)] {
            let link = sha256::digest(&before[..BLOCK - left_out]).unwrap();
            let chain = samples::edited_chain(&genesis, &samples::blocks(), place, |bytes| {
                bytes[..32].copy_from_slice(&link);
            });
            let name = format!("block {place}: of the block before it without {part}");
            cases.push(chain_of(name, chain).by_hand(refused_at(9, place)));
        }
        let last_bit = check(
            format!("the last bit before block {place} changed"),
            |given| {
                given.delivered[BLOCK * (place - 1) - 1] ^= 1;
            },
        );
        cases.push(last_bit.by_hand(refused_at(9, place)));
    }
    let other = check("another genesis", |given| given.genesis[258] ^= 1);
    cases.push(other.by_hand(refused_at(9, 1)));
    let from_the_second = check("the first block left out", |given| {
        given.delivered.drain(..BLOCK);
    });
    cases.push(from_the_second.by_hand(refused_at(9, 1)));
    cases
}

/// A chain of two blocks, the second with these orders.
fn of(name: &str, orders: &[Order]) -> Case {
    let blocks = [samples::block(1, &[]), samples::block(2, orders)];
    chain_of(name, samples::chain(&samples::table(), &blocks))
}

/// Display 2 goes over what 32 bits hold; a release that is the right one in its lowest 32 bits is wrong.
fn of_35_bits() -> Vec<Case> {
    let below = order(2, 40, 4_294_967_295);
    let over = order(2, 4_294_967_295, 4_294_967_297);
    let largest = order(2, 4_294_967_297, LARGEST);
    vec![
        of("40 to 4,294,967,297", &[below, over]).by_hand("count 2 releases 2:4294967297"),
        of("up to the largest", &[below, over, largest]).by_hand("count 2 releases 2:34359738367"),
        of(
            "from there to 7",
            &[below, over, order(2, 4_294_967_297, 7)],
        )
        .by_hand(refused_at(10, 2)),
        of("1 expected there", &[below, over, order(2, 1, 7)]).by_hand(refused_at(10, 2)),
        of(
            "4,294,967,336 expected, not 40",
            &[order(2, 4_294_967_336, LARGEST)],
        )
        .by_hand(refused_at(10, 2)),
    ]
}

fn orders() -> Vec<Case> {
    let first = order(2, 40, 41);
    let second = order(2, 41, 50);
    let rising: Vec<Order> = (40..48)
        .map(|release| order(2, release, release + 1))
        .collect();
    vec![
        of("40 to 41, then 41 to 50", &[first, second]).by_hand("count 2 releases 2:50"),
        of("the two swapped", &[second, first]).by_hand(refused_at(10, 2)),
        of(
            "another display between them",
            &[first, order(63, 0, LARGEST), second],
        )
        .by_hand("count 2 releases 2:50 63:34359738367"),
        of("eight of one display", &rising).by_hand("count 2 releases 2:48"),
        of("the same one twice", &[first, first]).by_hand(refused_at(10, 2)),
        of(
            "the second to the release it expects",
            &[first, order(2, 41, 41)],
        )
        .by_hand(refused_at(10, 2)),
        of(
            "the first not valid, the second at the start",
            &[second, first, second],
        )
        .by_hand(refused_at(10, 2)),
        of("the eighth not valid", &[&rising[..7], &[first]].concat()).by_hand(refused_at(10, 2)),
    ]
}

pub fn sections() -> Vec<Section> {
    let section = |title, cases| Section { title, cases };
    vec![
        section("Checks: stamps, 6 and 7", stamps()),
        section("Checks: verdicts, 8", verdicts()),
        section("Checks: links, 9", links()),
        section("Checks: orders of one block, 10", orders()),
        section("Checks: releases of 35 bits", of_35_bits()),
    ]
}
