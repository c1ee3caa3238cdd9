//! Delivered chains, checked.
use second::chain::{self, LONGEST};
use second::order::Slot;
use second::samples::{self, BLOCK, EDITS, LONG_START};

use crate::case::{case, refused, releases_text, told, Case, Field, Op, Section};
use crate::faults::{at, bad_openings, edit, pairs, stamped, with_edit, Arguments};

/// check GENESIS NOW CHAIN VERDICTS
pub struct Check(pub Arguments);

impl Op for Check {
    fn word(&self) -> &'static str {
        "check"
    }

    fn fields(&self) -> Vec<Field> {
        let given = &self.0;
        vec![
            given.genesis[..].into(),
            given.now.0.into(),
            given.delivered[..].into(),
            given.verdicts[..].into(),
        ]
    }

    fn answer(&self) -> String {
        told(self.0.check(chain::check), |(count, releases)| {
            format!("count {} releases{}", count.0, releases_text(&releases))
        })
    }
}

/// The sample chain at slot 20 with good verdicts, but for a change.
pub fn check(name: impl Into<String>, change: impl FnOnce(&mut Arguments)) -> Case {
    let mut given = Arguments::good();
    change(&mut given);
    case(name, Check(given))
}

/// A chain at slot 20 with good verdicts.
pub fn chain_of(name: impl Into<String>, chain: Vec<u8>) -> Case {
    check(name, |given| {
        given.delivered = chain;
        given.verdicts = vec![3; 6];
    })
}

/// A refusal of a block, or with place 0, as it is printed.
pub fn refused_at(number: u32, place: usize) -> String {
    refused(at(number, place))
}

fn samples_taken() -> Vec<Case> {
    (0..=5)
        .map(|blocks| {
            check(format!("{blocks} of the sample blocks"), |given| {
                given.delivered.truncate(BLOCK * blocks);
            })
            .by_hand(format!("count {blocks} releases 2:{}", 40 + blocks))
        })
        .collect()
}

/// Blocks without orders at these stamps.
fn taken_at(now: u32, stamps: &[u32]) -> Case {
    let name = format!("stamps {stamps:?}, now {now}");
    let count = stamps.len();
    check(name, |given| {
        given.now = Slot(now);
        given.delivered = stamped(stamps);
    })
    .by_hand(format!("count {count} releases 2:40"))
}

/// "Slot stamps rise strictly" and are below now, so no delivered chain is longer.
fn longest() -> Case {
    let (genesis, chain) = samples::longest_chain(255);
    let mut releases = [LONG_START; 64];
    releases[..8].fill(LONG_START + 255);
    check("a block in every slot, 63,878 bytes", |given| {
        given.now = Slot(256);
        (given.genesis, given.delivered) = (genesis, chain);
        given.verdicts = vec![3; 255];
    })
    .by_hand(format!("count 255 releases{}", releases_text(&releases)))
}

fn taken() -> Vec<Case> {
    let mut cases = samples_taken();
    cases.extend([
        taken_at(1, &[]),
        taken_at(256, &[]),
        taken_at(2, &[1]),
        taken_at(256, &[255]),
        taken_at(256, &[1, 255]),
        longest(),
    ]);
    cases
}

/// 1, 2 and 16, which come before the blocks and have place 0.
fn before_the_blocks() -> Vec<Case> {
    let mut cases: Vec<Case> = bad_openings()
        .into_iter()
        .map(|(fault, given, number)| case(fault, Check(given)).by_hand(refused_at(number, 0)))
        .collect();
    for (length, by_hand) in [
        (LONGEST, refused_at(5, 6)),
        (LONGEST + 1, refused_at(16, 0)),
    ] {
        let mut chain = samples::good_chain(&samples::table());
        chain.resize(length, 0);
        let name = format!("the sample chain and zeros, {length} bytes in all");
        cases.push(chain_of(name, chain).by_hand(by_hand));
    }
    let zeros = chain_of("64,257 zeros", vec![0; LONGEST + 1]);
    cases.push(zeros.by_hand(refused_at(16, 0)));
    cases
}

fn bad_blocks() -> Vec<Case> {
    let mut cases = Vec::new();
    for place in [1, 3, 5] {
        for edit in EDITS.iter().filter(|edit| (edit.number, place) != (6, 1)) {
            let name = format!("{} in block {place}", edit.name);
            let case = chain_of(name, with_edit(edit, place));
            cases.push(case.by_hand(refused_at(edit.number, place)));
        }
        for bytes in [1, 32, 34, 36, 37, 100, 101, 164] {
            let case = check(format!("block {place} cut to {bytes} bytes"), |given| {
                given.delivered.truncate(BLOCK * (place - 1) + bytes);
            });
            cases.push(case.by_hand(refused_at(3, place)));
        }
    }
    cases
}

/// What stands after the fifth block, and the refusal's number.
#[rustfmt::skip]
const LEFTOVERS: [(&str, u32, &[u8]); 5] = [
    ("one byte", 3, &[0]),
    ("a link alone", 3, &[0; 32]),
    ("a link and a count cut", 3, &[0x80; 36]),
    ("a link and a count of five high bits", 4, &[0x80; 37]),
    ("a link and a count of 9", 5, &[9; 33]),
];

fn leftovers() -> Vec<Case> {
    LEFTOVERS
        .iter()
        .map(|(name, number, rest)| {
            check(*name, |given| given.delivered.extend(*rest)).by_hand(refused_at(*number, 6))
        })
        .collect()
}

/// The faults that a check can meet.
const CHECKED: [u32; 10] = [1, 2, 16, 4, 5, 6, 7, 8, 9, 10];

fn two_faults() -> Vec<Case> {
    let with_6 = pairs(6).into_iter();
    let with_7 = pairs(7)
        .into_iter()
        .filter(|pair| pair.numbers.contains(&7));
    with_6
        .chain(with_7)
        .filter(|pair| pair.among(&CHECKED))
        .map(|pair| case(pair.name(), Check(pair.given)).by_hand(refused(pair.refused)))
        .collect()
}

/// A block that does not read, whatever else is wrong with it: 3 comes before 6 to 10.
fn cut_too() -> Vec<Case> {
    let faults = samples::adopting_faults(6).into_iter();
    let late = samples::adopting_faults(7).into_iter();
    faults
        .filter(|(refused, _)| [6, 8, 9, 10].contains(&refused.number))
        .chain(late.filter(|(refused, _)| refused.number == 7))
        .map(|(refused, fault)| {
            check(format!("3 and {}", refused.number), |given| {
                fault(given);
                given.delivered.truncate(2 * BLOCK - 1);
            })
            .by_hand(refused_at(3, 2))
        })
        .collect()
}

/// A later block's fault comes second, whatever its number.
fn two_bad_blocks() -> Vec<Case> {
    [4, 5, 6, 7, 9, 10]
        .into_iter()
        .map(|number| {
            let mut chain = with_edit(edit(number), 4);
            // the third block's new release
            chain[2 * BLOCK + 35] = 0;
            let name = format!("10 in block 3 and {number} in block 4");
            chain_of(name, chain).by_hand(refused_at(10, 3))
        })
        .collect()
}

pub fn sections() -> Vec<Section> {
    let section = |title, cases| Section { title, cases };
    vec![
        section("Checks: chains that are taken", taken()),
        section("Checks: 1, 2 and 16, before any block", before_the_blocks()),
        section(
            "Checks: the first, the middle and the last block bad",
            bad_blocks(),
        ),
        section(
            "Checks: bytes after the last block that are no block",
            leftovers(),
        ),
        section("Checks: the earlier of two faults", two_faults()),
        section("Checks: a bad block that is also cut", cut_too()),
        section("Checks: the first of two bad blocks", two_bad_blocks()),
    ]
}
