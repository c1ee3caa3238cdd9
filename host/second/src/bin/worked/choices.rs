//! The choice between the held chain and a delivered one, before any byte is copied.
use second::adopt;
use second::block::Block;
use second::chain::LONGEST;
use second::order::{Release, Slot};
use second::samples::{self, order};
use second::{refusal, Refusal};

use crate::case::{bytes_text, case, Case, Field, Op, Section};
use crate::faults::{at, bad_blocks, bad_openings, pairs, stamped, Arguments};

/// choose GENESIS NOW HELD DELIVERED VERDICTS, where the held chain is a whole slice
pub struct Choose(pub Arguments);

impl Op for Choose {
    fn word(&self) -> &'static str {
        "choose"
    }

    fn fields(&self) -> Vec<Field> {
        let given = &self.0;
        vec![
            given.genesis[..].into(),
            given.now.0.into(),
            given.held_chain().into(),
            given.delivered[..].into(),
            given.verdicts[..].into(),
        ]
    }

    fn answer(&self) -> String {
        let given = &self.0;
        let (held, delivered) = (given.held_chain(), &given.delivered[..]);
        let (shown, refused) = given.choose(adopt::choose);
        let shown = match (shown == held, shown == delivered) {
            (true, true) => "either".into(),
            (true, false) => "held".into(),
            (false, true) => "delivered".into(),
            (false, false) => bytes_text(shown),
        };
        let Refusal { number, place } = refused.unwrap_or(refusal(0));
        format!("shows {shown} {number} {place}")
    }
}

/// The delivered bytes are shown.
fn taken(name: impl Into<String>, given: Arguments) -> Case {
    case(name, Choose(given)).by_hand("shows delivered 0 0")
}

/// The held bytes are shown.
fn kept(name: impl Into<String>, given: Arguments, refused: Refusal) -> Case {
    let op = Choose(given);
    let shown = match op.0.held_chain() == op.0.delivered {
        true => "either",
        false => "held",
    };
    let Refusal { number, place } = refused;
    case(name, op).by_hand(format!("shows {shown} {number} {place}"))
}

/// One holds a chain that fills its buffer and is delivered another, at slot 20 and with enough good verdicts.
pub fn exchange(genesis: Vec<u8>, held: Vec<u8>, delivered: Vec<u8>) -> Arguments {
    Arguments {
        genesis,
        held_length: held.len(),
        held,
        delivered,
        verdicts: vec![3; 8],
        ..Arguments::good()
    }
}

/// Stamps held and delivered, and whether the delivered ones are taken.
#[rustfmt::skip]
pub const STAMPS: [(&str, &[u32], &[u32], bool); 9] = [
    ("01's: an equal count with a later last stamp", &[1, 2], &[1, 3], false),
    ("an equal count with an earlier last stamp", &[1, 3], &[1, 2], false),
    ("the held chain itself", &[1, 2], &[1, 2], false),
    ("01's: more blocks with an earlier last stamp", &[18, 19], &[1, 2, 3], true),
    ("fewer blocks with a later last stamp", &[1, 2, 3], &[18, 19], false),
    ("the held chain's first block alone", &[1, 2], &[1], false),
    ("the held chain and a block more", &[1, 2], &[1, 2, 3], true),
    ("more blocks, the held one stamped now", &[20], &[1, 2], true),
    ("a first block", &[], &[19], true),
];

fn counts() -> Vec<Case> {
    STAMPS
        .iter()
        .map(|(name, held, delivered, more)| {
            let given = exchange(samples::table(), stamped(held), stamped(delivered));
            match more {
                true => taken(*name, given),
                false => kept(*name, given, refusal(11)),
            }
        })
        .collect()
}

/// A table and two chains of 486 bytes, the first of two blocks and the second of three.
pub fn of_one_length() -> (Vec<u8>, [Vec<u8>; 2]) {
    let start = 1 << 28;
    let mut table = samples::genesis(6, 1, 5);
    table.releases[..7].fill(start);
    let genesis = table.bytes();
    // seven orders of 11 bytes and one of 4
    let full = |slot: u32, release: Release, last: u32| {
        let mut orders: Vec<_> = (0..7)
            .map(|display| order(display, release, release + 1))
            .collect();
        orders.push(order(last, 0, 128));
        samples::block(slot, &orders)
    };
    let two = [full(1, start, 62), full(2, start + 1, 63)];
    let three = samples::empty_blocks(&[3, 4, 5]);
    let chains = [&two[..], &three].map(|blocks: &[Block]| samples::chain(&genesis, blocks));
    assert!(chains.iter().all(|chain| chain.len() == 486));
    (genesis, chains)
}

fn of_equal_bytes() -> Vec<Case> {
    let (genesis, [two, three]) = of_one_length();
    let more = exchange(genesis.clone(), two.clone(), three.clone());
    let fewer = exchange(genesis, three, two);
    vec![
        taken("two blocks held, three delivered", more),
        kept("three blocks held, two delivered", fewer, refusal(11)),
    ]
}

/// One holds what three turns made of display 2; a controller whose clock had run down replays the list of the first, stamped late.
pub fn stale_list() -> Arguments {
    let genesis = samples::table();
    let held = samples::chain(&genesis, &samples::blocks()[..3]);
    let stale = samples::chain(&genesis, &[samples::block(19, &[order(2, 40, 41)])]);
    exchange(genesis, held, stale)
}

/// "Adopting in slot 1, genesis and held chain good."
pub fn in_slot_1() -> Vec<(String, Arguments, Refusal)> {
    let late = at(7, 1);
    let mut wrong = samples::block(256, &[order(9, 9, 9)]).bytes();
    wrong.resize(LONGEST, 0xFF);
    let delivered = [
        (
            "the sample chain",
            samples::good_chain(&samples::table()),
            late,
        ),
        (
            "a first block with nothing else right, 64,256 bytes in all",
            wrong,
            late,
        ),
        ("no blocks", vec![], refusal(11)),
    ];
    let mut cases = Vec::new();
    for held in [&[][..], &[1]] {
        for (name, delivered, refused) in &delivered {
            let given = Arguments {
                now: Slot(1),
                ..exchange(samples::table(), stamped(held), delivered.clone())
            };
            let name = format!("{} held, delivered {name}", held.len());
            cases.push((name, given, *refused));
        }
    }
    cases
}

fn slot_1() -> Vec<Case> {
    in_slot_1()
        .into_iter()
        .map(|(name, given, refused)| kept(name, given, refused))
        .collect()
}

fn refusals() -> Vec<Case> {
    let mut cases: Vec<Case> = bad_openings()
        .into_iter()
        .map(|(fault, given, number)| kept(fault, given, refusal(number)))
        .collect();
    for (fault, chain, refused) in bad_blocks() {
        let bad = at(17, refused.place as usize);
        let good = samples::good_chain(&samples::table());
        let given = exchange(samples::table(), chain.clone(), good);
        cases.push(kept(format!("held: {fault}"), given, bad));
        let given = exchange(samples::table(), stamped(&[1]), chain);
        cases.push(kept(format!("delivered: {fault}"), given, refused));
    }
    let long = vec![0; LONGEST + 1];
    let given = exchange(samples::table(), long.clone(), vec![0; LONGEST]);
    cases.push(kept("64,257 bytes held", given, refusal(17)));
    let given = exchange(samples::table(), stamped(&[1]), long);
    cases.push(kept("64,257 bytes delivered", given, refusal(16)));
    cases.push(kept(
        "a stale list, stamped late",
        stale_list(),
        refusal(11),
    ));
    cases
}

fn two_faults() -> Vec<Case> {
    pairs(6)
        .into_iter()
        .filter(|pair| pair.among(&[1, 2, 17, 16, 5, 8, 11]))
        .map(|pair| kept(pair.name(), pair.given, pair.refused))
        .collect()
}

pub fn sections() -> Vec<Section> {
    let section = |title, cases| Section { title, cases };
    vec![
        section("Choices: counts decide, and no stamp", counts()),
        section("Choices: two chains of 486 bytes", of_equal_bytes()),
        section("Choices: in slot 1", slot_1()),
        section("Choices: every refusal shows the held bytes", refusals()),
        section("Choices: the earlier of two faults", two_faults()),
    ]
}
