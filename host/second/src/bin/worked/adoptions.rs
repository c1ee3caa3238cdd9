//! Adoption: a delivered chain in the place of the held one.
use second::adopt;
use second::chain::LONGEST;
use second::order::Slot;
use second::samples::{self, BLOCK, FILLER};
use second::{refusal, Refusal};

use crate::case::{bytes_text, case, refused, told, Case, Field, Op, Section};
use crate::choices::{exchange, in_slot_1, of_one_length, stale_list, STAMPS};
use crate::faults::{at, bad_blocks, bad_openings, pairs, stamped, with_all_after, Arguments};

/// adopt GENESIS NOW BUFFER LENGTH DELIVERED VERDICTS
pub struct Adopt(pub Arguments);

impl Op for Adopt {
    fn word(&self) -> &'static str {
        "adopt"
    }

    fn fields(&self) -> Vec<Field> {
        let given = &self.0;
        vec![
            given.genesis[..].into(),
            given.now.0.into(),
            given.held[..].into(),
            given.held_length.into(),
            given.delivered[..].into(),
            given.verdicts[..].into(),
        ]
    }

    fn answer(&self) -> String {
        let mut given = self.0.clone();
        let adopted = told(given.adopt(adopt::adopt), |(length, count)| {
            format!("length {length} count {}", count.0)
        });
        format!("{adopted} {}", bytes_text(&given.held))
    }
}

/// The delivered chain, of so many blocks, comes to the buffer's front, and the bytes past it stay.
fn taken(name: impl Into<String>, given: Arguments, count: usize) -> Case {
    let length = given.delivered.len();
    let buffer = [&given.delivered, &given.held[length..]].concat();
    let by_hand = format!("length {length} count {count} {}", bytes_text(&buffer));
    case(name, Adopt(given)).by_hand(by_hand)
}

/// Every byte stays.
fn kept(name: impl Into<String>, given: Arguments, refusal: Refusal) -> Case {
    let by_hand = format!("{} {}", refused(refusal), bytes_text(&given.held));
    case(name, Adopt(given)).by_hand(by_hand)
}

/// The good arguments but for a change.
fn changed(change: impl FnOnce(&mut Arguments)) -> Arguments {
    let mut given = Arguments::good();
    change(&mut given);
    given
}

/// The chain that is held, at the front of a buffer of so many bytes.
fn roomy(mut given: Arguments, room: usize) -> Arguments {
    given.held.resize(room, FILLER);
    given
}

fn counts() -> Vec<Case> {
    STAMPS
        .iter()
        .map(|(name, held, delivered, more)| {
            let given = exchange(samples::table(), stamped(held), stamped(delivered));
            let given = roomy(given, 500);
            match more {
                true => taken(*name, given, delivered.len()),
                false => kept(*name, given, refusal(11)),
            }
        })
        .collect()
}

/// Chains of other lengths than the held one, and what stays behind them.
fn lengths() -> Vec<Case> {
    let (genesis, held) = samples::longest_chain(2);
    let fewer = samples::chain(&genesis, &samples::empty_blocks(&[3, 4, 5]));
    let fewer = exchange(genesis, held, fewer);
    let (genesis, [two, three]) = of_one_length();
    let equal = exchange(genesis, two, three);
    vec![
        taken("more bytes", Arguments::good(), 5),
        taken("more blocks in 486 bytes, 500 held", fewer.clone(), 3),
        taken("the same, and bytes past both", roomy(fewer, 510), 3),
        taken("more blocks in as many bytes", equal, 3),
        taken("255 blocks, 254 held", roomy(long(), 42_000), 255),
    ]
}

/// A block in every slot but the last, in the place of one in every slot but the last two.
fn long() -> Arguments {
    let stamps: Vec<u32> = (1..=255).collect();
    Arguments {
        now: Slot(256),
        verdicts: vec![3; 255],
        ..exchange(samples::table(), stamped(&stamps[..254]), stamped(&stamps))
    }
}

/// What is delivered has 825 bytes, what is held 324.
fn rooms() -> Vec<Case> {
    let none = exchange(samples::table(), vec![], stamped(&[1]));
    let room = |bytes: usize| roomy(Arguments::good(), bytes);
    vec![
        taken("70,000 bytes", room(70_000), 5),
        taken("826 bytes", room(826), 5),
        taken("825 bytes", room(825), 5),
        kept("824 bytes", room(824), refusal(15)),
        kept("324 bytes", room(324), refusal(15)),
        kept("no bytes, and nothing held", none, refusal(15)),
    ]
}

/// "Letting a block stamped now or later in from outside." The sample chain's last stamp is 9.
fn clocks() -> Vec<Case> {
    let clock = |now: u32| changed(|given| given.now = Slot(now));
    let mut cases = vec![
        taken(
            "now 10, above the delivered chain's last stamp",
            clock(10),
            5,
        ),
        kept("now 9, its last stamp", clock(9), at(7, 5)),
        kept("now 6, its stamp before the last", clock(6), at(7, 4)),
        kept("now 3, the held chain's last stamp", clock(3), at(7, 2)),
        kept("now 2, below that", clock(2), at(17, 2)),
    ];
    for (name, given, refused) in in_slot_1() {
        cases.push(kept(format!("in slot 1: {name}"), given, refused));
    }
    cases
}

/// Deliveries of one slot, and whether each is taken.
const DELIVERIES: [(&[u32], bool); 5] = [
    (&[5], true),
    (&[4], false),
    (&[3, 4], true),
    (&[6, 19], false),
    (&[1, 2, 3, 4], true),
];

/// "Several deliveries in one slot are taken one after another."
fn deliveries() -> Vec<Case> {
    let mut cases = Vec::new();
    let mut held = vec![FILLER; 700];
    let mut held_length = 0;
    for (place, (stamps, more)) in (1..).zip(DELIVERIES) {
        let delivered = stamped(stamps);
        let given = Arguments {
            held: held.clone(),
            held_length,
            ..exchange(samples::table(), vec![], delivered.clone())
        };
        let name = format!("delivery {place}");
        if more {
            cases.push(taken(name, given, stamps.len()));
            held_length = delivered.len();
            held[..held_length].copy_from_slice(&delivered);
        } else {
            cases.push(kept(name, given, refusal(11)));
        }
    }
    cases
}

/// Chains, held or delivered, with a fault in the first, the middle or the last block.
fn bad_chains() -> Vec<Case> {
    let mut cases = Vec::new();
    for (fault, chain, refused) in bad_blocks() {
        let given = changed(|given| {
            given.held_length = chain.len();
            given.held = chain.clone();
        });
        let bad = at(17, refused.place as usize);
        cases.push(kept(format!("held: {fault}"), given, bad));
        let given = changed(|given| given.delivered = chain);
        cases.push(kept(format!("delivered: {fault}"), given, refused));
    }
    for place in [1, 3, 5] {
        let given = changed(|given| given.verdicts[place - 1] = 2);
        let name = format!("delivered: verdict 2 for block {place}");
        cases.push(kept(name, given, at(8, place)));
        let given = changed(|given| given.delivered.truncate(BLOCK * place - 1));
        let name = format!("delivered: block {place} a byte short");
        cases.push(kept(name, given, at(3, place)));
    }
    cases
}

/// The refusals of place 0.
fn no_place() -> Vec<Case> {
    let openings = bad_openings().into_iter();
    let mut cases: Vec<Case> = openings
        .map(|(fault, given, number)| kept(fault, given, refusal(number)))
        .collect();
    for (buffer, length) in samples::bad_lengths(&samples::table()) {
        let name = format!("length {length} of a buffer of {}", buffer.len());
        let given = changed(|given| (given.held, given.held_length) = (buffer, length));
        cases.push(kept(name, given, refusal(17)));
    }
    let long = changed(|given| given.delivered = vec![0; LONGEST + 1]);
    cases.push(kept("64,257 bytes delivered", long, refusal(16)));
    let stale = roomy(stale_list(), 700);
    cases.push(kept("a stale list, stamped late", stale, refusal(11)));
    cases
}

fn several_faults() -> Vec<Case> {
    let two = pairs(6)
        .into_iter()
        .filter(|pair| pair.among(&[1, 2, 17, 16, 5, 8, 11, 15]))
        .map(|pair| (pair.name(), pair.given, pair.refused));
    two.chain(with_all_after(6))
        .map(|(name, given, refused)| kept(name, given, refused))
        .collect()
}

pub fn sections() -> Vec<Section> {
    let section = |title, cases| Section { title, cases };
    vec![
        section("Adoption: counts decide, and no stamp", counts()),
        section("Adoption: bytes past the delivered chain stay", lengths()),
        section("Adoption: buffers, and 15 if one is too short", rooms()),
        section("Adoption: the clock", clocks()),
        section("Adoption: several deliveries in one slot", deliveries()),
        section("Adoption: a bad chain leaves every byte", bad_chains()),
        section("Adoption: so do the refusals with place 0", no_place()),
        section("Adoption: the earliest of several faults", several_faults()),
    ]
}
