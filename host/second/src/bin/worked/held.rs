//! Held chains, and what they come to.
use second::chain::{self, Standing};
use second::genesis::Opening;
use second::order::{Release, Slot};
use second::samples::{self, order, BLOCK, LONG_START, STAMPS};
use second::{sha256, Refusal};

use crate::case::{bytes_text, case, releases_text, told, Case, Field, Op, Section};
use crate::faults::{bad_blocks, bad_openings, stamped, Arguments};

/// held GENESIS NOW BUFFER LENGTH
pub struct Held(pub Arguments);

impl Op for Held {
    fn word(&self) -> &'static str {
        "held"
    }

    fn fields(&self) -> Vec<Field> {
        let given = &self.0;
        vec![
            given.genesis[..].into(),
            given.now.0.into(),
            given.held[..].into(),
            given.held_length.into(),
        ]
    }

    fn answer(&self) -> String {
        let given = &self.0;
        let summary = Opening::new(&given.genesis, given.now)
            .and_then(|opening| chain::summary(&opening, &given.held, given.held_length));
        told(summary, |summary| {
            let [whole, settled] = [summary.whole, summary.settled].map(standing_text);
            format!("{whole} settled {settled}")
        })
    }
}

fn standing_text(standing: Standing) -> String {
    let releases = releases_text(&standing.releases);
    let stamp = standing.last.map_or(0, |stamp| stamp.0);
    standing_of(
        standing.count.0,
        standing.length,
        stamp,
        standing.before,
        &releases,
    )
}

/// A standing as it is printed, where the link digests what stands before the next block.
fn standing_of(count: u32, length: usize, stamp: u32, before: &[u8], releases: &str) -> String {
    let link = bytes_text(&sha256::digest(before).unwrap());
    format!("count {count} length {length} stamp {stamp} link {link} releases{releases}")
}

/// The standing after so many of the sample blocks.
fn sample_standing(blocks: usize) -> String {
    let genesis = samples::table();
    let chain = samples::good_chain(&genesis);
    let length = BLOCK * blocks;
    let releases = format!(" 2:{}", 40 + blocks);
    match blocks {
        0 => standing_of(0, 0, 0, &genesis, &releases),
        _ => {
            let before = &chain[length - BLOCK..length];
            standing_of(blocks as u32, length, STAMPS[blocks - 1], before, &releases)
        }
    }
}

/// A chain that fills its buffer.
fn held(name: impl Into<String>, now: u32, chain: Vec<u8>) -> Case {
    let length = chain.len();
    in_buffer(name, now, chain, length)
}

fn in_buffer(name: impl Into<String>, now: u32, buffer: Vec<u8>, length: usize) -> Case {
    let given = Arguments {
        now: Slot(now),
        held: buffer,
        held_length: length,
        ..Arguments::good()
    };
    case(name, Held(given))
}

fn sample_chain() -> Vec<u8> {
    samples::good_chain(&samples::table())
}

fn good() -> Vec<Case> {
    let none = sample_standing(0);
    let mut cases: Vec<Case> = [1, 256]
        .into_iter()
        .map(|now| {
            held(format!("no blocks, now {now}"), now, vec![])
                .by_hand(format!("{none} settled {none}"))
        })
        .collect();
    for blocks in 1..=5 {
        let chain = sample_chain()[..BLOCK * blocks].to_vec();
        let now = STAMPS[blocks - 1];
        let name = format!("{blocks} of the sample blocks, now the last stamp, {now}");
        // depth 4
        let settled = STAMPS.iter().filter(|stamp| **stamp + 4 < now).count();
        let by_hand = format!(
            "{} settled {}",
            sample_standing(blocks),
            sample_standing(settled)
        );
        cases.push(held(name, now, chain).by_hand(by_hand));
    }
    let mut buffer = sample_chain();
    buffer[2 * BLOCK..].fill(0xFF);
    let past = in_buffer("bytes past the chain are not read", 5, buffer, 2 * BLOCK);
    let by_hand = format!("{} settled {}", sample_standing(2), sample_standing(0));
    cases.push(past.by_hand(by_hand));
    cases.push(longest());
    cases
}

/// A block in every slot, each as long as it can be.
fn longest() -> Case {
    let (genesis, chain) = samples::longest_chain(256);
    let standing = |blocks: u32, length: usize| {
        let mut releases = [LONG_START; 64];
        releases[..8].fill(LONG_START + Release::from(blocks));
        let before = &chain[length - 251..length];
        standing_of(blocks, length, blocks, before, &releases_text(&releases))
    };
    let by_hand = format!(
        "{} settled {}",
        standing(256, 64_129),
        standing(254, 63_627)
    );
    let given = Arguments {
        genesis,
        now: Slot(256),
        held_length: chain.len(),
        held: chain.clone(),
        ..Arguments::good()
    };
    case("a block in every slot, 64,129 bytes", Held(given)).by_hand(by_hand)
}

/// "A block is settled exactly if its slot + 3t + 1 < now", and 02: "Settled means slot + D < now."
fn settled() -> Vec<Case> {
    let mut cases = Vec::new();
    // stamps 1, 3, 4, 6, 9 and depth 4
    for (now, settled) in [(10, 3), (11, 4), (13, 4), (14, 5), (256, 5)] {
        let by_hand = format!(
            "{} settled {}",
            sample_standing(5),
            sample_standing(settled)
        );
        let case = held(format!("the sample chain, now {now}"), now, sample_chain());
        cases.push(case.by_hand(by_hand));
    }
    let genesis = samples::table();
    for stamp in [5, 6] {
        let blocks = [samples::block(stamp, &[order(2, 40, 41)])];
        let chain = samples::chain(&genesis, &blocks);
        let whole = standing_of(1, BLOCK, stamp, &chain, " 2:41");
        let settled = match stamp {
            5 => whole.clone(),
            _ => sample_standing(0),
        };
        let case = held(format!("01's: stamp {stamp}, now 10"), 10, chain);
        cases.push(case.by_hand(format!("{whole} settled {settled}")));
    }
    cases.extend([(11, false), (12, true)].map(|(now, settles)| of_four(now, settles)));
    cases
}

/// A block stamped 1 at a station with four controllers, whose depth is 10.
fn of_four(now: u32, settles: bool) -> Case {
    let genesis = samples::genesis(4, 1, 5).bytes();
    let chain = samples::chain(&genesis, &[samples::block(1, &[order(2, 40, 41)])]);
    let none = standing_of(0, 0, 0, &genesis, " 2:40");
    let whole = standing_of(1, BLOCK, 1, &chain, " 2:41");
    let settled = if settles { &whole } else { &none };
    let by_hand = format!("{whole} settled {settled}");
    let given = Arguments {
        genesis,
        now: Slot(now),
        held_length: chain.len(),
        held: chain,
        ..Arguments::good()
    };
    case(format!("n = 4, t = 1: stamp 1, now {now}"), Held(given)).by_hand(by_hand)
}

fn bad(case: Case, place: u32) -> Case {
    case.by_hand(format!("refused 17 {place}"))
}

fn bad_chains() -> Vec<Case> {
    let mut cases: Vec<Case> = bad_blocks()
        .map(|(fault, chain, Refusal { place, .. })| bad(held(fault, 20, chain), place))
        .collect();
    for place in [1, 3, 5] {
        for bytes in [1, 33, 164] {
            let end = BLOCK * (place - 1) + bytes;
            let name = format!("block {place} cut to {bytes} bytes");
            let case = held(name, 20, sample_chain()[..end].to_vec());
            cases.push(bad(case, place as u32));
        }
    }
    for (now, place) in [(1, 2), (3, 3), (5, 4), (8, 5)] {
        let name = format!("the clock set back to {now}");
        cases.push(bad(held(name, now, sample_chain()), place));
    }
    let rest = in_buffer(
        "a byte past the chain taken with it",
        20,
        sample_chain(),
        331,
    );
    cases.push(bad(rest, 3));
    let falling = held(
        "the last stamp the one before, now the same",
        4,
        stamped(&[2, 4, 4]),
    );
    cases.push(bad(falling, 3));
    cases
}

fn bad_lengths() -> Vec<Case> {
    let mut cases: Vec<Case> = samples::bad_lengths(&samples::table())
        .into_iter()
        .map(|(buffer, length)| {
            let name = format!("length {length} of a buffer of {}", buffer.len());
            bad(in_buffer(name, 20, buffer, length), 0)
        })
        .collect();
    let mut chain = sample_chain();
    chain.resize(chain::LONGEST, 0);
    let zeros = held("the sample chain and zeros, 64,256 bytes in all", 20, chain);
    cases.push(bad(zeros, 6));
    cases
}

fn openings() -> Vec<Case> {
    let mut cases: Vec<Case> = bad_openings()
        .into_iter()
        .map(|(fault, given, number)| {
            case(fault, Held(given)).by_hand(format!("refused {number} 0"))
        })
        .collect();
    for (name, now, number) in [
        ("1, 2 and 17", 0, 1),
        ("2 and 17", 0, 2),
        ("1 and 17", 20, 1),
    ] {
        let mut given = Arguments::good();
        given.now = Slot(now);
        given.held_length = usize::MAX;
        if number == 1 {
            given.genesis.push(0);
        }
        cases.push(case(name, Held(given)).by_hand(format!("refused {number} 0")));
    }
    cases
}

pub fn sections() -> Vec<Section> {
    let section = |title, cases| Section { title, cases };
    vec![
        section("Held chains: good ones", good()),
        section("Held chains: what is settled", settled()),
        section("Held chains: 17 at the first bad block", bad_chains()),
        section("Held chains: 17 at place 0", bad_lengths()),
        section("Held chains: 1, then 2, then 17", openings()),
    ]
}
