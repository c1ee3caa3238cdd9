//! Walks over chains, step by step.
use second::block::Block;
use second::samples::{self, BLOCK};
use second::walk::Walk;

use crate::blocks::{block_text, longest, mixed, shortest};
use crate::case::{case, refused, Case, Field, Op, Section};

/// walk CHAIN AT
pub struct Steps(pub Vec<u8>, pub usize);

impl Op for Steps {
    fn word(&self) -> &'static str {
        "walk"
    }

    fn fields(&self) -> Vec<Field> {
        vec![self.0[..].into(), self.1.into()]
    }

    /// A line for each step up to the first that gives no block, and the place where that one leaves the walk.
    fn answer(&self) -> String {
        let mut walk = Walk {
            chain: &self.0,
            place: self.1,
        };
        let mut lines = Vec::new();
        loop {
            let place = walk.place;
            let met = match walk.step() {
                Ok(Some(block)) => {
                    lines.push(format!("at {place} {}", block_text(&block)));
                    continue;
                }
                Ok(None) => "end".into(),
                Err(refusal) => refused(refusal),
            };
            lines.push(format!("at {place} {met}, then at {}", walk.place));
            return lines.join("\n");
        }
    }
}

/// Three sample blocks with proper links, 165 bytes each.
fn three() -> Vec<u8> {
    let genesis = samples::table();
    samples::chain(&genesis, &samples::blocks()[..3])
}

/// The three with other bytes in place of the second one's display.
fn second_edited(display: &[u8]) -> Vec<u8> {
    let genesis = samples::table();
    samples::edited_chain(&genesis, &samples::blocks()[..3], 2, |bytes| {
        bytes.splice(33..34, display.iter().copied());
    })
}

fn ended() -> Vec<Case> {
    let unlike = [shortest(), longest(), mixed()];
    let unlike: Vec<u8> = unlike.iter().flat_map(Block::bytes).collect();
    let end = 3 * BLOCK;
    let from = |at: usize| case(format!("three blocks from place {at}"), Steps(three(), at));
    vec![
        case("no bytes", Steps(vec![], 0)).by_hand("at 0 end, then at 0"),
        case("no bytes, from place 1", Steps(vec![], 1)).by_hand("at 1 end, then at 1"),
        from(0),
        from(BLOCK),
        from(2 * BLOCK),
        from(end).by_hand("at 495 end, then at 495"),
        from(end + 1).by_hand("at 496 end, then at 496"),
        from(usize::MAX).by_hand("at 18446744073709551615 end, then at 18446744073709551615"),
        case("blocks of different lengths", Steps(unlike, 0)),
    ]
}

fn refusals() -> Vec<Case> {
    let cut = |end: usize| {
        case(
            format!("cut to {end} bytes"),
            Steps(three()[..end].to_vec(), 0),
        )
    };
    vec![
        case(
            "display 64 in the second block",
            Steps(second_edited(&[64]), 0),
        ),
        case(
            "display C0 00 in the second block",
            Steps(second_edited(&[0xC0, 0]), 0),
        ),
        case(
            "display 64 in the second block, from its place",
            Steps(second_edited(&[64]), BLOCK),
        )
        .by_hand("at 165 refused 5 0, then at 165"),
        case(
            "the third block, behind a bad one",
            Steps(second_edited(&[64]), 2 * BLOCK),
        ),
        cut(1).by_hand("at 0 refused 3 0, then at 0"),
        cut(2 * BLOCK - 1),
        cut(2 * BLOCK + 33),
        case("from a place inside a block", Steps(three(), 133)),
        case(
            "bytes after the chain that are no block",
            Steps([three(), vec![9; 33]].concat(), 2 * BLOCK),
        ),
    ]
}

pub fn sections() -> Vec<Section> {
    let section = |title, cases| Section { title, cases };
    vec![
        section("Walks to the chain's end", ended()),
        section(
            "Walks that meet a refusal, after which they stay",
            refusals(),
        ),
    ]
}
