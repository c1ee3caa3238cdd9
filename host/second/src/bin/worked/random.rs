//! Cases made by chance from a seed: good tables, blocks and chains, most of them with a fault or two. For comparing the program with the second
//! implementation beyond the stored cases.
use second::chance::Chance;
use second::samples::FILLER;

use crate::adoptions::Adopt;
use crate::blocks::{Body, Read};
use crate::case::{boxed_case, Case, Op, Section};
use crate::chains::Check;
use crate::choices::Choose;
use crate::held::Held;
use crate::issues::{Issuing, CALLS};
use crate::orders::{At, Take, Valid};
use crate::pools::{Add, Drop};
use crate::tables::{Depth, Key, Table, Turn};
use crate::walks::Steps;
use crate::writes::{Front, Length, Parts, SlotText, Write};

/// How many cases a seed gives.
const CASES: usize = 400;

fn parts(chance: &mut Chance) -> Parts {
    let mut block = chance.block();
    block.orders.truncate(8);
    let count = match chance.below(4) {
        0 => chance.within(0, 8).min(300),
        _ => block.orders.len() as u32,
    };
    Parts { count, block }
}

fn write(chance: &mut Chance) -> Write {
    let parts = parts(chance);
    let length = parts.block.bytes().len() + chance.below(40);
    let length = chance.of(&[length, length, length.saturating_sub(30), 98, 0]);
    let places = [0, chance.below(20), chance.place(length)];
    let at = chance.of(&places);
    Write {
        buffer: vec![FILLER; length],
        at,
        parts,
    }
}

fn pooling(chance: &mut Chance) -> Box<dyn Op> {
    let given = chance.issuing();
    match chance.below(2) {
        0 => Box::new(Drop(given)),
        _ => Box::new(Add(given)),
    }
}

fn op(chance: &mut Chance) -> Box<dyn Op> {
    let table = chance.table().bytes();
    let table = chance.faulty(table);
    let block = chance.block().bytes();
    let block = chance.faulty(block);
    let at = chance.place(block.len());
    let order = chance.order();
    let release = chance.of(&[order.expected, order.expected, order.new]);
    match chance.below(20) {
        0 => Box::new(Valid(At { release, order })),
        1 => Box::new(Take(At { release, order })),
        2 => Box::new(Table(table)),
        3 => Box::new(Turn(table, chance.small().max(1))),
        4 => Box::new(Depth(table)),
        5 => Box::new(Key(table, chance.within(0, 40))),
        6 => Box::new(Read(block, at)),
        7 => Box::new(Body(Read(block, at))),
        8 => Box::new(write(chance)),
        9 => Box::new(Front(write(chance))),
        10 => match chance.below(2) {
            0 => Box::new(Length(parts(chance))),
            _ => Box::new(SlotText(
                chance.within(1, 256),
                vec![FILLER; chance.below(9)],
            )),
        },
        11 => {
            let chain = chance.chain();
            let chain = chance.faulty(chain);
            let at = chance.place(chain.len());
            Box::new(Steps(chain, at))
        }
        12 | 13 => Box::new(Check(chance.exchange())),
        14 => Box::new(Held(chance.exchange())),
        15 => Box::new(Choose(chance.exchange())),
        16 => pooling(chance),
        17 => Box::new(Issuing(chance.of(&CALLS), chance.issuing())),
        _ => Box::new(Adopt(chance.exchange())),
    }
}

pub fn sections(seed: u64) -> Vec<Section> {
    let mut chance = Chance::of_seed(seed);
    let cases: Vec<Case> = (1..=CASES)
        .map(|place| boxed_case(place.to_string(), op(&mut chance)))
        .collect();
    vec![Section {
        title: "Cases made by chance",
        cases,
    }]
}
