//! What the faulty controllers of a run do: one mind that sees every chain at once and signs for each of them, but for nobody else.
use std::rc::Rc;

use super::station::Station;
use second::block::Block;
use second::chain::{self, Standing, LONGEST};
use second::chance::Chance;
use second::genesis::Opening;
use second::order::Slot;
use second::{samples, walk};

pub type Chain = Rc<[u8]>;

/// A chain on its way to a correct controller, by its place among them.
pub type Letter = (usize, Chain);

pub struct Faulty {
    /// The chain of no blocks, and those that correct controllers have issued, in their order.
    seen: Vec<Chain>,
    /// Chains of their own, sent to some or to nobody yet.
    hidden: Vec<Chain>,
}

impl Faulty {
    pub fn new() -> Faulty {
        Faulty {
            seen: vec![Rc::from([])],
            hidden: Vec::new(),
        }
    }

    /// Sees a chain that a correct controller has issued.
    pub fn see(&mut self, chain: &Chain) {
        self.seen.push(chain.clone());
    }

    /// What is sent in a slot, to some of so many correct controllers.
    pub fn act(
        &mut self,
        station: &Station,
        now: Slot,
        correct: usize,
        chance: &mut Chance,
    ) -> Vec<Letter> {
        let mut letters = Vec::new();
        if station.is_faulty_turn(now) {
            letters.extend(self.take_turn(station, now, correct, chance));
        }
        if chance.once_in(2) {
            let chain = self.nuisance(station, now, chance);
            letters.extend(some_of(correct, chance).map(|to| (to, chain.clone())));
        }
        letters
    }

    fn take_turn(
        &mut self,
        station: &Station,
        now: Slot,
        correct: usize,
        chance: &mut Chance,
    ) -> Vec<Letter> {
        let base = self.base(chance);
        let [first, other] =
            [40, 41].map(|display| extended(station, &base, now, Content::Order(display)));
        self.hidden.push(first.clone());
        match chance.below(5) {
            // equivocates
            0 | 1 => {
                self.hidden.push(other.clone());
                let split = |to: usize| (to, [&first, &other][to % 2].clone());
                (0..correct).map(split).collect()
            }
            // withholds
            2 => Vec::new(),
            // issues as it should, but only to some
            3 => some_of(correct, chance)
                .map(|to| (to, first.clone()))
                .collect(),
            // comes back with a stale list, stamped late
            _ => {
                let stale = extended(station, &self.stale(chance), now, Content::Order(42));
                (0..correct).map(|to| (to, stale.clone())).collect()
            }
        }
    }

    /// A chain to build on: the longest, or one of the last.
    fn base(&self, chance: &mut Chance) -> Chain {
        let known = [&self.seen[..], &self.hidden].concat();
        let longest = known
            .iter()
            .max_by_key(|chain| walk::blocks(chain).count())
            .unwrap();
        match chance.below(3) {
            0 => known[known.len() - 1 - chance.below(known.len().min(6))].clone(),
            _ => longest.clone(),
        }
    }

    /// A chain that was issued some time ago.
    fn stale(&self, chance: &mut Chance) -> Chain {
        self.seen[chance.below(self.seen.len())].clone()
    }

    /// A chain that was hidden, a stale one, one that is stamped ahead, or one that is not good at all.
    fn nuisance(&mut self, station: &Station, now: Slot, chance: &mut Chance) -> Chain {
        let stale = self.stale(chance);
        let is_ours = |slot: &Slot| station.is_faulty_turn(*slot);
        match chance.below(8) {
            0 | 1 if !self.hidden.is_empty() => {
                self.hidden.swap_remove(chance.below(self.hidden.len()))
            }
            2 => match (now.0 + 1..=256).map(Slot).find(is_ours) {
                Some(ahead) => extended(station, &stale, ahead, Content::Order(43)),
                None => stale,
            },
            3 | 4 => match (1..=now.0).rev().map(Slot).find(is_ours) {
                Some(last) => {
                    let bad = chance.of(&[Content::BadOrder, Content::BadLink]);
                    extended(station, &stale, last, bad)
                }
                None => stale,
            },
            5 => chance.faulty(stale.to_vec()).into(),
            6 => vec![3; LONGEST + chance.below(3)].into(),
            _ => stale,
        }
    }
}

/// So many of the correct controllers, by chance.
fn some_of(correct: usize, chance: &mut Chance) -> impl Iterator<Item = usize> {
    let share = chance.of(&[1, 2, 4]);
    let chosen: Vec<usize> = (0..correct).filter(|_| chance.once_in(share)).collect();
    chosen.into_iter()
}

/// What a faulty controller signs.
#[derive(Clone, Copy)]
enum Content {
    /// A valid order for this display, so that two such blocks differ.
    Order(u32),
    /// An order that is not valid.
    BadOrder,
    BadLink,
}

/// A chain and one more block at a slot, signed by the one whose turn it is. The chain alone if it ends at or after the slot.
fn extended(station: &Station, base: &[u8], slot: Slot, content: Content) -> Chain {
    let opening = Opening::new(&station.bytes, Slot(256)).unwrap();
    let standing = chain::summary(&opening, base, base.len()).unwrap().whole;
    if standing.last >= Some(slot) {
        return base.into();
    }
    let block = signed(station, &standing, slot, content);
    [base, &block.bytes()].concat().into()
}

fn signed(station: &Station, before: &Standing, slot: Slot, content: Content) -> Block {
    let turn = station.genesis.turn(slot);
    assert!(station.is_faulty(turn));
    let mut block = Block {
        link: before.link().unwrap(),
        orders: Vec::new(),
        slot,
        slot_signature: station.sign_slot(turn, slot),
        block_signature: [0; 64],
    };
    match content {
        Content::Order(display) => {
            let expected = before.releases[display as usize];
            block.orders = vec![samples::order(display, expected, expected + 1)];
        }
        Content::BadOrder => block.orders = vec![samples::order(0, 7, 7)],
        Content::BadLink => block.link[31] ^= 1,
    }
    let text = [b"block", &block.front_bytes()[..]].concat();
    block.block_signature = station.sign_block(turn, &text);
    block
}
