//! Chains by chance: one that is held and one that is delivered, most of them with a fault.
use super::Chance;
use crate::block::Block;
use crate::chain::LONGEST;
use crate::genesis::Genesis;
use crate::number::LARGEST;
use crate::order::{Order, Release, Releases, Slot};
use crate::samples::{self, Case, FILLER};
use crate::sha256;

impl Chance {
    /// The arguments of a call on chains.
    pub fn exchange(&mut self) -> Case {
        let table = self.small_table();
        let theirs = self.blocks(table.releases);
        let ours = match self.below(2) {
            0 => theirs[..self.below(theirs.len() + 1)].to_vec(),
            _ => self.blocks(table.releases),
        };
        let now = self.clock(&ours, &theirs);
        let bytes = table.bytes();
        let [mut held, mut delivered] = [ours, theirs].map(|blocks| self.linked(&bytes, &blocks));
        let room = held.len().max(delivered.len());
        let rooms = [room, room, room.saturating_sub(1), room + 30, held.len()];
        let held_length = match self.below(20) {
            0 => self.below(room + 3),
            1 => usize::MAX - self.below(3),
            _ => held.len(),
        };
        held.resize(self.of(&rooms), FILLER);
        if self.once_in(200) {
            delivered.resize(LONGEST + self.below(2), 0);
        }
        Case {
            genesis: self.faulty_once_in(25, bytes),
            now,
            held,
            held_length,
            delivered,
            verdicts: self.verdicts(),
            ..Case::good()
        }
    }

    /// A table that is good, with a few releases of every size.
    fn small_table(&mut self) -> Genesis {
        let (n, t, u) = self.of(&[
            (1, 0, 1),
            (4, 1, 3),
            (6, 1, 5),
            (7, 2, 7),
            (11, 2, 64),
            (31, 6, 9),
        ]);
        let mut table = samples::genesis(n, t, u);
        for display in [0, 1, 63] {
            table.releases[display] = self.release();
        }
        table
    }

    /// Blocks that may follow one another from these releases on, but for a stamp or an order now and then.
    fn blocks(&mut self, mut releases: Releases) -> Vec<Block> {
        let step = self.of(&[1, 2, 40]);
        let mut slot = self.of(&[0, 0, 0, 60, 125, 249]);
        let mut blocks = Vec::new();
        for _ in 0..self.below(6) {
            slot += match self.below(30) {
                0 => 0,
                _ => 1 + self.below(step) as u32,
            };
            let orders = self.of(&[0, 1, 1, 2, 8]);
            let orders = (0..orders).map(|_| self.order_at(&mut releases)).collect();
            blocks.push(Block {
                orders,
                slot: Slot(slot),
                ..self.block()
            });
        }
        blocks
    }

    /// An order at these releases, and what it puts there.
    pub fn order_at(&mut self, releases: &mut Releases) -> Order {
        let display = self.of(&[0, 1, 2, 3, 63]);
        let release = &mut releases[display as usize];
        let new = self.release_above(*release);
        let mut order = samples::order(display, *release, new);
        *release = order.new;
        match self.below(250) {
            0 => order.expected ^= 1,
            1 => order.new = order.expected,
            2 => order.display ^= 1,
            3 => order.expected ^= 1 << 32,
            4 => order.new = self.above(),
            _ => (),
        }
        order
    }

    /// A release a little above another, or now and then above 32 bits, and never above the largest.
    fn release_above(&mut self, release: Release) -> Release {
        let more = match self.below(20) {
            0 => 1 << 32,
            _ => 1 + self.below(200) as Release,
        };
        (release + more).min(LARGEST)
    }

    /// A clock reading near the last stamps.
    fn clock(&mut self, ours: &[Block], theirs: &[Block]) -> Slot {
        let last = |blocks: &[Block]| blocks.last().map_or(0, |block| block.slot.0);
        let later = last(ours).max(last(theirs));
        let near = [last(ours), last(theirs), later + 5, 256];
        Slot(match self.below(16) {
            0 => self.small(),
            1 => self.within(1, 256),
            2..=5 => self.of(&near).clamp(1, 256),
            _ => (later + 1).min(256),
        })
    }

    /// The blocks end to end, each with its link, but for a fault before the next is linked or at the end.
    fn linked(&mut self, genesis: &[u8], blocks: &[Block]) -> Vec<u8> {
        let mut chain = Vec::new();
        let mut before = genesis.to_vec();
        for block in blocks {
            let digested = match self.below(60) {
                0 => &before[..before.len().saturating_sub(64)],
                _ => &before,
            };
            let link = sha256::digest(digested).unwrap();
            let block = Block {
                link,
                ..block.clone()
            };
            before = self.faulty_once_in(40, block.bytes());
            chain.extend(&before);
        }
        self.faulty_once_in(12, chain)
    }

    /// Bytes with a fault one time in `bound`.
    fn faulty_once_in(&mut self, bound: usize, bytes: Vec<u8>) -> Vec<u8> {
        if self.once_in(bound) {
            return self.faulty(bytes);
        }
        bytes
    }

    /// Verdicts, most of them good and enough.
    fn verdicts(&mut self) -> Vec<u8> {
        let mut verdicts = vec![3; 6];
        match self.below(12) {
            0 => verdicts.truncate(self.below(6)),
            1 => verdicts[self.below(6)] = self.of(&[0, 1, 2, 4, 255]),
            _ => (),
        }
        verdicts
    }
}
