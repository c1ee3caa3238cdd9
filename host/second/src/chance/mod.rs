//! A generator of chance, and the tables, blocks and faults that cases by chance are made of.
mod exchanges;
mod manifests;
mod pools;

use crate::block::Block;
use crate::genesis::Genesis;
use crate::number::{self, LARGEST};
use crate::order::{Order, Release, Slot};
use crate::samples;

/// Numbers near the edges of the ranges and of the written lengths, of 32 bits and of the largest number.
const EDGES: [u64; 27] = [
    0,
    1,
    2,
    8,
    9,
    31,
    32,
    63,
    64,
    65,
    127,
    128,
    255,
    256,
    257,
    16_383,
    16_384,
    65_537,
    1 << 28,
    (1 << 32) - 1,
    1 << 32,
    (1 << 32) + 6,
    LARGEST - 1,
    LARGEST,
    LARGEST + 1,
    LARGEST + 7,
    u64::MAX,
];

/// A generator of chance (xorshift), the same numbers for the same seed.
pub struct Chance(u64);

impl Chance {
    pub fn of_seed(seed: u64) -> Chance {
        Chance(seed.wrapping_mul(0x9E37_79B9_7F4A_7C15) | 1)
    }

    fn next(&mut self) -> u64 {
        self.0 ^= self.0 << 13;
        self.0 ^= self.0 >> 7;
        self.0 ^= self.0 << 17;
        self.0
    }

    pub fn below(&mut self, bound: usize) -> usize {
        (self.next() >> 16) as usize % bound
    }

    pub fn of<T: Copy>(&mut self, choices: &[T]) -> T {
        choices[self.below(choices.len())]
    }

    /// One time in `bound`.
    pub fn once_in(&mut self, bound: usize) -> bool {
        self.below(bound) == 0
    }

    /// A number of up to 64 bits.
    pub fn number(&mut self) -> u64 {
        match self.below(9) {
            0 => self.next(),
            1 | 2 => self.next() & LARGEST,
            _ => self.of(&EDGES),
        }
    }

    /// The lowest 32 bits of such a number.
    pub fn small(&mut self) -> u32 {
        let [a, b, c, d, ..] = self.number().to_le_bytes();
        u32::from_le_bytes([a, b, c, d])
    }

    /// A release that can be written.
    pub fn release(&mut self) -> Release {
        self.number() & LARGEST
    }

    /// A release that can be written, but for one time in thirty.
    fn any_release(&mut self) -> Release {
        match self.below(30) {
            0 => self.above(),
            _ => self.release(),
        }
    }

    /// A release that is above the largest.
    pub fn above(&mut self) -> Release {
        self.number().saturating_add(LARGEST + 1)
    }

    /// A number that is in its range, but for one time in sixty.
    pub fn within(&mut self, least: u32, most: u32) -> u32 {
        if self.once_in(60) {
            return self.small();
        }
        least + self.below((most - least + 1) as usize) as u32
    }

    pub fn array<const N: usize>(&mut self) -> [u8; N] {
        let byte = self.next() as u8;
        if self.once_in(2) {
            return [byte; N];
        }
        std::array::from_fn(|_| self.next() as u8)
    }

    pub fn order(&mut self) -> Order {
        samples::order(self.within(0, 63), self.any_release(), self.any_release())
    }

    pub fn block(&mut self) -> Block {
        let orders = self.within(0, 8).min(300);
        Block {
            link: self.array(),
            orders: (0..orders).map(|_| self.order()).collect(),
            slot: Slot(self.within(1, 256)),
            slot_signature: self.array(),
            block_signature: self.array(),
        }
    }

    pub fn table(&mut self) -> Genesis {
        let t = self.within(0, 10);
        let n = self
            .within(1, 31)
            .max(3 * t.min(10) + u32::from(!self.once_in(9)));
        Genesis {
            n,
            t,
            u: self.within(1, 64),
            releases: std::array::from_fn(|_| if self.once_in(4) { self.release() } else { 0 }),
            keys: (0..n.min(64)).map(|_| self.array()).collect(),
        }
    }

    /// Bytes with a fault, or as they were.
    pub fn faulty(&mut self, mut bytes: Vec<u8>) -> Vec<u8> {
        if bytes.is_empty() || self.once_in(3) {
            return bytes;
        }
        let place = match self.below(2) {
            0 => self.below(bytes.len()),
            _ => self.below(bytes.len().min(40)),
        };
        match self.below(7) {
            0 => bytes.truncate(place),
            1 => bytes[place] = self.next() as u8,
            2 => bytes.insert(place, self.next() as u8),
            3 => bytes.extend(self.array::<5>()),
            4 => {
                bytes[place] |= 0x80;
                bytes.insert(place + 1, 0);
            }
            5 => {
                bytes.splice(place..=place, number::bytes(self.number()));
            }
            _ => {
                bytes.splice(place..=place, self.array::<5>().map(|byte| byte | 0x80));
            }
        }
        bytes
    }

    /// A place in so many bytes, or near their ends.
    pub fn place(&mut self, length: usize) -> usize {
        match self.below(6) {
            0 => self.below(length + 3),
            1 => usize::MAX - self.below(300),
            _ => 0,
        }
    }

    /// Blocks end to end, with no care for links, stamps and orders.
    pub fn chain(&mut self) -> Vec<u8> {
        let blocks = self.below(4);
        (0..blocks).flat_map(|_| self.block().bytes()).collect()
    }
}
