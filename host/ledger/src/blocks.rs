//! The blocks of a chain, one by one.
use core::iter::FusedIterator;

use crate::{raw, told, Block, Refusal};

/// The blocks of a chain, each with its bytes, to the end or to the first that can't be read, which is given as its refusal: 3, 4, 5.
pub fn blocks(chain: &[u8]) -> Blocks<'_> {
    Blocks { chain, at: 0 }
}

/// See [`blocks`].
#[derive(Debug, Clone)]
pub struct Blocks<'a> {
    chain: &'a [u8],
    at: usize,
}

impl<'a> Iterator for Blocks<'a> {
    type Item = Result<(Block, &'a [u8]), Refusal>;

    fn next(&mut self) -> Option<Self::Item> {
        let answer = raw::ledger_walk_step(self.chain, self.at);
        if answer.end {
            return None;
        }
        let begin = self.at;
        self.at = match answer.refusal {
            0 => answer.next,
            _ => self.chain.len(),
        };
        let bytes = self.chain.get(begin..self.at).unwrap_or(&[]);
        Some(told(answer.refusal, answer.place, (answer.block, bytes)))
    }
}

impl FusedIterator for Blocks<'_> {}

#[cfg(test)]
mod tests {
    use super::*;
    use crate::{write_block, BlockCount, Front, Kind, Orders, Slot};
    use std::vec::Vec;

    fn block(slot: u32) -> Block {
        Block {
            front: Front {
                link: [1; 32],
                orders: Orders::default(),
                slot: Slot(slot),
                slot_signature: [2; 64],
            },
            block_signature: [3; 64],
        }
    }

    /// Blocks of slots 1, 2 and 3, of 162 bytes each.
    fn chain() -> [u8; 486] {
        let mut chain = [0; 486];
        let mut at = 0;
        for slot in 1..=3 {
            at = write_block(&block(slot), at, &mut chain).unwrap();
        }
        assert_eq!(at, chain.len());
        chain
    }

    #[test]
    fn one_by_one_to_the_end() {
        let chain = chain();
        let read: Result<Vec<_>, Refusal> = blocks(&chain).collect();
        let expected: Vec<_> = (1..).map(block).zip(chain.chunks(162)).collect();
        assert_eq!(read, Ok(expected));
        assert_eq!(blocks(&[]).next(), None);
    }

    /// The refusal is given once, and nothing behind it.
    #[test]
    fn to_the_first_that_cannot_be_read() {
        let chain = chain();
        let mut steps = blocks(&chain[..485]).skip(2);
        let refused = Refusal {
            kind: Kind::Cut,
            place: BlockCount(0),
        };
        assert_eq!(steps.next(), Some(Err(refused)));
        assert_eq!((steps.next(), steps.next()), (None, None));
    }
}
