//! The walk over a chain, block by block (01, "Orders, blocks, chains").
use super::block::{self, Block};
use super::Refusal;

/// "A walk holds the chain it reads and the place it has reached."
#[derive(Debug, Clone, PartialEq, Eq)]
pub struct Walk<'a> {
    pub chain: &'a [u8],
    pub place: usize,
}

impl Walk<'_> {
    /// "Each step gives the next block, the end, or a refusal as for a single block, after which it stays where it is."
    pub fn step(&mut self) -> Result<Option<Block>, Refusal> {
        let next = step(self.chain, self.place)?;
        Ok(next.map(|(block, place)| {
            self.place = place;
            block
        }))
    }
}

/// The block at a place of a chain and the place after it, or the end. "A place at or past the chain's end gives the end."
pub fn step(chain: &[u8], place: usize) -> Result<Option<(Block, usize)>, Refusal> {
    match chain.get(place..) {
        None | Some([]) => Ok(None),
        Some(rest) => {
            let (block, length) = block::read(rest)?;
            Ok(Some((block, place + length)))
        }
    }
}

/// The blocks of a chain, each with its bytes, to the end or to the first that can't be read.
pub fn blocks(chain: &[u8]) -> impl Iterator<Item = (Block, &[u8])> {
    let mut place = 0;
    std::iter::from_fn(move || {
        let (block, end) = step(chain, place).ok()??;
        let bytes = &chain[place..end];
        place = end;
        Some((block, bytes))
    })
}

#[cfg(test)]
mod tests {
    use super::*;
    use crate::{refusal, samples};

    #[test]
    fn block_by_block_to_the_end() {
        let blocks = samples::blocks();
        let bytes: Vec<u8> = blocks.iter().flat_map(Block::bytes).collect();
        let mut walk = Walk {
            chain: &bytes,
            place: 0,
        };
        for (before, block) in blocks.into_iter().enumerate() {
            assert_eq!(walk.place, 165 * before);
            assert_eq!(walk.step(), Ok(Some(block)));
        }
        for _ in 0..2 {
            assert_eq!(walk.step(), Ok(None));
            assert_eq!(walk.place, bytes.len());
        }
    }

    #[test]
    fn the_blocks_that_can_be_read() {
        let parts: Vec<Vec<u8>> = samples::blocks().iter().map(Block::bytes).collect();
        let chain = parts.concat();
        for (end, count) in [(825, 5), (824, 4), (660, 4), (1, 0), (0, 0)] {
            let (read, bytes): (Vec<Block>, Vec<&[u8]>) = blocks(&chain[..end]).unzip();
            assert_eq!(read, samples::blocks()[..count]);
            assert_eq!(bytes, parts[..count]);
        }
    }

    #[test]
    fn from_a_place() {
        let blocks = samples::blocks();
        let bytes: Vec<u8> = blocks.iter().flat_map(Block::bytes).collect();
        assert_eq!(step(&bytes, 330), Ok(Some((blocks[2].clone(), 495))));
    }

    #[test]
    fn at_or_past_the_end() {
        let bytes = samples::blocks()[0].bytes();
        for place in [165, 166, usize::MAX] {
            let mut walk = Walk {
                chain: &bytes,
                place,
            };
            assert_eq!(walk.step(), Ok(None));
            assert_eq!(walk.place, place);
        }
        assert_eq!(step(&[], 0), Ok(None));
    }

    #[test]
    fn a_refusal_leaves_the_place() {
        let genesis = samples::table();
        for (fault, chain, refused) in samples::bad_chains(&genesis) {
            if refused.number > 5 {
                continue;
            }
            let place = 165 * (refused.place as usize - 1);
            let mut walk = Walk {
                chain: &chain,
                place,
            };
            for _ in 0..2 {
                assert_eq!(walk.step(), Err(refusal(refused.number)), "{fault}");
                assert_eq!(walk.place, place);
            }
        }
    }

    #[test]
    fn only_single_blocks_are_judged() {
        let genesis = samples::table();
        for (fault, chain, refused) in samples::bad_chains(&genesis) {
            let mut walk = Walk {
                chain: &chain,
                place: 0,
            };
            while refused.number > 5 && walk.place < chain.len() {
                assert!(matches!(walk.step(), Ok(Some(_))), "{fault}");
            }
        }
    }
}
