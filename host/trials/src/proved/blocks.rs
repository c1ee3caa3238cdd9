//! One block, the walk over a chain, and the slot text.
use super::across;
use second::block::Block;
use second::order::Slot;
use second::Refusal;

/// The block at a place, and the place after it.
pub fn read_block(bytes: &[u8], at: usize) -> Result<(Block, usize), Refusal> {
    let read = ledger::read_block(bytes, at).map_err(across::refusal);
    read.map(|(block, next)| (across::block(&block), next))
}

/// Writes a block at a place of a buffer and gives the place after it.
pub fn write_block(block: &Block, buffer: &mut [u8], at: usize) -> Result<usize, Refusal> {
    ledger::write_block(&across::lent_block(block), at, buffer).map_err(across::refusal)
}

/// Writes the text of a slot that a host signs and gives its length.
pub fn slot_text(slot: Slot, buffer: &mut [u8]) -> Result<usize, Refusal> {
    let text = ledger::slot_text(across::lent_slot(slot), buffer).map_err(across::refusal);
    text.map(<[u8]>::len)
}

/// The block at a place of a chain and the place after it, or the end.
pub fn walk_step(chain: &[u8], at: usize) -> Result<Option<(Block, usize)>, Refusal> {
    let rest = chain.get(at..).unwrap_or(&[]);
    match ledger::blocks(rest).next() {
        None => Ok(None),
        Some(Err(refused)) => Err(across::refusal(refused)),
        Some(Ok((block, bytes))) => Ok(Some((across::block(&block), at + bytes.len()))),
    }
}

#[cfg(test)]
mod tests {
    use super::*;
    use crate::both;
    use crate::rounds::rounds;
    use ledger::raw;
    use second::chance::Chance;
    use second::number::LARGEST;
    use second::refusal;
    use second::samples::{self, order, FILLER};

    /// What stands beside a refusal.
    fn no_block() -> ledger::Block {
        across::lent_block(&Block {
            slot_signature: [0; 64],
            block_signature: [0; 64],
            ..samples::block(0, &[])
        })
    }

    /// Reads at a place and steps from it with both, and sees what the proved one leaves beside a refusal, after the end, and behind the orders.
    fn reads_alike(bytes: &[u8], at: usize) {
        let both = both::read_block(bytes, at);
        let _ = both::walk_step(bytes, at);
        let read = raw::ledger_read_block(bytes, at);
        let step = raw::ledger_walk_step(bytes, at);
        match both {
            Ok((block, _)) => {
                assert_eq!(read.block, across::lent_block(&block));
                assert_eq!(step.block, across::lent_block(&block));
            }
            Err(_) => {
                assert_eq!((read.next, read.block), (0, no_block()));
                assert_eq!((step.next, step.block), (at, no_block()));
            }
        }
    }

    #[test]
    fn blocks_are_read_alike() {
        for (_, chain, _) in samples::bad_chains(&samples::table()) {
            for place in 0..6 {
                reads_alike(&chain, place * samples::BLOCK);
            }
        }
        let mut chance = Chance::of_seed(4);
        for _ in 0..rounds(4_000) {
            let block = chance.block().bytes();
            let bytes = chance.faulty(block);
            reads_alike(&bytes, chance.place(bytes.len()));
            let chain = chance.chain();
            reads_alike(&chain, 0);
        }
    }

    fn writes_alike(block: &Block, length: usize, at: usize) {
        let _ = both::write_block(block, &mut vec![FILLER; length], at);
    }

    #[test]
    fn blocks_are_written_alike() {
        let mut chance = Chance::of_seed(5);
        for _ in 0..rounds(4_000) {
            let block = chance.block();
            let needed = block.bytes().len();
            for at in [0, 5, needed, usize::MAX] {
                writes_alike(&block, needed + chance.below(9), at);
            }
            writes_alike(&block, needed - 1, 0);
        }
    }

    /// 5 within the count, for either release, before 15; behind the count nothing is looked at.
    #[test]
    fn releases_above_the_largest() {
        let good = order(2, 40, 41);
        for above in [LARGEST + 1, 1 << 36, 1 << 63, u64::MAX] {
            for bad in [order(2, above, 41), order(2, 40, above)] {
                for orders in [&[bad][..], &[good, good, bad]] {
                    let block = samples::block(9, orders);
                    for length in [0, 300] {
                        let written = both::write_block(&block, &mut vec![FILLER; length], 0);
                        assert_eq!(written, Err(refusal(5)));
                    }
                }
                let mut behind = across::lent_block(&samples::block(9, &[good]));
                behind.front.orders.list[1..].fill(across::lent_order(bad));
                let mut buffer = [FILLER; 165];
                assert_eq!(ledger::write_block(&behind, 0, &mut buffer), Ok(165));
                assert_eq!(buffer[..], samples::block(9, &[good]).bytes());
            }
        }
    }

    /// Each release that five bytes hold next to a power of 2 comes back as it was.
    #[test]
    fn releases_of_up_to_35_bits() {
        for shift in 0..=35 {
            let release = (1 << shift) - 1;
            let block = samples::block(9, &[order(63, release, LARGEST - release); 8]);
            let bytes = block.bytes();
            assert_eq!(
                both::read_block(&bytes, 0),
                Ok((block.clone(), bytes.len()))
            );
            let mut buffer = vec![FILLER; bytes.len()];
            assert_eq!(both::write_block(&block, &mut buffer, 0), Ok(bytes.len()));
            assert_eq!(buffer, bytes);
        }
    }

    #[test]
    fn slot_texts_are_written_alike() {
        for slot in (0..300).chain([65_537, u32::MAX]).map(Slot) {
            for length in 0..9 {
                let _ = both::slot_text(slot, &mut vec![FILLER; length]);
            }
        }
    }
}
