//! Chains: checking a delivered one, and the summary of a held one (01, "The calls" and "Refusal numbers").
use super::block::Block;
use super::genesis::Opening;
use super::order::{apply, BlockCount, Releases, Slot};
use super::sha256;
use super::walk;
use super::{refusal, Refusal};

/// "At most 64,256 bytes."
pub const LONGEST: usize = 64_256;

/// What the blocks of a chain up to some block have come to.
#[derive(Debug, Clone, PartialEq, Eq)]
pub struct Standing<'a> {
    pub count: BlockCount,
    /// How many bytes the blocks take.
    pub length: usize,
    /// The last block's stamp.
    pub last: Option<Slot>,
    /// The last block, or the genesis bytes.
    pub before: &'a [u8],
    pub releases: Releases,
}

impl<'a> Standing<'a> {
    /// The chain of no blocks.
    fn start(opening: &Opening<'a>) -> Standing<'a> {
        Standing {
            count: BlockCount(0),
            length: 0,
            last: None,
            before: opening.bytes,
            releases: opening.genesis.releases,
        }
    }

    /// The link that the next block carries: "SHA-256 of the whole block before it, or of the genesis bytes for the first."
    pub fn link(&self) -> Result<[u8; 32], Refusal> {
        sha256::digest(self.before)
    }

    /// The standing after the next block, if there is one. A refusal's place is that block, counted from 1.
    fn next(&self, now: Slot, chain: &'a [u8], way: Way) -> Result<Option<Standing<'a>>, Refusal> {
        self.step(now, chain, way).map_err(|fault| Refusal {
            place: self.count.0 + 1,
            ..fault
        })
    }

    /// As `next`, with no place yet.
    fn step(&self, now: Slot, chain: &'a [u8], way: Way) -> Result<Option<Standing<'a>>, Refusal> {
        let Some((block, end)) = walk::step(chain, self.length)? else {
            return Ok(None);
        };
        Ok(Some(Standing {
            releases: self.judge(&block, now, way)?,
            count: BlockCount(self.count.0 + 1),
            length: end,
            last: Some(block.slot),
            before: &chain[self.length..end],
        }))
    }

    /// The releases after a block that was read: 6, what its way asks, 9, 10.
    fn judge(&self, block: &Block, now: Slot, way: Way) -> Result<Releases, Refusal> {
        if Some(block.slot) <= self.last {
            return Err(refusal(6));
        }
        way.admit(self.count, block.slot, now)?;
        if block.link != self.link()? {
            return Err(refusal(9));
        }
        let mut releases = self.releases;
        if !block.orders.iter().all(|order| apply(order, &mut releases)) {
            return Err(refusal(10));
        }
        Ok(releases)
    }
}

/// How a chain comes to a call.
#[derive(Clone, Copy)]
enum Way<'a> {
    /// From outside, with one verdict byte for each block.
    Delivered { verdicts: &'a [u8] },
    /// "The held chain needs no verdicts, and its last stamp may equal now."
    Held,
}

impl Way<'_> {
    /// A delivered block: 7, then 8. A held one: 17 if its stamp is above now.
    fn admit(self, before: BlockCount, stamp: Slot, now: Slot) -> Result<(), Refusal> {
        match self {
            Way::Delivered { .. } if stamp >= now => Err(refusal(7)),
            Way::Delivered { verdicts } if verdicts.get(before.0 as usize) != Some(&3) => {
                Err(refusal(8))
            }
            Way::Held if stamp > now => Err(refusal(17)),
            _ => Ok(()),
        }
    }
}

/// A good chain: what all its blocks have come to, and what the settled ones have.
#[derive(Debug, Clone, PartialEq, Eq)]
pub struct Summary<'a> {
    pub whole: Standing<'a>,
    pub settled: Standing<'a>,
}

/// Judges the blocks one by one; the first that fails decides.
fn judge<'a>(opening: &Opening<'a>, chain: &'a [u8], way: Way) -> Result<Summary<'a>, Refusal> {
    let settles = |stamp| opening.genesis.settled(stamp, opening.now);
    let mut whole = Standing::start(opening);
    let mut settled = whole.clone();
    while let Some(next) = whole.next(opening.now, chain, way)? {
        if next.last.is_some_and(settles) {
            settled = next.clone();
        }
        whole = next;
    }
    Ok(Summary { whole, settled })
}

/// Judges a delivered chain: 16, then its blocks.
pub fn delivered<'a>(
    opening: &Opening<'a>,
    delivered: &'a [u8],
    verdicts: &[u8],
) -> Result<Standing<'a>, Refusal> {
    if delivered.len() > LONGEST {
        return Err(refusal(16));
    }
    let summary = judge(opening, delivered, Way::Delivered { verdicts })?;
    Ok(summary.whole)
}

/// The summary of the held chain at the front of a buffer, or 17: place 0 if it is "longer than its buffer or than 64,256".
pub fn summary<'a>(
    opening: &Opening<'a>,
    buffer: &'a [u8],
    length: usize,
) -> Result<Summary<'a>, Refusal> {
    match buffer.get(..length) {
        Some(held) if length <= LONGEST => {
            judge(opening, held, Way::Held).map_err(|fault| Refusal {
                number: 17,
                ..fault
            })
        }
        _ => Err(refusal(17)),
    }
}

/// Check a chain: 1, 2, 16, then its blocks. "The answer is the block count and the releases after the last block."
pub fn check(
    genesis: &[u8],
    now: Slot,
    chain: &[u8],
    verdicts: &[u8],
) -> Result<(BlockCount, Releases), Refusal> {
    let opening = Opening::new(genesis, now)?;
    let standing = delivered(&opening, chain, verdicts)?;
    Ok((standing.count, standing.releases))
}

#[cfg(test)]
mod tests {
    use super::*;
    use crate::number::LARGEST;
    use crate::order::Order;
    use crate::samples::{self, at, order, BLOCK, NOW};

    fn starting_releases() -> Releases {
        samples::genesis(6, 1, 5).releases
    }

    /// Checks a chain at slot 20 with good verdicts.
    fn check_good(chain: &[u8]) -> Result<(BlockCount, Releases), Refusal> {
        check(&samples::table(), NOW, chain, &[3; 300])
    }

    #[test]
    fn the_chain_of_no_blocks() {
        for now in [1, 20, 256] {
            let answer = check(&samples::table(), Slot(now), &[], &[]);
            assert_eq!(answer, Ok((BlockCount(0), starting_releases())));
        }
    }

    #[test]
    fn every_prefix_of_a_good_chain() {
        let chain = samples::good_chain(&samples::table());
        for blocks in 0..=5 {
            let (count, releases) = check_good(&chain[..BLOCK * blocks]).unwrap();
            let mut expected = starting_releases();
            expected[2] += blocks as u64;
            assert_eq!(count, BlockCount(blocks as u32));
            assert_eq!(releases, expected);
        }
    }

    #[test]
    fn bad_chains_at_their_places() {
        for (fault, chain, refused) in samples::bad_chains(&samples::table()) {
            assert_eq!(check_good(&chain), Err(refused), "{fault}");
        }
    }

    #[test]
    fn bad_openings() {
        samples::refuses_bad_openings(|case| {
            check(&case.genesis, case.now, &case.delivered, &case.verdicts).err()
        });
    }

    #[test]
    fn the_earliest_of_several_faults() {
        for stamp in [6, 7] {
            let mut faults = samples::adopting_faults(stamp);
            faults.retain(|(refused, _)| ![17, 11, 15].contains(&refused.number));
            samples::refuses_in_order(&faults, |case| {
                check(&case.genesis, case.now, &case.delivered, &case.verdicts).err()
            });
        }
    }

    #[test]
    fn the_earlier_of_two_bad_blocks() {
        let genesis = samples::table();
        for edit in samples::EDITS.iter().filter(|edit| edit.number != 6) {
            let mut chain = samples::edited_chain(&genesis, &samples::blocks(), 4, edit.change);
            assert_eq!(check_good(&chain), Err(at(edit.number, 4)), "{}", edit.name);
            chain[2 * BLOCK + 35] = 0;
            assert_eq!(check_good(&chain), Err(at(10, 3)), "{}", edit.name);
        }
    }

    #[test]
    fn stamps_rise_strictly() {
        let genesis = samples::table();
        for place in 2..=5 {
            for below in [0, 1] {
                let mut blocks = samples::blocks();
                blocks[place - 1].slot = Slot((blocks[place - 2].slot.0 - below).max(1));
                let chain = samples::chain(&genesis, &blocks);
                assert_eq!(check_good(&chain), Err(at(6, place)));
            }
        }
    }

    /// "Letting a block stamped now or later in from outside."
    #[test]
    fn stamps_not_below_now() {
        let genesis = samples::table();
        let chain = samples::good_chain(&genesis);
        for (place, stamp) in (1..).zip(samples::STAMPS) {
            let refused = Err(at(7, place));
            assert_eq!(check(&genesis, Slot(stamp), &chain, &[3; 5]), refused);
        }
        assert!(check(&genesis, Slot(10), &chain, &[3; 5]).is_ok());
    }

    #[test]
    fn every_verdict_but_3_is_bad() {
        let genesis = samples::table();
        let chain = samples::good_chain(&genesis);
        for place in [1, 3, 5] {
            for verdict in (0..=255).filter(|verdict| *verdict != 3) {
                let mut verdicts = samples::verdicts(5);
                verdicts[place - 1] = verdict;
                let refused = Err(at(8, place));
                assert_eq!(check(&genesis, NOW, &chain, &verdicts), refused);
            }
        }
    }

    #[test]
    fn missing_and_spare_verdicts() {
        let genesis = samples::table();
        let chain = samples::good_chain(&genesis);
        for given in 0..5 {
            let verdicts = samples::verdicts(given);
            let refused = Err(at(8, given + 1));
            assert_eq!(check(&genesis, NOW, &chain, &verdicts), refused);
        }
        let answer = check(&genesis, NOW, &chain, &[3, 3, 3, 3, 3, 0, 255]);
        assert_eq!(answer, check_good(&chain));
        assert!(answer.is_ok());
    }

    /// "Digesting a block without its signatures for the link."
    #[test]
    fn the_link_digests_the_whole_block() {
        let genesis = samples::table();
        let chain = samples::good_chain(&genesis);
        for place in [1, 3, 4] {
            for signature in [37, 101, BLOCK - 1] {
                let mut changed = chain.clone();
                changed[BLOCK * (place - 1) + signature] ^= 1;
                assert_eq!(check_good(&changed), Err(at(9, place + 1)));
            }
        }
        for left_out in [64, 128] {
            let mut wrong = chain.clone();
            let link = sha256::digest(&chain[..BLOCK - left_out]).unwrap();
            wrong[BLOCK..BLOCK + 32].copy_from_slice(&link);
            assert_eq!(check_good(&wrong), Err(at(9, 2)));
        }
    }

    #[test]
    fn the_first_link_digests_the_genesis() {
        let chain = samples::good_chain(&samples::table());
        let mut other = samples::genesis(6, 1, 5);
        other.keys[5][31] ^= 1;
        let answer = check(&other.bytes(), NOW, &chain, &[3; 5]);
        assert_eq!(answer, Err(at(9, 1)));
    }

    /// A chain of one block with these orders.
    fn one_block(orders: &[Order]) -> Result<(BlockCount, Releases), Refusal> {
        let blocks = [samples::block(1, orders)];
        check_good(&samples::chain(&samples::table(), &blocks))
    }

    #[test]
    fn orders_of_one_block_are_judged_one_after_the_other() {
        let mut expected = starting_releases();
        (expected[2], expected[63]) = (50, LARGEST);
        let orders = [order(2, 40, 41), order(63, 0, LARGEST), order(2, 41, 50)];
        assert_eq!(one_block(&orders), Ok((BlockCount(1), expected)));
        for bad in [
            [order(2, 41, 42), order(2, 40, 41)],
            [order(2, 40, 41), order(2, 40, 41)],
            [order(2, 40, 41), order(2, 41, 41)],
            [order(2, 39, 41), order(2, 41, 42)],
        ] {
            assert_eq!(one_block(&bad), Err(at(10, 1)));
        }
    }

    /// Orders over 2^32 and to the largest; what only the lowest 32 bits would allow is not valid.
    #[test]
    fn releases_of_35_bits() {
        let over = [
            order(2, 40, (1 << 32) - 1),
            order(2, (1 << 32) - 1, 1 << 32),
        ];
        let mut expected = starting_releases();
        expected[2] = 1 << 32;
        assert_eq!(one_block(&over), Ok((BlockCount(1), expected)));
        expected[2] = LARGEST;
        let largest = [over[0], over[1], order(2, 1 << 32, LARGEST)];
        assert_eq!(one_block(&largest), Ok((BlockCount(1), expected)));
        for bad in [
            order(2, 0, 41),
            order(2, 1 << 32, 7),
            order(2, 1 << 32, 1 << 32),
        ] {
            assert_eq!(one_block(&[over[0], over[1], bad]), Err(at(10, 1)));
        }
        let wraps = [order(2, (1 << 32) + 40, (1 << 32) + 41)];
        assert_eq!(one_block(&wraps), Err(at(10, 1)));
    }

    /// "Accepting 80 00 as zero: one block, two digests."
    #[test]
    fn zero_has_one_form() {
        let genesis = samples::table();
        let blocks = samples::empty_blocks(&[1, 2]);
        let chain = samples::edited_chain(&genesis, &blocks, 1, |bytes| {
            bytes.splice(32..33, [0x80, 0x00]);
        });
        assert_eq!(check_good(&chain), Err(at(4, 1)));
    }

    #[test]
    fn longest_delivered() {
        let genesis = samples::table();
        let too_long = vec![0; 64_257];
        assert_eq!(check(&genesis, NOW, &too_long, &[]), Err(refusal(16)));
        let zeros = &too_long[1..];
        assert_eq!(check(&genesis, NOW, zeros, &[]), Err(at(5, 1)));
        let mut long = samples::good_chain(&genesis);
        long.resize(64_256, 0);
        assert_eq!(check_good(&long), Err(at(5, 6)));
        long.push(0);
        assert_eq!(check_good(&long), Err(refusal(16)));
    }

    #[test]
    fn every_slot_a_block() {
        let (genesis, chain) = samples::longest_chain(255);
        let (count, releases) = check(&genesis, Slot(256), &chain, &[3; 255]).unwrap();
        let mut expected = [samples::LONG_START; 64];
        expected[..8].fill(LARGEST - 1);
        assert_eq!((count, releases), (BlockCount(255), expected));
        let refused = Err(at(8, 255));
        assert_eq!(check(&genesis, Slot(256), &chain, &[3; 254]), refused);
    }

    /// The count of a held chain in the samples' table.
    fn held_count(now: u32, buffer: &[u8], length: usize) -> Result<BlockCount, Refusal> {
        let genesis = samples::table();
        let opening = Opening::new(&genesis, Slot(now))?;
        Ok(summary(&opening, buffer, length)?.whole.count)
    }

    #[test]
    fn the_summary_of_a_held_chain() {
        let genesis = samples::table();
        let chain = samples::good_chain(&genesis);
        // stamps 1, 3, 4, 6, 9 and depth 4
        for (now, settled) in [(9, 3), (10, 3), (11, 4), (13, 4), (14, 5), (256, 5)] {
            let opening = Opening::new(&genesis, Slot(now)).unwrap();
            let summary = summary(&opening, &chain, chain.len()).unwrap();
            for (standing, blocks) in [(summary.whole, 5), (summary.settled, settled)] {
                let length = BLOCK * blocks;
                assert_eq!(standing.count, BlockCount(blocks as u32));
                assert_eq!(standing.length, length);
                assert_eq!(standing.last, Some(Slot(samples::STAMPS[blocks - 1])));
                assert_eq!(standing.before, &chain[length - BLOCK..length]);
                assert_eq!(standing.link(), sha256::digest(standing.before));
                assert_eq!(standing.releases[2], 40 + blocks as u64);
            }
        }
    }

    #[test]
    fn the_summary_of_no_blocks() {
        let genesis = samples::table();
        let opening = Opening::new(&genesis, Slot(1)).unwrap();
        let Summary { whole, settled } = summary(&opening, &[], 0).unwrap();
        for standing in [whole, settled] {
            assert_eq!(standing.count, BlockCount(0));
            assert_eq!((standing.length, standing.last), (0, None));
            assert_eq!(standing.before, genesis);
            assert_eq!(standing.releases, starting_releases());
        }
    }

    #[test]
    fn bytes_past_the_held_length_are_not_read() {
        let mut buffer = samples::good_chain(&samples::table());
        buffer[2 * BLOCK..].fill(0xFF);
        assert_eq!(held_count(20, &buffer, 2 * BLOCK), Ok(BlockCount(2)));
        assert_eq!(held_count(20, &buffer, 2 * BLOCK + 1), Err(at(17, 3)));
    }

    /// "A clock set back below a held stamp meets 17."
    #[test]
    fn held_stamps_up_to_now() {
        let chain = samples::good_chain(&samples::table());
        let held = |now| held_count(now, &chain, chain.len());
        for (now, place) in [(1, 2), (2, 2), (3, 3), (4, 4), (5, 4), (6, 5), (8, 5)] {
            assert_eq!(held(now), Err(at(17, place)));
        }
        assert_eq!(held(9), Ok(BlockCount(5)));
    }

    #[test]
    fn bad_held_chains_at_their_places() {
        samples::refuses_bad_held(|case| {
            let opening = Opening::new(&case.genesis, case.now).unwrap();
            summary(&opening, &case.held, case.held_length).err()
        });
    }

    #[test]
    fn the_longest_held_chain() {
        let (genesis, chain) = samples::longest_chain(256);
        assert_eq!(chain.len(), 64_129);
        let opening = Opening::new(&genesis, Slot(256)).unwrap();
        let Summary { whole, settled } = summary(&opening, &chain, chain.len()).unwrap();
        assert_eq!(whole.count, BlockCount(256));
        assert_eq!(settled.count, BlockCount(254));
        let mut more = chain;
        more.resize(LONGEST, 1);
        let refused = summary(&opening, &more, LONGEST).err();
        assert_eq!(refused, Some(at(17, 257)));
    }
}
