//! Issuing: the draft, the block text and the append (01, "Draft and append").
use super::block::{self, Block, ORDERS};
use super::chain::{self, Summary};
use super::genesis::Opening;
use super::order::Slot;
use super::pool::{self, Pool};
use super::{lent, refusal, Refusal};

/// What draft, block text and append all take besides the held chain. "Same arguments, same bytes: what was signed is what is appended."
#[derive(Debug, Clone, Copy)]
pub struct Issue<'a> {
    pub genesis: &'a [u8],
    pub now: Slot,
    pub pool: &'a Pool,
    pub controller: u32,
    pub slot_signature: [u8; 64],
}

impl Issue<'_> {
    /// The next block: 1, 2, 17, 18, 12, 6. "Walk the counting entries in order and take each that is valid at that point, until 8 are
    /// taken."
    fn block(
        &self,
        held: &[u8],
        held_length: usize,
        block_signature: [u8; 64],
    ) -> Result<Block, Refusal> {
        let opening = Opening::new(self.genesis, self.now)?;
        let Summary { whole, settled } = chain::summary(&opening, held, held_length)?;
        let entries = self.pool.counting(self.now, &settled.releases)?;
        if self.controller != opening.genesis.turn(self.now) {
            return Err(refusal(12));
        }
        if whole.last == Some(self.now) {
            return Err(refusal(6));
        }
        let (orders, _) = pool::taken(&entries, whole.releases, *ORDERS.end() as usize);
        Ok(Block {
            link: whole.link()?,
            orders,
            slot: self.now,
            slot_signature: self.slot_signature,
            block_signature,
        })
    }

    /// The next block without its last 64 bytes.
    fn front(&self, held: &[u8], held_length: usize) -> Result<Vec<u8>, Refusal> {
        let block = self.block(held, held_length, [0; 64])?;
        Ok(block.front_bytes())
    }
}

/// "The draft (given the slot signature) writes the block without its last 64 bytes" and gives the length: 1, 2, 17, 18, 12, 6, 15.
pub fn draft(
    issue: &Issue,
    held: &[u8],
    held_length: usize,
    buffer: &mut [u8],
) -> Result<usize, Refusal> {
    let front = issue.front(held, held_length)?;
    lent::put(&front, buffer, 0)
}

/// Writes "the five letters `block` followed by the block without its last 64 bytes" and gives the length. It "takes what the draft takes
/// and refuses as it does".
pub fn block_text(
    issue: &Issue,
    held: &[u8],
    held_length: usize,
    buffer: &mut [u8],
) -> Result<usize, Refusal> {
    let front = issue.front(held, held_length)?;
    let text = [b"block", &front[..]].concat();
    lent::put(&text, buffer, 0)
}

/// "Append (given both signatures) writes the whole block after the held chain" and gives the new length: 1, 2, 17, 18, 12, 6, 15.
pub fn append(
    issue: &Issue,
    held: &mut [u8],
    held_length: usize,
    block_signature: [u8; 64],
) -> Result<usize, Refusal> {
    let block = issue.block(held, held_length, block_signature)?;
    let length = block::write(&block, held, held_length)?;
    Ok(held_length + length)
}

#[cfg(test)]
mod tests {
    use super::*;
    use crate::order::{BlockCount, Order};
    use crate::pool::Entry;
    use crate::samples::{self, entry, in_turn, old, order, Case, FILLER};
    use crate::sha256;

    fn call_draft(case: &mut Case) -> Result<usize, Refusal> {
        case.write(draft)
    }

    fn call_text(case: &mut Case) -> Result<usize, Refusal> {
        case.write(block_text)
    }

    fn call_append(case: &mut Case) -> Result<usize, Refusal> {
        case.append(append)
    }

    type Call = fn(&mut Case) -> Result<usize, Refusal>;
    const CALLS: [Call; 3] = [call_draft, call_text, call_append];

    /// A good case with these entries pooled.
    fn pooled(entries: &[Entry]) -> Case {
        Case {
            pool: Pool::of(entries),
            ..Case::good()
        }
    }

    /// The orders of the block that is appended.
    fn orders(mut case: Case) -> Vec<Order> {
        let start = case.held_length;
        let end = call_append(&mut case).unwrap();
        let (block, length) = block::read(&case.held[start..]).unwrap();
        assert_eq!(start + length, end);
        block.orders
    }

    #[test]
    fn the_block_that_is_issued() {
        let mut case = Case::good();
        let start = case.held_length;
        let expected = Block {
            link: sha256::digest(&case.held[162..324]).unwrap(),
            orders: vec![order(2, 40, 41)],
            slot: Slot(20),
            slot_signature: case.slot_signature,
            block_signature: case.block_signature,
        };
        let before = case.held.clone();
        assert_eq!(call_append(&mut case), Ok(start + 165));
        assert_eq!(case.held[..start], before[..start]);
        assert_eq!(case.held[start..start + 165], expected.bytes());
        assert_eq!(case.held[start + 165..], before[start + 165..]);
    }

    /// "Same arguments, same bytes: what was signed is what is appended."
    #[test]
    fn what_was_signed_is_what_is_appended() {
        let mut case = Case::good();
        let length = call_draft(&mut case).unwrap();
        let front = case.buffer[..length].to_vec();
        assert_eq!(case.buffer[length..], vec![FILLER; 400 - length]);
        case.buffer.fill(FILLER);
        assert_eq!(call_text(&mut case), Ok(length + 5));
        assert_eq!(case.buffer[..length + 5], [b"block", &front[..]].concat());
        assert_eq!(case.buffer[length + 5..], vec![FILLER; 395 - length]);
        let end = call_append(&mut case).unwrap();
        let appended = &case.held[case.held_length..end];
        assert_eq!(appended[..length], front);
        assert_eq!(appended[length..], case.block_signature);
    }

    #[test]
    fn the_first_block() {
        let mut case = Case::good();
        case.held_length = 0;
        let end = call_append(&mut case).unwrap();
        let (block, _) = block::read(&case.held).unwrap();
        assert_eq!(Ok(block.link), sha256::digest(&case.genesis));
        assert_eq!(end, 165);
    }

    #[test]
    fn what_is_appended_is_good() {
        let mut case = Case::good();
        let end = call_append(&mut case).unwrap();
        let chain = &case.held[..end];
        let (count, releases) = chain::check(&case.genesis, Slot(21), chain, &[3; 3]).unwrap();
        assert_eq!((count, releases[2]), (BlockCount(3), 41));
    }

    #[test]
    fn no_entries_no_orders() {
        let invalid = entry(order(2, 41, 42), 20);
        let old = old();
        for entries in [
            &[][..],
            &[invalid],
            &[old],
            &[old, invalid, old],
            &[old; 64],
        ] {
            let mut case = pooled(entries);
            let start = case.held_length;
            assert_eq!(call_append(&mut case.clone()), Ok(start + 162));
            assert_eq!(call_draft(&mut case), Ok(98));
            assert_eq!(orders(case), []);
        }
    }

    #[test]
    fn valid_entries_in_order() {
        let entries = [
            entry(order(2, 41, 42), 20),
            entry(order(2, 39, 40), 20),
            entry(order(2, 40, 43), 1),
            entry(order(7, 0, 5), 18),
            entry(order(2, 43, 43), 18),
            entry(order(2, 43, 44), 17),
        ];
        let expected = [order(2, 40, 43), order(7, 0, 5), order(2, 43, 44)];
        assert_eq!(orders(pooled(&entries)), expected);
    }

    #[test]
    fn until_8_are_taken() {
        let each: Vec<Entry> = (0..64)
            .map(|display| entry(order(display, 0, 1), 20))
            .collect();
        let mut entries = in_turn(&each);
        let expected: Vec<Order> = [0, 1, 3, 4, 5, 6, 7, 8]
            .map(|display| order(display, 0, 1))
            .into();
        assert_eq!(orders(pooled(&entries)), expected);
        entries.drain(3..58);
        // 0, 1, then 58 to 63: eight with display 2 skipped
        let rest = orders(pooled(&entries));
        assert_eq!((rest.len(), rest[7]), (8, order(63, 0, 1)));
        entries.pop();
        assert_eq!(orders(pooled(&entries)).len(), 7);
    }

    /// "Starting orders from the pool's state when the chain below has changed since."
    #[test]
    fn the_chain_below_decides() {
        let mut case = pooled(&[
            entry(order(2, 40, 41), 18),
            entry(order(2, 41, 42), 18),
            entry(order(2, 42, 43), 18),
        ]);
        case.held = case.delivered.clone();
        case.held.resize(2_000, 0);
        for (blocks, taken) in [(0, 3), (1, 2), (2, 1), (3, 0), (5, 0)] {
            case.held_length = samples::BLOCK * blocks;
            assert_eq!(orders(case.clone()).len(), taken);
        }
    }

    #[test]
    fn only_the_controller_whose_turn_it_is() {
        for (now, turn) in [(18, 6), (19, 1), (20, 2), (21, 3), (256, 4)] {
            for controller in [0, 1, 2, 3, 4, 5, 6, 7, 8, 256, 258, u32::MAX] {
                let case = Case {
                    now: Slot(now),
                    controller,
                    ..pooled(&[])
                };
                let refused = (controller != turn).then_some(refusal(12));
                for call in CALLS {
                    samples::answers(refused, "turn", case.clone(), |case| call(case).err());
                }
            }
        }
    }

    #[test]
    fn one_block_in_a_slot() {
        for call in CALLS {
            let mut case = Case::good();
            case.held_length = call_append(&mut case).unwrap();
            samples::answers(Some(refusal(6)), "twice", case, |case| call(case).err());
        }
    }

    #[test]
    fn buffers_one_byte_short() {
        for (call, exact) in [(call_draft as Call, 101), (call_text, 106)] {
            for (length, refused) in [(exact, None), (exact - 1, Some(refusal(15)))] {
                let mut case = Case::good();
                case.buffer.truncate(length);
                samples::answers(refused, "buffer", case, |case| call(case).err());
            }
        }
        let exact = Case::good().held_length + 165;
        for (length, refused) in [(exact, None), (exact - 1, Some(refusal(15)))] {
            let mut case = Case::good();
            case.held.truncate(length);
            samples::answers(refused, "held", case, |case| call_append(case).err());
        }
    }

    #[test]
    fn the_last_slot_of_the_longest_chain() {
        let (genesis, chain) = samples::longest_chain(256);
        let mut case = Case::good();
        let entries: Vec<Entry> = (0..9)
            .map(|display| {
                let release = samples::LONG_START + 255;
                entry(order(display, release, release + 1), 256)
            })
            .collect();
        case.pool = Pool::of(&entries);
        (case.genesis, case.now, case.controller) = (genesis, Slot(256), 1);
        case.held_length = chain.len() - 251;
        case.held = chain.clone();
        case.held[chain.len() - 251..].fill(FILLER);
        let (before, issued) = chain.split_at(chain.len() - 251);
        assert_eq!(call_append(&mut case), Ok(chain.len()));
        assert_eq!(case.held[..before.len()], *before);
        assert_eq!(case.held[before.len()..][..123], issued[..123]);
        case.held_length = chain.len();
        assert_eq!(call_append(&mut case), Err(refusal(6)));
    }

    #[test]
    fn bad_openings() {
        for call in CALLS {
            samples::refuses_bad_openings(|case| call(case).err());
        }
    }

    #[test]
    fn bad_held_chains() {
        for call in CALLS {
            samples::refuses_bad_held(|case| call(case).err());
        }
    }

    #[test]
    fn bad_pools() {
        for call in CALLS {
            samples::refuses_bad_pools(|case| call(case).err());
            samples::takes_old_crowds(|case| call(case).err());
        }
    }

    #[test]
    fn the_earliest_of_several_faults() {
        for faults in samples::kinds(samples::issuing_faults()) {
            for call in CALLS {
                samples::refuses_in_order(&faults, |case| call(case).err());
            }
        }
    }
}
