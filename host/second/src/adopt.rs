//! Adopting a delivered chain, and the choice before it (01, "Adopt").
use super::chain;
use super::genesis::Opening;
use super::order::{BlockCount, Slot};
use super::{lent, refusal, Refusal};

/// Judges a delivered chain against the held one at the front of a buffer: 1, 2, 17, 16, the delivered blocks, 11. "A checked chain with
/// strictly more blocks than the held one replaces it."
pub fn judge(
    genesis: &[u8],
    now: Slot,
    held: &[u8],
    held_length: usize,
    delivered: &[u8],
    verdicts: &[u8],
) -> Result<BlockCount, Refusal> {
    let opening = Opening::new(genesis, now)?;
    let held = chain::summary(&opening, held, held_length)?.whole;
    let delivered = chain::delivered(&opening, delivered, verdicts)?;
    if delivered.count > held.count {
        Ok(delivered.count)
    } else {
        Err(refusal(11))
    }
}

/// "Shows either the held bytes or the delivered ones, as the caller lent them: the delivered exactly if accepted, else the held with the
/// refusal."
pub fn choose<'a>(
    genesis: &[u8],
    now: Slot,
    held: &'a [u8],
    delivered: &'a [u8],
    verdicts: &[u8],
) -> (&'a [u8], Option<Refusal>) {
    match judge(genesis, now, held, held.len(), delivered, verdicts) {
        Ok(_) => (delivered, None),
        Err(refusal) => (held, Some(refusal)),
    }
}

/// Adopts a delivered chain, refusing as `judge` and then with 15; gives the new length and the block count. "Then the held buffer begins
/// with the chosen chain; bytes past it stay."
pub fn adopt(
    genesis: &[u8],
    now: Slot,
    held: &mut [u8],
    held_length: usize,
    delivered: &[u8],
    verdicts: &[u8],
) -> Result<(usize, BlockCount), Refusal> {
    let count = judge(genesis, now, held, held_length, delivered, verdicts)?;
    let length = lent::put(delivered, held, 0)?;
    Ok((length, count))
}

#[cfg(test)]
mod tests {
    use super::*;
    use crate::chain::LONGEST;
    use crate::samples::{self, Case, BLOCK, FILLER, NOW};

    /// Adopts as a case says, choosing first: both refuse alike, but for 15, and the choice shows the right bytes.
    fn call(case: &mut Case) -> Option<Refusal> {
        let adopted = case.clone().adopt(adopt);
        if let Some(held) = case.held.get(..case.held_length) {
            let (shown, refused) = case.choose(choose);
            let chosen = if refused.is_none() {
                &case.delivered
            } else {
                held
            };
            assert!(std::ptr::eq(shown, chosen));
            assert_eq!(refused, adopted.err().filter(|r| r.number != 15));
        }
        case.adopt(adopt).err()
    }

    /// What comes of delivering blocks without orders at some stamps to one who holds such at others, at slot 20.
    fn stamps(held: &[u32], delivered: &[u32]) -> Result<BlockCount, Refusal> {
        let genesis = samples::table();
        let held = samples::chain(&genesis, &samples::empty_blocks(held));
        let delivered = samples::chain(&genesis, &samples::empty_blocks(delivered));
        judge(&genesis, NOW, &held, held.len(), &delivered, &[3; 64])
    }

    /// 01's worked examples, and "choosing between equal lengths by date, or letting a tie replace the held chain".
    #[test]
    fn counts_decide_not_stamps() {
        assert_eq!(stamps(&[1, 2], &[1, 3]), Err(refusal(11)));
        assert_eq!(stamps(&[1, 3], &[1, 2]), Err(refusal(11)));
        assert_eq!(stamps(&[1, 2], &[1, 2]), Err(refusal(11)));
        assert_eq!(stamps(&[18, 19], &[1, 2, 3]), Ok(BlockCount(3)));
        assert_eq!(stamps(&[1, 2, 3], &[18, 19]), Err(refusal(11)));
        assert_eq!(stamps(&[20], &[1, 2]), Ok(BlockCount(2)));
        assert_eq!(stamps(&[], &[19]), Ok(BlockCount(1)));
        assert_eq!(stamps(&[], &[]), Err(refusal(11)));
    }

    /// 01's worked example.
    #[test]
    fn adopting_in_slot_1() {
        let genesis = samples::table();
        for held in [&[][..], &[1]] {
            let held = samples::chain(&genesis, &samples::empty_blocks(held));
            let judge = |delivered: &[u8], verdicts: &[u8]| {
                judge(&genesis, Slot(1), &held, held.len(), delivered, verdicts)
            };
            let refused = Err(samples::at(7, 1));
            let chain = samples::good_chain(&genesis);
            assert_eq!(judge(&chain, &[3; 5]), refused);
            assert_eq!(judge(&chain, &[]), refused);
            for slot in [1, 256] {
                let mut wrong = samples::block(slot, &[samples::order(9, 9, 9)]).bytes();
                wrong.resize(LONGEST, 0xFF);
                assert_eq!(judge(&wrong, &[]), refused);
            }
            assert_eq!(judge(&[], &[3; 5]), Err(refusal(11)));
        }
    }

    #[test]
    fn the_delivered_chain_comes_to_the_front() {
        let mut case = Case::good();
        assert_eq!(case.adopt(adopt), Ok((5 * BLOCK, BlockCount(5))));
        assert_eq!(case.held[..5 * BLOCK], case.delivered);
        assert_eq!(case.held[5 * BLOCK..], [FILLER; 1_000 - 5 * BLOCK]);
    }

    #[test]
    fn more_blocks_in_fewer_bytes() {
        let (genesis, held) = samples::longest_chain(2);
        let delivered = samples::chain(&genesis, &samples::empty_blocks(&[3, 4, 5]));
        assert_eq!((held.len(), delivered.len()), (500, 486));
        let mut buffer = held.clone();
        let answer = adopt(&genesis, NOW, &mut buffer, 500, &delivered, &[3; 3]);
        assert_eq!(answer, Ok((486, BlockCount(3))));
        assert_eq!(buffer[..486], delivered);
        assert_eq!(buffer[486..], held[486..]);
    }

    #[test]
    fn a_buffer_too_short_for_the_delivered_chain() {
        let good = Case::good();
        for (length, refused) in [
            (5 * BLOCK, None),
            (5 * BLOCK - 1, Some(refusal(15))),
            (good.held_length, Some(refusal(15))),
        ] {
            let mut case = good.clone();
            case.held.truncate(length);
            samples::answers(refused, &format!("{length} bytes"), case, call);
        }
    }

    #[test]
    fn several_deliveries_one_after_another() {
        let genesis = samples::table();
        let mut held = vec![FILLER; 1_000];
        let mut length = 0;
        for (stamps, answer) in [
            (&[5][..], Ok((162, BlockCount(1)))),
            (&[4], Err(refusal(11))),
            (&[3, 4], Ok((324, BlockCount(2)))),
            (&[6, 19], Err(refusal(11))),
            (&[1, 2, 3, 4], Ok((648, BlockCount(4)))),
        ] {
            let delivered = samples::chain(&genesis, &samples::empty_blocks(stamps));
            let adopted = adopt(&genesis, NOW, &mut held, length, &delivered, &[3; 4]);
            assert_eq!(adopted, answer);
            length = answer.map_or(length, |(length, _)| length);
        }
    }

    #[test]
    fn bad_openings() {
        samples::refuses_bad_openings(call);
    }

    #[test]
    fn bad_held_chains() {
        samples::refuses_bad_held(call);
    }

    #[test]
    fn bad_delivered_chains() {
        for (fault, delivered, refused) in samples::bad_chains(&samples::table()) {
            let case = Case {
                delivered,
                verdicts: samples::verdicts(6),
                ..Case::good()
            };
            samples::answers(Some(refused), &fault, case, call);
        }
    }

    #[test]
    fn bad_and_missing_verdicts() {
        for place in [1, 3, 5] {
            let refused = Some(samples::at(8, place));
            let mut case = Case::good();
            case.verdicts[place - 1] = 1;
            samples::answers(refused, "bad", case.clone(), call);
            case.verdicts.truncate(place - 1);
            samples::answers(refused, "missing", case, call);
        }
    }

    #[test]
    fn the_earliest_of_several_faults() {
        for stamp in [6, 7] {
            samples::refuses_in_order(&samples::adopting_faults(stamp), call);
        }
    }

    #[test]
    fn a_whole_slice_too_long_is_17_before_16() {
        let genesis = samples::table();
        let long = vec![0; LONGEST + 1];
        let (shown, refused) = choose(&genesis, NOW, &long, &long[1..], &[]);
        assert!(std::ptr::eq(shown, &long[..]));
        assert_eq!(refused, Some(refusal(17)));
        let (shown, refused) = choose(&genesis, NOW, &[], &long, &[]);
        assert!(shown.is_empty());
        assert_eq!(refused, Some(refusal(16)));
    }
}
