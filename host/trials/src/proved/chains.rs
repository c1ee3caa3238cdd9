//! The calls on whole chains.
use super::across::{self, lent_slot};
use ledger::Held;
use second::order::{BlockCount, Releases, Slot};
use second::report::Report;
use second::Refusal;

/// Checks a chain: its block count, and the releases after the last block.
pub fn check(
    genesis: &[u8],
    now: Slot,
    chain: &[u8],
    verdicts: &[u8],
) -> Result<(BlockCount, Releases), Refusal> {
    let checked = ledger::check(genesis, lent_slot(now), chain, verdicts);
    let checked = checked.map_err(across::refusal)?;
    Ok((across::count(checked.count), checked.releases))
}

/// Shows the delivered chain exactly if it is accepted, else the held one with the refusal.
pub fn choose<'a>(
    genesis: &[u8],
    now: Slot,
    held: &'a [u8],
    delivered: &'a [u8],
    verdicts: &[u8],
) -> (&'a [u8], Option<Refusal>) {
    let (shown, refused) = ledger::choose(genesis, lent_slot(now), held, delivered, verdicts);
    (shown, refused.map(across::refusal))
}

/// Adopts a delivered chain: the held chain's new length, and its block count. On a refusal the length must be the old one.
pub fn adopt(
    genesis: &[u8],
    now: Slot,
    held: &mut [u8],
    held_length: usize,
    delivered: &[u8],
    verdicts: &[u8],
) -> Result<(usize, BlockCount), Refusal> {
    let mut held = Held::stored(held, held_length);
    let adopted = held.adopt(genesis, lent_slot(now), delivered, verdicts);
    assert!(adopted.is_ok() || held.length() == held_length);
    let count = adopted.map_err(across::refusal)?;
    Ok((held.length(), across::count(count)))
}

/// Reports on the held chain.
pub fn report(
    genesis: &[u8],
    now: Slot,
    held: &[u8],
    held_length: usize,
) -> Result<Report, Refusal> {
    let report = Held::stored(held, held_length).report(genesis, lent_slot(now));
    report.map(across::report).map_err(across::refusal)
}

#[cfg(test)]
mod tests {
    use super::*;
    use crate::both;
    use crate::rounds::rounds;
    use ledger::raw;
    use second::chance::Chance;
    use second::samples::{self, Case};

    /// Checks, reports, chooses and adopts as a case says, with both.
    fn call(case: &mut Case) -> Option<Refusal> {
        let _ = case.check(both::check);
        let _ = case.report(both::report);
        case.choose(both::choose);
        case.adopt(both::adopt).err()
    }

    #[test]
    fn good_and_bad_openings() {
        samples::answers(None, "no fault", Case::good(), call);
        samples::refuses_bad_openings(call);
    }

    #[test]
    fn bad_held_chains() {
        samples::refuses_bad_held(call);
    }

    #[test]
    fn bad_delivered_chains() {
        for (fault, delivered, refused) in samples::bad_chains(&samples::table()) {
            let verdicts = samples::verdicts(300);
            let case = Case {
                delivered,
                verdicts,
                ..Case::good()
            };
            samples::answers(Some(refused), &fault, case, call);
        }
    }

    #[test]
    fn the_earliest_of_several_faults() {
        for stamp in [6, 7] {
            samples::refuses_in_order(&samples::adopting_faults(stamp), call);
        }
    }

    #[test]
    fn the_longest_chains() {
        for (blocks, now) in [(255, 256), (256, 256), (255, 255), (64, 65), (0, 1)] {
            let (genesis, delivered) = samples::longest_chain(blocks);
            let mut case = Case {
                genesis,
                now: Slot(now),
                held: vec![samples::FILLER; delivered.len() + 3],
                held_length: 0,
                delivered,
                verdicts: samples::verdicts(blocks as usize),
                ..Case::good()
            };
            call(&mut case);
        }
    }

    /// Zeros stand beside a refusal.
    #[test]
    fn refused() {
        let checked = raw::ledger_check(&[], ledger::Slot(1), &[], &[]);
        let zeros = raw::CheckAnswer {
            refusal: 1,
            place: ledger::BlockCount(0),
            count: ledger::BlockCount(0),
            releases: [0; 64],
        };
        assert_eq!(checked, zeros);
        let reported = raw::ledger_report(&[], ledger::Slot(1), &[], 0);
        let zeros = raw::ReportAnswer {
            refusal: 1,
            place: ledger::BlockCount(0),
            held: ledger::BlockCount(0),
            settled: ledger::BlockCount(0),
            settled_length: 0,
            releases: [0; 64],
        };
        assert_eq!(reported, zeros);
    }

    #[test]
    fn by_chance() {
        let mut chance = Chance::of_seed(6);
        let mut accepted = 0;
        let rounds = rounds(10_000);
        for _ in 0..rounds {
            accepted += u64::from(call(&mut chance.exchange()).is_none());
        }
        let share = 100 * accepted / rounds;
        assert!((5..95).contains(&share), "{share} in 100 accepted");
    }
}
