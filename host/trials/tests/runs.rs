//! Runs of several controllers over the calls of both implementations: nothing that demand 3 forbids happens. Runs with a rule that is wrong on
//! purpose show that it would be seen.
use std::collections::BTreeSet;

use second::calls::{self, Calls, SECOND};
use second::order::{BlockCount, Slot};
use second::report::{self, Report};
use second::{chain, refusal, walk, Refusal};
use trials::both::BOTH;
use trials::rounds::{all_are_made, rounds};
use trials::run::{run, Account, Broken, Plan};

/// Runs of so many slots with seeds from 1 on.
fn runs(n: u32, t: u32, slots: u32, seeds: u64) -> Vec<Account> {
    (1..=rounds(seeds))
        .map(|seed| {
            let plan = Plan { n, t, slots, seed };
            run(plan, &BOTH).unwrap_or_else(|broken| panic!("{plan:?}: {broken:?}"))
        })
        .collect()
}

/// Sees that blocks were settled and orders pooled, and that the faulty ones were not idle: chains differed, and bad ones were refused.
fn were_disturbed(accounts: &[Account]) {
    assert!(accounts.iter().all(|account| account.settled > 20));
    assert!(accounts.iter().all(|account| account.pooled > 20));
    if !all_are_made() {
        return;
    }
    assert!(accounts.iter().any(|account| account.forks > 0));
    let refused: BTreeSet<u32> = accounts
        .iter()
        .flat_map(|account| account.refused.keys().copied())
        .collect();
    for number in [3, 7, 8, 9, 10, 11, 16] {
        assert!(refused.contains(&number), "{number}: {refused:?}");
    }
}

/// A block in every slot: the depth is 1, so of those of slots 1 to 255, which are held in slot 256, those before 255 are settled. Each of these 255
/// chains is adopted by all but the one that issued it.
#[test]
fn nobody_is_faulty() {
    for (n, seeds) in [(1, 2), (2, 2), (5, 2)] {
        for account in runs(n, 0, 256, seeds) {
            assert_eq!((account.settled, account.forks), (254, 0));
            assert_eq!(account.adopted, 255 * (n - 1));
        }
    }
}

#[test]
fn one_of_six() {
    were_disturbed(&runs(6, 1, 256, 5));
}

/// 02's station with four controllers: the depth is 10.
#[test]
fn one_of_four() {
    were_disturbed(&runs(4, 1, 256, 5));
}

/// The depth is 31.
#[test]
fn two_of_seven() {
    were_disturbed(&runs(7, 2, 256, 3));
}

#[test]
fn two_of_eleven() {
    were_disturbed(&runs(11, 2, 256, 3));
}

#[test]
fn six_of_thirty_one() {
    were_disturbed(&runs(31, 6, 100, 3));
}

#[test]
fn six_of_thirty_one_to_the_end() {
    runs(31, 6, 256, 1);
}

/// What breaks in runs with other calls, for seeds from 1 on.
fn broken(n: u32, t: u32, calls: &Calls) -> Vec<Broken> {
    (1..=6)
        .filter_map(|seed| {
            let plan = Plan {
                n,
                t,
                slots: 120,
                seed,
            };
            run(plan, calls).err()
        })
        .collect()
}

/// As the report, but a block is settled if its slot + DEPTH < now.
fn report_at<const DEPTH: u32>(
    genesis: &[u8],
    now: Slot,
    held: &[u8],
    held_length: usize,
) -> Result<Report, Refusal> {
    let report = report::report(genesis, now, held, held_length)?;
    let lengths: Vec<usize> = walk::blocks(&held[..held_length])
        .take_while(|(block, _)| block.slot.0 + DEPTH < now.0)
        .map(|(_, bytes)| bytes.len())
        .collect();
    Ok(Report {
        settled: BlockCount(lengths.len() as u32),
        settled_length: lengths.iter().sum(),
        ..report
    })
}

/// Depths far below what the count asks for. From 3t + 1 on no run is known in which settled lists differ, so a depth of one slot less than D is not
/// among them. Where nobody is faulty the chains do not differ, whatever the depth.
#[test]
fn settling_too_soon_would_be_seen() {
    for report in [report_at::<0> as calls::Report, report_at::<1>] {
        let calls = Calls { report, ..SECOND };
        for (n, t) in [(4, 1), (6, 1), (7, 2), (11, 2)] {
            let broken = broken(n, t, &calls);
            let differ = |broken: &Broken| matches!(broken, Broken::Differ(..));
            assert!(broken.iter().any(differ), "{broken:?}");
        }
        assert_eq!(broken(5, 0, &calls), []);
    }
}

/// The last block's stamp.
fn last(chain: &[u8]) -> Slot {
    walk::blocks(chain)
        .last()
        .map_or(Slot(0), |(block, _)| block.slot)
}

/// The rule that was given up: "Ours took the list with the newest date."
fn adopt_by_date(
    genesis: &[u8],
    now: Slot,
    held: &mut [u8],
    held_length: usize,
    delivered: &[u8],
    verdicts: &[u8],
) -> Result<(usize, BlockCount), Refusal> {
    let (count, _) = chain::check(genesis, now, delivered, verdicts)?;
    if last(delivered) <= last(&held[..held_length]) {
        return Err(refusal(11));
    }
    held[..delivered.len()].copy_from_slice(delivered);
    Ok((delivered.len(), count))
}

/// "A controller whose clock battery had drained came back with a stale list stamped late, the others took it."
#[test]
fn adoption_by_date_would_be_seen() {
    let calls = Calls {
        adopt: adopt_by_date,
        ..SECOND
    };
    for (n, t) in [(6, 1), (11, 2)] {
        let broken = broken(n, t, &calls);
        let taken_back = |broken: &Broken| matches!(broken, Broken::TakenBack(..));
        assert!(broken.iter().any(taken_back), "{broken:?}");
    }
    assert_eq!(broken(5, 0, &calls), []);
}
