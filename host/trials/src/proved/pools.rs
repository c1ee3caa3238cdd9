//! The order pool, and issuing a block from it.
use super::across::{self, lent_issue, lent_order, lent_pool, lent_slot};
use ledger::{Held, Signature};
use second::issue::Issue;
use second::order::{Order, Slot};
use second::pool::Pool;
use second::Refusal;

/// Drops the entries that no longer count.
pub fn drop_entries(
    genesis: &[u8],
    now: Slot,
    held: &[u8],
    held_length: usize,
    pool: &mut Pool,
) -> Result<(), Refusal> {
    let held = Held::stored(held, held_length);
    let mut lent = lent_pool(pool);
    let dropped = held.drop_entries(genesis, lent_slot(now), &mut lent);
    *pool = across::pool(&lent);
    dropped.map_err(across::refusal)
}

/// Adds an order of a depot.
pub fn add_order(
    genesis: &[u8],
    now: Slot,
    held: &[u8],
    held_length: usize,
    pool: &mut Pool,
    order: Order,
    depot: u32,
) -> Result<(), Refusal> {
    let held = Held::stored(held, held_length);
    let mut lent = lent_pool(pool);
    let added = held.add_order(genesis, lent_slot(now), &mut lent, lent_order(order), depot);
    *pool = across::pool(&lent);
    added.map_err(across::refusal)
}

/// Writes the next block without its last 64 bytes and gives the length.
pub fn draft(
    issue: &Issue,
    held: &[u8],
    held_length: usize,
    buffer: &mut [u8],
) -> Result<usize, Refusal> {
    let pool = lent_pool(issue.pool);
    let draft = Held::stored(held, held_length).draft(&lent_issue(issue, &pool), buffer);
    draft.map(<[u8]>::len).map_err(across::refusal)
}

/// Writes the text of the next block that a host signs and gives the length.
pub fn block_text(
    issue: &Issue,
    held: &[u8],
    held_length: usize,
    buffer: &mut [u8],
) -> Result<usize, Refusal> {
    let pool = lent_pool(issue.pool);
    let text = Held::stored(held, held_length).block_text(&lent_issue(issue, &pool), buffer);
    text.map(<[u8]>::len).map_err(across::refusal)
}

/// Writes the next block after the held chain and gives the new length. On a refusal the length must be the old one.
pub fn append(
    issue: &Issue,
    held: &mut [u8],
    held_length: usize,
    block_signature: [u8; 64],
) -> Result<usize, Refusal> {
    let pool = lent_pool(issue.pool);
    let mut held = Held::stored(held, held_length);
    let appended = held.append(&lent_issue(issue, &pool), Signature(block_signature));
    assert!(appended.is_ok() || held.length() == held_length);
    appended.map_err(across::refusal)?;
    Ok(held.length())
}

#[cfg(test)]
mod tests {
    use crate::both::{Call, CALLS};
    use crate::rounds::rounds;
    use second::chance::Chance;
    use second::samples::{self, Case};

    /// The calls that have this refusal.
    fn calls(number: u32) -> impl Iterator<Item = &'static Call> {
        CALLS
            .iter()
            .filter(move |call| call.refusals.contains(&number))
    }

    /// A call by its name.
    fn call(name: &str) -> &'static Call {
        CALLS.iter().find(|call| call.name == name).unwrap()
    }

    #[test]
    fn good_and_bad_cases() {
        for call in calls(18) {
            samples::answers(None, "no fault", Case::good(), call.make);
            samples::refuses_bad_openings(call.make);
            samples::refuses_bad_pools(call.make);
            match call.name {
                "add" => samples::refuses_old_crowds(call.make),
                _ => samples::takes_old_crowds(call.make),
            }
            samples::refuses_bad_held(call.make);
        }
    }

    #[test]
    fn the_earliest_of_several_faults() {
        for faults in samples::kinds(samples::dropping_faults()) {
            samples::refuses_in_order(&faults, call("drop").make);
        }
        for faults in samples::adding_kinds() {
            samples::refuses_in_order(&faults, call("add").make);
        }
        for faults in samples::kinds(samples::issuing_faults()) {
            calls(12).for_each(|call| samples::refuses_in_order(&faults, call.make));
        }
    }

    #[test]
    fn by_chance() {
        let mut chance = Chance::of_seed(7);
        let mut accepted = [0; CALLS.len()];
        let rounds = rounds(4_000);
        for _ in 0..rounds {
            let case = chance.issuing();
            for (accepted, call) in accepted.iter_mut().zip(calls(18)) {
                *accepted += u64::from((call.make)(&mut case.clone()).is_none());
            }
        }
        let often = |count: &u64| (10..90).contains(&(100 * count / rounds));
        assert_eq!(calls(18).count(), 5);
        assert!(accepted[..5].iter().all(often), "{accepted:?} accepted");
    }
}
