//! The order pool (01, "Pool an order"; its depots: 02, d; dropping and adding apart: 02, i; what counts: 02, n).
use std::ops::RangeInclusive;

use super::chain::{self, Summary};
use super::genesis::Opening;
use super::order::{apply, valid, Order, Releases, Slot};
use super::{refusal, Refusal};

/// How many entries a pool has room for.
pub const ROOM: usize = 64;

/// The depots there are.
pub const DEPOTS: RangeInclusive<u32> = 0..=3;

/// "A depot may have at most 16 counting entries."
pub const DEPOT_ROOM: usize = 16;

/// "Each an order and its entry slot", and 02: "Each entry carries its depot, 0 to 3".
#[derive(Debug, Clone, Copy, Default, PartialEq, Eq)]
pub struct Entry {
    pub order: Order,
    pub slot: Slot,
    pub depot: u32,
}

/// "The pool is up to 64 entries." Any pool may be handed in, a bad one too.
#[derive(Debug, Clone, PartialEq, Eq)]
pub struct Pool {
    pub count: u32,
    pub entries: [Entry; ROOM],
}

impl Pool {
    /// The pool of these entries, at most 64; "places past the count hold zeros".
    pub fn of(entries: &[Entry]) -> Pool {
        let mut pool = Pool {
            count: entries.len() as u32,
            entries: [Entry::default(); ROOM],
        };
        pool.entries[..entries.len()].copy_from_slice(entries);
        pool
    }

    /// The entries within the count, or 18: "count above 64, or within the count an entry with a display above 63, slot 0 or slot above now", and
    /// 02: "a release above the largest is .. 18 in the pool", "a depot above 3 is 18 in the pool".
    fn good_entries(&self, now: Slot) -> Result<Vec<Entry>, Refusal> {
        let entries = self.entries.get(..self.count as usize).ok_or(refusal(18))?;
        match entries.iter().all(|entry| entry.good(now)) {
            true => Ok(entries.to_vec()),
            false => Err(refusal(18)),
        }
    }

    /// The entries that count, in order, or 18, also for "a pool with more than 16 counting entries of one depot".
    pub fn counting(&self, now: Slot, settled: &Releases) -> Result<Vec<Entry>, Refusal> {
        let entries = self.good_entries(now)?;
        uncrowded(counting_of(&entries, settled))
    }

    /// All entries, in order, or 18, also for "a depot with more than 16 entries, counting or not".
    fn present(&self, now: Slot) -> Result<Vec<Entry>, Refusal> {
        uncrowded(self.good_entries(now)?)
    }
}

/// Those of these entries that count, where these releases are settled.
fn counting_of(entries: &[Entry], settled: &Releases) -> Vec<Entry> {
    entries
        .iter()
        .filter(|entry| entry.counts(settled))
        .copied()
        .collect()
}

/// These entries, or 18 if more than 16 of them are one depot's.
fn uncrowded(entries: Vec<Entry>) -> Result<Vec<Entry>, Refusal> {
    let crowded = |entry: &Entry| count_of(entry.depot, &entries) > DEPOT_ROOM;
    match entries.iter().any(crowded) {
        true => Err(refusal(18)),
        false => Ok(entries),
    }
}

/// How many of these entries are a depot's.
fn count_of(depot: u32, entries: &[Entry]) -> usize {
    entries.iter().filter(|entry| entry.depot == depot).count()
}

impl Entry {
    fn good(&self, now: Slot) -> bool {
        self.order.in_range()
            && self.slot >= Slot(1)
            && self.slot <= now
            && DEPOTS.contains(&self.depot)
    }

    /// "An entry now stops counting when its display's settled release is above the release that it expects, and not before." For a display that
    /// there is.
    fn counts(&self, settled: &Releases) -> bool {
        settled[self.order.display as usize] <= self.order.expected
    }
}

/// The orders of the entries in order, each that is valid at that point, until `limit` are taken; and the releases after them.
pub fn taken(entries: &[Entry], mut releases: Releases, limit: usize) -> (Vec<Order>, Releases) {
    let orders = entries
        .iter()
        .map(|entry| entry.order)
        .filter(|order| apply(order, &mut releases))
        .take(limit)
        .collect();
    (orders, releases)
}

/// 5 for an offer, then 14: "The new order must be valid after the held chain and then the counting entries in order."
fn judge_offer(
    order: &Order,
    depot: u32,
    counting: &[Entry],
    releases: Releases,
) -> Result<(), Refusal> {
    if !order.in_range() || !DEPOTS.contains(&depot) {
        return Err(refusal(5));
    }
    let (_, releases) = taken(counting, releases, ROOM);
    match valid(order, &releases) {
        true => Ok(()),
        false => Err(refusal(14)),
    }
}

/// These entries and a new one behind them, or 20 if the depot has 16 of them.
///
/// 13, which stands after 20, can't occur: past 18 no depot has more than 16 of the 64, and past 20 the asker's has fewer.
fn joined(mut entries: Vec<Entry>, new: Entry) -> Result<Pool, Refusal> {
    if count_of(new.depot, &entries) == DEPOT_ROOM {
        return Err(refusal(20));
    }
    entries.push(new);
    Ok(Pool::of(&entries))
}

/// 02, i: "one call drops the entries that no longer count", and leaves "zeros past the count"; 02, n: "the dropping call, which now takes the held
/// chain, gives 1, 2, 17, 18".
pub fn drop_entries(
    genesis: &[u8],
    now: Slot,
    held: &[u8],
    held_length: usize,
    pool: &mut Pool,
) -> Result<(), Refusal> {
    let opening = Opening::new(genesis, now)?;
    let settled = chain::summary(&opening, held, held_length)?.settled;
    *pool = Pool::of(&pool.counting(now, &settled.releases)?);
    Ok(())
}

/// 02, i: "the other only adds an order", of a depot: 1, 2, 17, 18, 5, 14, 20. It "judges validity as before, but its full-pool and depot checks are
/// over all entries present".
pub fn add_order(
    genesis: &[u8],
    now: Slot,
    held: &[u8],
    held_length: usize,
    pool: &mut Pool,
    order: Order,
    depot: u32,
) -> Result<(), Refusal> {
    let opening = Opening::new(genesis, now)?;
    let Summary { whole, settled } = chain::summary(&opening, held, held_length)?;
    let present = pool.present(now)?;
    let counting = counting_of(&present, &settled.releases);
    judge_offer(&order, depot, &counting, whole.releases)?;
    let slot = now;
    *pool = joined(present, Entry { order, slot, depot })?;
    Ok(())
}

/// What 01 has as one call, "Pool an order", before 02, i split it: 1, 2, 17, 18, 5, 14, 20. "On success the entries that no longer count are gone,
/// the others keep their order, and the new one is last." No call any more, but what dropping and then adding is held to.
pub fn drop_and_add(
    genesis: &[u8],
    now: Slot,
    held: &[u8],
    held_length: usize,
    pool: &mut Pool,
    order: Order,
    depot: u32,
) -> Result<(), Refusal> {
    let opening = Opening::new(genesis, now)?;
    let Summary { whole, settled } = chain::summary(&opening, held, held_length)?;
    let counting = pool.counting(now, &settled.releases)?;
    judge_offer(&order, depot, &counting, whole.releases)?;
    let slot = now;
    *pool = joined(counting, Entry { order, slot, depot })?;
    Ok(())
}

#[cfg(test)]
mod tests {
    use super::*;
    use crate::calls::AddOrder;
    use crate::chance::Chance;
    use crate::genesis::Genesis;
    use crate::number::LARGEST;
    use crate::report;
    use crate::samples::{self, counting, crowd, entry, in_turn, old, order, Case, BLOCK};

    fn add(case: &mut Case) -> Option<Refusal> {
        case.add_order(add_order).err()
    }

    fn drop(case: &mut Case) -> Option<Refusal> {
        case.drop_entries(drop_entries).err()
    }

    /// One who holds no blocks at slot 20: display 2 is settled at release 40, the others at 0.
    fn at_20(depot: u32, pool: &Pool, order: Order, call: AddOrder) -> Result<Pool, Refusal> {
        let mut after = pool.clone();
        let genesis = samples::table();
        call(&genesis, Slot(20), &[], 0, &mut after, order, depot)?;
        Ok(after)
    }

    fn added_by(depot: u32, pool: &Pool, order: Order) -> Result<Pool, Refusal> {
        at_20(depot, pool, order, add_order)
    }

    fn dropped(pool: &Pool) -> Result<Pool, Refusal> {
        let mut after = pool.clone();
        drop_entries(&samples::table(), Slot(20), &[], 0, &mut after)?;
        Ok(after)
    }

    /// Drops, and then adds an order of this depot, which must be what was one call.
    fn offered_by(depot: u32, pool: &Pool, order: Order) -> Result<Pool, Refusal> {
        let after = added_by(depot, &dropped(pool)?, order);
        assert_eq!(after, at_20(depot, pool, order, drop_and_add));
        after
    }

    /// The same for depot 0.
    fn offered(pool: &Pool, order: Order) -> Result<Pool, Refusal> {
        offered_by(0, pool, order)
    }

    #[test]
    fn the_new_entry_is_last_at_now_and_carries_its_depot() {
        let mut pool = Pool::of(&[]);
        let mut entries = Vec::new();
        for (release, depot) in (40..104).zip(DEPOTS.cycle()) {
            let next = order(2, release, release + 1);
            pool = offered_by(depot, &pool, next).unwrap();
            entries.push(entry(next, 20).of_depot(depot));
            assert_eq!(pool, Pool::of(&entries));
        }
        for depot in DEPOTS {
            let more = offered_by(depot, &pool, order(2, 104, 105));
            assert_eq!(more, Err(refusal(20)));
        }
    }

    #[test]
    fn valid_after_chain_and_entries() {
        let pool = Pool::of(&[entry(order(2, 40, 50), 20), entry(order(3, 0, 9), 20)]);
        for good in [order(2, 50, 51), order(3, 9, LARGEST), order(63, 0, 1)] {
            assert!(offered(&pool, good).is_ok());
        }
        for bad in [
            order(2, 40, 41),
            order(2, 50, 50),
            order(3, 0, 1),
            order(0, 0, 0),
            order(0, 1, 2),
        ] {
            assert_eq!(offered(&pool, bad), Err(refusal(14)));
        }
    }

    #[test]
    fn entries_invalid_at_their_place_are_skipped_and_stay() {
        let entries = [
            entry(order(2, 41, 42), 18),
            entry(order(2, 40, 41), 19),
            entry(order(2, 40, 99), 20),
        ];
        let pool = Pool::of(&entries);
        assert_eq!(offered(&pool, order(2, 42, 43)), Err(refusal(14)));
        assert_eq!(offered(&pool, order(2, 99, 100)), Err(refusal(14)));
        let new = order(2, 41, 42);
        let after = [&entries[..], &[entry(new, 20)]].concat();
        assert_eq!(offered(&pool, new), Ok(Pool::of(&after)));
    }

    /// Whatever their slots are.
    #[test]
    fn entries_count_until_more_is_settled_than_they_expect() {
        let entries = [
            entry(order(2, 39, 41), 20),
            entry(order(2, 40, 42), 1),
            entry(order(2, 0, LARGEST), 19),
            entry(order(2, 42, 44), 20),
            entry(order(2, LARGEST, 0), 20),
            entry(order(3, 0, 0), 20),
        ];
        let counting = [entries[1], entries[3], entries[4], entries[5]];
        assert_eq!(dropped(&Pool::of(&entries)), Ok(Pool::of(&counting)));
        let new = order(2, 44, 45);
        let after = [&counting[..], &[entry(new, 20)]].concat();
        assert_eq!(offered(&Pool::of(&entries), new), Ok(Pool::of(&after)));
    }

    /// How many of seven entries, which expect display 2 at 40 to 46, are left at a slot over so many bytes of the sample chain. Its stamps are 1, 3,
    /// 4, 6 and 9, and its blocks take display 2 from 40 on, one release each.
    fn left(genesis: &Genesis, now: u32, blocks: usize) -> Result<u32, Refusal> {
        let entries: Vec<Entry> = (40..47).map(|r| entry(order(2, r, r + 1), 1)).collect();
        let mut pool = Pool::of(&entries);
        let genesis = genesis.bytes();
        let held = samples::good_chain(&genesis);
        let length = BLOCK * blocks;
        drop_entries(&genesis, Slot(now), &held, length, &mut pool)?;
        let left = &entries[entries.len() - pool.count as usize..];
        assert_eq!(pool, Pool::of(left));
        Ok(pool.count)
    }

    /// What is settled decides, not what is held: at n = 6, t = 1 the depth is 4, at n = 4, t = 1 it is 10.
    #[test]
    fn what_is_settled_decides() {
        let six = samples::genesis(6, 1, 5);
        for (now, settled) in [(9, 3), (10, 3), (11, 4), (13, 4), (14, 5), (256, 5)] {
            assert_eq!(left(&six, now, 5), Ok(7 - settled), "now {now}");
            assert_eq!(left(&six, now, 0), Ok(7));
        }
        for (now, settled) in [(1, 0), (5, 0), (6, 1), (256, 1)] {
            assert_eq!(left(&six, now, 1), Ok(7 - settled), "now {now}");
        }
        let four = samples::genesis(4, 1, 5);
        for (now, settled) in [(9, 0), (11, 0), (12, 1), (14, 2), (20, 5)] {
            assert_eq!(left(&four, now, 5), Ok(7 - settled), "now {now}");
        }
    }

    /// "u is still read, must still be 1 to 64, and has no effect."
    #[test]
    fn u_has_no_effect() {
        for u in 1..=64 {
            for (now, settled) in [(9, 3), (14, 5), (256, 5)] {
                let answer = left(&samples::genesis(6, 1, u), now, 5);
                assert_eq!(answer, Ok(7 - settled), "u = {u}, now {now}");
            }
        }
        for u in [0, 65] {
            let answer = left(&samples::genesis(6, 1, u), 9, 5);
            assert_eq!(answer, Err(refusal(1)), "u = {u}");
        }
    }

    /// An entry whose order a block that is not settled has overtaken counts, is invalid, stays and takes room.
    #[test]
    fn counting_and_invalid() {
        let mut case = Case::good();
        (case.held, case.now) = (case.delivered.clone(), Slot(11));
        case.held_length = case.held.len();
        case.pool = Pool::of(&[]);
        let overtaken = entry(order(2, 44, 46), 7).of_depot(3);
        crowd(&mut case.pool, overtaken, 3, 16);
        case.order = order(2, 45, 46);
        let full = case.pool.clone();
        assert_eq!(drop(&mut case), None);
        assert_eq!(case.pool, full);
        samples::answers(
            Some(refusal(20)),
            "display 2 settled at 44",
            case.clone(),
            add,
        );
        case.now = Slot(14);
        assert_eq!(drop(&mut case), None);
        assert_eq!((case.pool.count, add(&mut case)), (0, None));
    }

    #[test]
    fn places_past_the_count_hold_zeros() {
        let spare = entry(order(u32::MAX, u64::MAX, LARGEST + 1), 0).of_depot(4);
        let mut pool = Pool {
            count: 2,
            entries: [spare; ROOM],
        };
        pool.entries[0] = old();
        pool.entries[1] = entry(order(2, 40, 41), 17);
        let kept = pool.entries[1];
        let new = order(0, 0, 1);
        let after = Pool::of(&[kept, entry(new, 20)]);
        assert_eq!(after.entries[63], entry(order(0, 0, 0), 0));
        assert_eq!(offered(&pool, new), Ok(after));
    }

    /// "20, the depot has 16 counting entries, after 14": whoever else has entries, and in whatever order they stand.
    #[test]
    fn room_of_a_depot() {
        for (asker, other) in DEPOTS.flat_map(|asker| DEPOTS.map(move |other| (asker, other))) {
            for others in (0..=16).filter(|others| asker != other || *others == 0) {
                let mut pool = Pool::of(&[]);
                crowd(&mut pool, counting(), other, others);
                crowd(&mut pool, counting(), asker, 15);
                let new = order(0, 0, 1);
                let after = offered_by(asker, &pool, new).unwrap();
                assert_eq!(after.count, others + 16);
                let next = order(0, 1, 2);
                assert_eq!(offered_by(asker, &after, next), Err(refusal(20)));
                assert_eq!(offered_by(asker, &after, new), Err(refusal(14)));
                let display = order(64, 0, 1);
                assert_eq!(offered_by(asker, &after, display), Err(refusal(5)));
            }
        }
    }

    /// 16 of each depot: 64 entries, and every offer meets 20 before it could meet 13.
    #[test]
    fn the_pool_is_full_only_where_each_depot_is() {
        let new = order(0, 0, 1);
        let full = in_turn(&[counting(); ROOM]);
        for (place, depot) in (0..ROOM).zip(DEPOTS.cycle()) {
            let pool = Pool::of(&full);
            assert_eq!(offered_by(depot, &pool, new), Err(refusal(20)));
            let mut rest = full.clone();
            rest.remove(place);
            let after = [&rest[..], &[entry(new, 20).of_depot(depot)]].concat();
            let pool = Pool::of(&rest);
            assert_eq!(offered_by(depot, &pool, new), Ok(Pool::of(&after)));
            let other = (depot + 1) % 4;
            assert_eq!(offered_by(other, &pool, new), Err(refusal(20)));
        }
    }

    /// "The dropped entries' room is thereby free", also the depot's.
    #[test]
    fn dropped_entries_take_no_room() {
        let new = order(0, 0, 1);
        let full = [counting(); 16];
        for place in [0, 7, 15] {
            let mut entries = full;
            entries[place] = old();
            let after = [&full[1..], &[entry(new, 20)]].concat();
            assert_eq!(offered(&Pool::of(&entries), new), Ok(Pool::of(&after)));
        }
        let all_old = [old(); ROOM];
        let after = Pool::of(&[entry(new, 20)]);
        assert_eq!(offered(&Pool::of(&all_old), new), Ok(after));
        let mut mixed = Pool::of(&all_old[..48]);
        crowd(&mut mixed, counting(), 0, 16);
        assert_eq!(offered(&mixed, new), Err(refusal(20)));
        assert_eq!(offered_by(1, &mixed, new).map(|pool| pool.count), Ok(17));
    }

    #[test]
    fn offered_depots() {
        for depot in [4, 5, 16, 256, u32::MAX] {
            let mut case = Case::good();
            case.depot = depot;
            samples::answers(Some(refusal(5)), "depot", case.clone(), add);
            case.order.display = 64;
            samples::answers(Some(refusal(5)), "depot and display", case.clone(), add);
            case.pool.count = 65;
            samples::answers(Some(refusal(18)), "bad pool", case, add);
        }
    }

    /// "Starting orders from the pool's state when the chain below has changed since."
    #[test]
    fn the_chain_below_decides() {
        let genesis = samples::table();
        let held = samples::good_chain(&genesis);
        let mut pool = Pool::of(&[entry(order(2, 40, 41), 19), entry(order(2, 41, 42), 19)]);
        let mut add = |held_length, new| {
            let now = Slot(20);
            add_order(&genesis, now, &held, held_length, &mut pool, new, 2).map(|()| pool.count)
        };
        assert_eq!(add(held.len(), order(2, 42, 43)), Err(refusal(14)));
        assert_eq!(add(0, order(2, 45, 46)), Err(refusal(14)));
        // after the first block the second entry is valid, the first no longer
        assert_eq!(add(samples::BLOCK, order(2, 42, 43)), Ok(3));
        assert_eq!(add(held.len(), order(2, 45, 46)), Ok(4));
    }

    /// 18 still judges the entry slots.
    #[test]
    fn the_clock_set_back() {
        let drop_at = |now| {
            let mut pool = Pool::of(&[entry(order(0, 0, 1), 7)]);
            drop_entries(&samples::table(), Slot(now), &[], 0, &mut pool).map(|()| pool.count)
        };
        assert_eq!(drop_at(6), Err(refusal(18)));
        assert_eq!(drop_at(7), Ok(1));
        assert_eq!(drop_at(256), Ok(1));
    }

    /// Entries that no longer count stay in their places.
    #[test]
    fn adding_drops_nothing() {
        let entries = [
            entry(order(2, 39, 41), 15),
            entry(order(3, 0, 7), 16).of_depot(1),
            entry(order(2, 0, 9), 1).of_depot(2),
        ];
        let pool = Pool::of(&entries);
        for bad in [order(2, 41, 42), order(2, 9, 10), order(3, 0, 1)] {
            assert_eq!(added_by(3, &pool, bad), Err(refusal(14)));
        }
        for good in [order(2, 40, 50), order(3, 7, 8)] {
            let new = entry(good, 20).of_depot(3);
            let after = [&entries[..], &[new]].concat();
            assert_eq!(added_by(3, &pool, good), Ok(Pool::of(&after)));
        }
        assert_eq!(dropped(&pool), Ok(Pool::of(&entries[1..2])));
    }

    /// Both leave zeros past the count, whatever came there.
    #[test]
    fn zeros_past_the_count() {
        let mut pool = Pool::of(&[counting(), old()]);
        let spare = entry(order(u32::MAX, u64::MAX, LARGEST + 1), 0).of_depot(4);
        pool.entries[2..].fill(spare);
        let new = order(0, 0, 1);
        let after = [counting(), old(), entry(new, 20).of_depot(1)];
        assert_eq!(added_by(1, &pool, new), Ok(Pool::of(&after)));
        assert_eq!(dropped(&pool), Ok(Pool::of(&after[..1])));
    }

    /// "Its full-pool and depot checks are over all entries present": 20, until the entries that no longer count are dropped.
    #[test]
    fn adding_counts_all_entries_present() {
        let new = order(0, 0, 1);
        for counting_ones in 0..16 {
            let mut pool = Pool::of(&[]);
            crowd(&mut pool, old(), 2, 16 - counting_ones);
            crowd(&mut pool, counting(), 2, counting_ones);
            assert_eq!(added_by(2, &pool, new), Err(refusal(20)));
            assert_eq!(added_by(2, &pool, order(0, 1, 2)), Err(refusal(14)));
            assert_eq!(added_by(0, &pool, new).map(|pool| pool.count), Ok(17));
            let cleared = dropped(&pool).unwrap();
            assert_eq!(cleared.count, counting_ones);
            let after = added_by(2, &cleared, new).map(|pool| pool.count);
            assert_eq!(after, Ok(counting_ones + 1));
        }
        let full = Pool::of(&in_turn(&[old(); ROOM]));
        for depot in DEPOTS {
            assert_eq!(added_by(depot, &full, new), Err(refusal(20)));
        }
    }

    /// "The first and then the second answer as the old call did, wherever that did not refuse. If the second refuses, the pool stays cleared": then
    /// with the old call's number.
    #[test]
    fn dropping_and_then_adding_is_the_old_call() {
        let mut chance = Chance::of_seed(12);
        for _ in 0..4_000 {
            let case = chance.issuing();
            let mut at_once = case.clone();
            let expected = at_once.add_order(drop_and_add);
            let mut apart = case.clone();
            if let Err(refused) = apart.drop_entries(drop_entries) {
                assert_eq!((expected, apart), (Err(refused), case));
                continue;
            }
            let cleared = apart.clone();
            assert_eq!(apart.add_order(add_order), expected);
            let after = if expected.is_ok() { at_once } else { cleared };
            assert_eq!(apart, after);
        }
    }

    /// "A dropped entry could not have become valid later in any chain that extends the settled blocks": no release falls on the way.
    #[test]
    fn no_dropped_entry_becomes_valid() {
        let mut chance = Chance::of_seed(13);
        let mut dropped = 0;
        for _ in 0..4_000 {
            let mut case = chance.issuing();
            let before = case.pool.clone();
            if drop(&mut case).is_some() {
                continue;
            }
            let mut releases = case.report(report::report).unwrap().releases;
            let counts = |entry: &&Entry| case.pool.entries.contains(entry);
            let (_, gone): (Vec<&Entry>, Vec<&Entry>) = before.entries[..before.count as usize]
                .iter()
                .partition(counts);
            dropped += gone.len();
            for _ in 0..10 {
                assert!(!gone.iter().any(|entry| valid(&entry.order, &releases)));
                let next = chance.order_at(&mut releases.clone());
                // no block has an order that can't be written
                if next.in_range() {
                    apply(&next, &mut releases);
                }
            }
        }
        assert!(dropped > 1_000, "{dropped}");
    }

    #[test]
    fn offered_displays() {
        for display in [64, 256, u32::MAX] {
            let mut case = Case::good();
            case.order = order(display, 0, 1);
            samples::answers(Some(refusal(5)), "display", case, add);
        }
    }

    /// Whether or not the display is there and the order would be valid: display 2 is at release 40, display 3 at the largest.
    #[test]
    fn offered_releases() {
        let mut table = samples::genesis(6, 1, 5);
        table.releases[3] = LARGEST;
        for above in [LARGEST + 1, (1 << 35) + 40, 1 << 36, u64::MAX] {
            for bad in [
                order(2, 40, above),
                order(2, above, 41),
                order(3, LARGEST, above),
                order(3, above, LARGEST),
                order(64, above, above),
            ] {
                let mut case = Case::good();
                (case.genesis, case.held_length) = (table.bytes(), 0);
                case.order = bad;
                samples::answers(Some(refusal(5)), "release", case, add);
            }
        }
    }

    /// From below 2^32 over it to the largest release, and no further.
    #[test]
    fn releases_of_35_bits() {
        let mut pool = Pool::of(&[]);
        let mut entries = Vec::new();
        for (expected, new) in [
            (40, u32::MAX.into()),
            (u32::MAX.into(), 1 << 32),
            (1 << 32, LARGEST),
        ] {
            let next = order(2, expected, new);
            pool = offered(&pool, next).unwrap();
            entries.push(entry(next, 20));
            assert_eq!(pool, Pool::of(&entries));
        }
        assert_eq!(offered(&pool, order(2, LARGEST, LARGEST)), Err(refusal(14)));
        assert_eq!(
            offered(&pool, order(2, LARGEST, LARGEST + 1)),
            Err(refusal(5))
        );
        assert_eq!(
            offered(&pool, order(2, LARGEST & 0xFFFF_FFFF, LARGEST)),
            Err(refusal(14))
        );
    }

    #[test]
    fn taken_orders_stop_at_the_limit() {
        let entries: Vec<Entry> = (0..10).map(|r| entry(order(0, r, r + 1), 1)).collect();
        let (orders, releases) = taken(&entries, [0; 64], 8);
        assert_eq!(orders.len(), 8);
        assert_eq!(releases[0], 8);
        let (orders, releases) = taken(&entries[1..], [0; 64], 8);
        assert!(orders.is_empty());
        assert_eq!(releases, [0; 64]);
    }

    #[test]
    fn bad_openings() {
        samples::refuses_bad_openings(add);
        samples::refuses_bad_openings(drop);
    }

    #[test]
    fn bad_held_chains() {
        samples::refuses_bad_held(add);
        samples::refuses_bad_held(drop);
    }

    /// "A depot with more than 16 entries, counting or not, is 18 for the adding call."
    #[test]
    fn bad_pools() {
        samples::refuses_bad_pools(add);
        samples::refuses_bad_pools(drop);
        samples::refuses_old_crowds(add);
        samples::takes_old_crowds(drop);
    }

    #[test]
    fn a_refusal_drops_nothing() {
        let mut case = Case::good();
        case.pool = Pool::of(&[old(), old()]);
        case.pool.entries[2] = entry(order(u32::MAX, u64::MAX, 7), 0);
        case.order = order(2, 39, 41);
        samples::answers(Some(refusal(14)), "old entries", case, add);
    }

    #[test]
    fn the_earliest_of_several_faults() {
        for faults in samples::adding_kinds() {
            samples::refuses_in_order(&faults, add);
        }
        for faults in samples::kinds(samples::dropping_faults()) {
            samples::refuses_in_order(&faults, drop);
        }
    }
}
