//! Both implementations on every call, where one thing or two in a good case are wrong, and by chance: the same answers, the same bytes.
use std::collections::{BTreeMap, BTreeSet};

use second::chance::Chance;
use second::number::LARGEST;
use second::order::{Release, Slot};
use second::pool::{self, Entry, Pool};
use second::refusal;
use second::samples::{self, block, entry, order, Case, BLOCK, FILLER, STAMPS};
use trials::both::{self, CALLS};
use trials::rounds::{all_are_made, rounds};

/// Makes every call on copies of a case.
fn alike(case: &Case) {
    for call in &CALLS {
        (call.make)(&mut case.clone());
    }
}

/// A good case with short buffers, and entries past the pool's count.
fn good() -> Case {
    let mut case = Case::good();
    case.held.truncate(case.held_length + 200);
    case.buffer.truncate(120);
    case.pool.entries[1] = entry(order(2, 41, 42), 17);
    case.pool.entries[2] = entry(order(99, 7, 7), 99);
    case
}

/// The same, but display 2 goes on from a release of 35 bits, up to the largest: each takes five bytes.
fn large() -> Case {
    let start = LARGEST - 5;
    let mut table = samples::genesis(6, 1, 5);
    table.releases[2] = start;
    let genesis = table.bytes();
    let numbered = (start..).zip(STAMPS);
    let blocks: Vec<_> = numbered
        .map(|(release, slot)| block(slot, &[order(2, release, release + 1)]))
        .collect();
    let mut held = samples::chain(&genesis, &samples::empty_blocks(&[1, 3]));
    held.resize(held.len() + 200, FILLER);
    let mut pool = Pool::of(&[entry(order(2, start, start + 1), 18)]);
    pool.entries[1] = entry(order(2, LARGEST + 1, LARGEST + 1), 17);
    Case {
        held,
        delivered: samples::chain(&genesis, &blocks),
        pool,
        order: order(2, start + 1, LARGEST),
        genesis,
        ..good()
    }
}

/// Every call takes both, where the held chain has room for the delivered one.
#[test]
fn good_cases() {
    for mut case in [good(), large()] {
        case.held.resize(1_000, FILLER);
        for call in &CALLS {
            assert_eq!((call.make)(&mut case.clone()), None, "{}", call.name);
        }
    }
}

/// A part of a case that is bytes.
type Part = fn(&mut Case) -> &mut Vec<u8>;

const PARTS: [Part; 5] = [
    |case| &mut case.genesis,
    |case| &mut case.held,
    |case| &mut case.delivered,
    |case| &mut case.verdicts,
    |case| &mut case.buffer,
];

#[test]
fn cut_at_every_byte() {
    for base in [good(), large()] {
        for part in PARTS {
            for end in 0..part(&mut base.clone()).len() {
                let mut case = base.clone();
                part(&mut case).truncate(end);
                alike(&case);
            }
        }
    }
    let chain = samples::good_chain(&samples::table());
    for end in 0..=chain.len() {
        for at in [0, BLOCK, 4 * BLOCK, end] {
            let _ = both::read_block(&chain[..end], at);
            let _ = both::walk_step(&chain[..end], at);
        }
    }
    for end in 0..=good().genesis.len() {
        let _ = both::read_genesis(&good().genesis[..end]);
    }
}

/// Every clock reading in range and some beyond it, every length of the held chain, and every count of a pool.
#[test]
fn every_clock_length_and_count() {
    for now in (0..260).chain([511, 512, 65_556, u32::MAX]).map(Slot) {
        alike(&Case { now, ..good() });
    }
    for held_length in 0..good().held.len() + 2 {
        let case = Case {
            held_length,
            ..good()
        };
        alike(&case);
    }
    for count in 0..70 {
        let mut case = good();
        case.pool.count = count;
        alike(&case);
        let valid = case.pool.entries[1];
        case.pool.entries[2..].fill(valid);
        alike(&case);
        let depots = samples::in_turn(&case.pool.entries);
        case.pool.entries.copy_from_slice(&depots);
        alike(&case);
    }
}

/// The sample chain held at a station of every size, in the last slot and where one of its blocks begins to be settled: in the slot before and in
/// that slot. Of the pool's entries, which expect display 2 at 39 to 46, those count that expect what is settled or more.
#[test]
fn every_size_of_a_station() {
    let entries: Vec<Entry> = (39..47)
        .map(|release| entry(order(2, release, release + 1), 1))
        .collect();
    let sizes = (1..=31).flat_map(|n| (0..=(n - 1) / 3).map(move |t| (n, t)));
    for (n, t) in sizes {
        let table = samples::genesis(n, t, 5);
        let genesis = table.bytes();
        let held = samples::good_chain(&genesis);
        let ends = STAMPS.map(|stamp| stamp + table.depth());
        for now in ends.into_iter().flat_map(|end| [end, end + 1]).chain([256]) {
            let case = Case {
                genesis: genesis.clone(),
                now: Slot(now.min(256)),
                held: held.clone(),
                held_length: held.len(),
                delivered: held.clone(),
                pool: Pool::of(&entries),
                ..good()
            };
            alike(&case);
            // 17 where the clock is set back
            let Ok(report) = case.report(both::report) else {
                continue;
            };
            let settled = report.releases[2];
            let mut dropped = case.clone();
            dropped.drop_entries(both::drop_entries).unwrap();
            let left = entries
                .iter()
                .filter(|entry| entry.order.expected >= settled);
            let left: Vec<Entry> = left.copied().collect();
            assert_eq!(dropped.pool, Pool::of(&left), "n = {n}, t = {t}, now {now}");
        }
    }
}

/// The numbers of a case that have 32 bits, those of the pool's entries up to one past the count among them.
fn numbers(case: &mut Case) -> Vec<&mut u32> {
    let (order, pool) = (&mut case.order, &mut case.pool);
    let mut numbers = vec![
        &mut case.now.0,
        &mut case.controller,
        &mut order.display,
        &mut case.depot,
        &mut pool.count,
    ];
    for Entry { order, slot, depot } in &mut pool.entries[..2] {
        numbers.extend([&mut order.display, &mut slot.0, depot]);
    }
    numbers
}

/// The releases of a case, 64 bits each: offered, in the pool's entry, and in the one past its count.
fn releases(case: &mut Case) -> Vec<&mut Release> {
    let mut releases = vec![&mut case.order.expected, &mut case.order.new];
    for Entry { order, .. } in &mut case.pool.entries[..2] {
        releases.extend([&mut order.expected, &mut order.new]);
    }
    releases
}

/// Flips a bit of a case, all of whose arguments are taken as one row of bits. Past its end there is none to flip.
fn flip(case: &mut Case, bit: usize) -> Option<()> {
    let mut rest = bit;
    for part in [
        &mut case.genesis[..],
        &mut case.held,
        &mut case.delivered,
        &mut case.verdicts,
        &mut case.slot_signature,
        &mut case.block_signature,
    ] {
        if let Some(byte) = part.get_mut(rest / 8) {
            *byte ^= 1 << (rest % 8);
            return Some(());
        }
        rest -= 8 * part.len();
    }
    if rest < 64 {
        case.held_length ^= 1 << rest;
        return Some(());
    }
    rest -= 64;
    if let Some(release) = releases(case).get_mut(rest / 64) {
        **release ^= 1 << (rest % 64);
        return Some(());
    }
    rest -= 64 * releases(case).len();
    let mut numbers = numbers(case);
    **numbers.get_mut(rest / 32)? ^= 1 << (rest % 32);
    Some(())
}

/// Every bit of a case flipped, one after another: how many they are.
fn every_bit_flipped(good: &Case) -> usize {
    let mut bits = 0;
    let mut case = good.clone();
    while flip(&mut case, bits).is_some() {
        alike(&case);
        bits += 1;
        case = good.clone();
    }
    bits
}

#[test]
fn every_bit_and_two_bits_flipped() {
    for (seed, base) in [(8, good()), (9, large())] {
        let bits = every_bit_flipped(&base);
        assert!(bits > 14_000, "{bits}");
        let mut chance = Chance::of_seed(seed);
        for _ in 0..rounds(6_000) {
            let mut case = base.clone();
            for _ in 0..2 {
                flip(&mut case, chance.below(bits)).unwrap();
            }
            alike(&case);
        }
    }
}

/// Releases next to what 32 bits hold and to the largest.
const EDGES: [Release; 10] = [
    0,
    (1 << 32) - 1,
    1 << 32,
    (1 << 32) + 41,
    LARGEST - 4,
    LARGEST,
    LARGEST + 1,
    1 << 36,
    1 << 63,
    u64::MAX,
];

/// Two releases of a case at once, and each of them alone.
#[test]
fn releases_at_their_edges() {
    for base in [good(), large()] {
        for (first, second) in (0..6).flat_map(|first| (0..6).map(move |second| (first, second))) {
            for (one, other) in EDGES
                .iter()
                .flat_map(|one| EDGES.map(|other| (*one, other)))
            {
                let mut case = base.clone();
                *releases(&mut case)[first] = one;
                *releases(&mut case)[second] = other;
                alike(&case);
            }
        }
    }
}

/// What a release above the largest meets, by its place in `releases`: 5 if it is offered, 18 in the pool, and past its count nothing.
#[test]
fn releases_above_the_largest() {
    let met = [Some(5), Some(5), Some(18), Some(18), None, None];
    let with_pool = CALLS.iter().filter(|call| call.refusals.contains(&18));
    for call in with_pool {
        for (place, met) in met.into_iter().enumerate() {
            let met = met.filter(|number| call.refusals.contains(number));
            for above in [LARGEST + 1, 1 << 36, 1 << 63, u64::MAX] {
                let mut case = large();
                *releases(&mut case)[place] = above;
                let refused = (call.make)(&mut case).map(|refused| refused.number);
                assert_eq!(refused, met, "{}: {place}", call.name);
            }
        }
    }
}

/// The depots of a case: of the offer, of the pool's entry, and of the one past its count.
fn depots(case: &mut Case) -> [&mut u32; 3] {
    let [first, past, ..] = &mut case.pool.entries;
    [&mut case.depot, &mut first.depot, &mut past.depot]
}

/// What a depot above 3 meets, by its place in `depots`: 5 if it offers, 18 in the pool, and past its count nothing.
#[test]
fn depots_above_3() {
    let met = [Some(5), Some(18), None];
    let with_pool = CALLS.iter().filter(|call| call.refusals.contains(&18));
    for call in with_pool {
        for (place, met) in met.into_iter().enumerate() {
            let met = met.filter(|number| call.refusals.contains(number));
            for depot in [0, 1, 2, 3, 4, 5, 7, 8, 255, 256, 1 << 31, u32::MAX] {
                let mut case = large();
                *depots(&mut case)[place] = depot;
                let refused = (call.make)(&mut case).map(|refused| refused.number);
                assert_eq!(refused, met.filter(|_| depot > 3), "{}: {depot}", call.name);
            }
        }
    }
}

/// A pool in which the asker's depot and another have so many entries, half of which no longer count, or none.
fn crowded(asker: u32, own: usize, others: usize, old: bool) -> Pool {
    let of = |depot: u32| samples::counting().of_depot(depot);
    let mut entries = vec![of(asker); own];
    for place in 0..others {
        entries.insert(place * own / others.max(1), of((asker + 1) % 4));
    }
    for entry in entries.iter_mut().step_by(2).filter(|_| old) {
        *entry = samples::old().of_depot(entry.depot);
    }
    Pool::of(&entries)
}

/// The most of the entries that count, which are for display 9, that are one depot's.
fn most_counting(pool: &Pool) -> usize {
    let counting = |entry: &&Entry| entry.order.display == 9;
    let of = |depot| move |entry: &&Entry| entry.depot == depot;
    let count = |depot| {
        pool.entries
            .iter()
            .filter(counting)
            .filter(of(depot))
            .count()
    };
    (0..4).map(count).fold(0, usize::max)
}

/// Up to 20 entries of the asker's depot and of another, all counting and half of them. Adding: 18 exactly if one has more than 16, and then 20
/// exactly if the asker's has 16, whatever the other has, and whether or not they count. Every other call: 18 exactly if more than 16 of one count.
#[test]
fn crowded_depots() {
    for (own, others) in (0..=20).flat_map(|own| (0..=20).map(move |others| (own, others))) {
        for (asker, old) in [(0, false), (3, false), (2, true)] {
            let mut case = Case {
                order: order(2, 40, 41),
                depot: asker,
                pool: crowded(asker, own, others, old),
                ..good()
            };
            alike(&case);
            let added = case.clone().add_order(both::add_order);
            let expected = match own.max(others) {
                17.. => Err(refusal(18)),
                _ if own == 16 => Err(refusal(20)),
                _ => Ok(()),
            };
            assert_eq!(added, expected, "{own} and {others}");
            let counting = most_counting(&case.pool);
            let dropped = case.drop_entries(both::drop_entries);
            assert_eq!(dropped.is_err(), counting > 16, "{own} and {others}");
        }
    }
}

/// "The first and then the second answer as the old call did, wherever that did not refuse. If the second refuses, the pool stays cleared": and then
/// with the old call's number.
#[test]
fn dropping_and_then_adding_is_the_old_call() {
    let mut chance = Chance::of_seed(12);
    let mut met = BTreeSet::new();
    for _ in 0..rounds(12_000) {
        let mut case = chance.issuing();
        let mut at_once = case.clone();
        let expected = at_once.add_order(pool::drop_and_add);
        if let Err(refused) = case.drop_entries(both::drop_entries) {
            assert_eq!(expected, Err(refused));
            continue;
        }
        let cleared = case.pool.clone();
        assert_eq!(case.add_order(both::add_order), expected);
        let after = expected.map_or(cleared, |()| at_once.pool);
        assert_eq!(case.pool, after);
        met.insert(expected.map_or_else(|refused| refused.number, |()| 0));
    }
    let expected = BTreeSet::from([0, 5, 14, 20]);
    assert!(!all_are_made() || met == expected, "{met:?}");
}

/// Each call meets each of its refusals, and no other.
#[test]
fn every_refusal_by_chance() {
    let mut chance = Chance::of_seed(9);
    let mut met = CALLS.map(|_| BTreeSet::new());
    for _ in 0..rounds(12_000) {
        let case = chance.issuing();
        for (call, met) in CALLS.iter().zip(&mut met) {
            met.extend((call.make)(&mut case.clone()).map(|refused| refused.number));
        }
    }
    for (call, met) in CALLS.iter().zip(met) {
        let expected: BTreeSet<u32> = call.refusals.iter().copied().collect();
        assert!(met.is_subset(&expected), "{}: {met:?}", call.name);
        assert!(!all_are_made() || met == expected, "{}: {met:?}", call.name);
    }
}

/// What a case by chance shows of releases that have more than 32 bits.
#[derive(Debug, PartialEq, Eq, PartialOrd, Ord)]
enum Shown {
    /// Pooled.
    Taken,
    /// 5, and the display is there.
    Offered,
    /// 18, and nothing else is wrong with the pool.
    Pooled,
    /// A release above the largest past the pool's count, which does no harm.
    PastTheCount,
}

fn shown(mut case: Case) -> Option<Shown> {
    let (order, depot, now, pool) = (case.order, case.depot, case.now, case.pool.clone());
    let met = case
        .add_order(both::add_order)
        .map_err(|refused| refused.number);
    let (within, past) = pool.entries.split_at_checked(pool.count as usize)?;
    let placed = |entry: &Entry| entry.order.display < 64 && (Slot(1)..=now).contains(&entry.slot);
    let large = |entry: &Entry| placed(entry) && !entry.order.in_range();
    match met {
        Err(5) if order.display < 64 && depot < 4 => Some(Shown::Offered),
        Err(18) if within.iter().all(placed) && within.iter().any(large) => Some(Shown::Pooled),
        Ok(()) if past.iter().any(|entry| !entry.order.in_range()) => Some(Shown::PastTheCount),
        Ok(()) if order.new > u32::MAX.into() => Some(Shown::Taken),
        _ => None,
    }
}

#[test]
fn large_releases_by_chance() {
    let mut chance = Chance::of_seed(10);
    let met: BTreeSet<Shown> = (0..rounds(12_000))
        .filter_map(|_| shown(chance.issuing()))
        .collect();
    assert!(!all_are_made() || met.len() == 4, "{met:?}");
}

/// What a case by chance shows of depots.
#[derive(Debug, PartialEq, Eq, PartialOrd, Ord)]
enum Crowd {
    /// Added, and the depot has 16 entries then.
    Last,
    /// 20.
    Full,
    /// 20, and it is not met once the pool is cleared.
    FullOfOld,
    /// 18, and each entry by itself is good.
    Bad,
    /// 18 of adding alone, likewise.
    BadByOld,
    /// 5, and the order by itself is good.
    Unknown,
}

/// The number that adding meets.
fn added(mut case: Case) -> (Option<u32>, Pool) {
    let refused = case.add_order(both::add_order).err();
    (refused.map(|refused| refused.number), case.pool)
}

fn crowd(case: Case) -> Option<Crowd> {
    let good = |entry: &Entry| {
        entry.order.in_range() && entry.depot < 4 && (Slot(1)..=case.now).contains(&entry.slot)
    };
    let within = case.pool.entries.get(..case.pool.count as usize)?;
    let all_good = within.iter().all(good);
    let mut cleared = case.clone();
    let dropped = cleared.drop_entries(both::drop_entries);
    let own = |entry: &&Entry| entry.depot == case.depot && entry.slot > Slot(0);
    match added(case.clone()) {
        (None, pool) if pool.entries.iter().filter(own).count() == 16 => Some(Crowd::Last),
        (Some(20), _) if added(cleared).0 == Some(20) => Some(Crowd::Full),
        (Some(20), _) => Some(Crowd::FullOfOld),
        (Some(18), _) if all_good && dropped.is_ok() => Some(Crowd::BadByOld),
        (Some(18), _) if all_good => Some(Crowd::Bad),
        (Some(5), _) if case.order.in_range() => Some(Crowd::Unknown),
        _ => None,
    }
}

#[test]
fn crowded_depots_by_chance() {
    let mut chance = Chance::of_seed(11);
    let mut met = BTreeMap::new();
    for _ in 0..rounds(12_000) {
        if let Some(crowd) = crowd(chance.issuing()) {
            *met.entry(crowd).or_insert(0) += 1;
        }
    }
    let often = met.len() == 6 && met.values().all(|count| *count > 20);
    assert!(!all_are_made() || often, "{met:?}");
}
