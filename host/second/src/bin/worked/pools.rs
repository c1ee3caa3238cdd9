//! Entries dropped from a pool, and orders added to it.
use second::genesis::Genesis;
use second::number::LARGEST;
use second::order::{Order, Release, Slot};
use second::pool::{self, Entry, Pool, ROOM};
use second::samples::{self, counting, entry, in_turn, old, order, BLOCK};
use second::{refusal, Refusal};

use crate::case::{boxed_case, refused, Case, Field, Op, Section};
use crate::faults::{at, bad_blocks, bad_openings, several, Arguments};

/// drop GENESIS NOW HELD LENGTH COUNT DISPLAY EXPECTED NEW SLOT DEPOT ..
pub struct Drop(pub Arguments);

impl Op for Drop {
    fn word(&self) -> &'static str {
        "drop"
    }

    fn fields(&self) -> Vec<Field> {
        let given = &self.0;
        let mut fields = vec![
            given.genesis[..].into(),
            given.now.0.into(),
            given.held[..].into(),
            given.held_length.into(),
        ];
        fields.extend(pool_fields(&given.pool));
        fields
    }

    fn answer(&self) -> String {
        let mut given = self.0.clone();
        let answer = given.drop_entries(pool::drop_entries);
        answer_text(answer, &given.pool)
    }
}

/// add GENESIS NOW HELD LENGTH DISPLAY EXPECTED NEW DEPOT COUNT DISPLAY EXPECTED NEW SLOT DEPOT ..
pub struct Add(pub Arguments);

impl Op for Add {
    fn word(&self) -> &'static str {
        "add"
    }

    fn fields(&self) -> Vec<Field> {
        let given = &self.0;
        let mut fields = vec![
            given.genesis[..].into(),
            given.now.0.into(),
            given.held[..].into(),
            given.held_length.into(),
            given.order.display.into(),
            given.order.expected.into(),
            given.order.new.into(),
            given.depot.into(),
        ];
        fields.extend(pool_fields(&given.pool));
        fields
    }

    fn answer(&self) -> String {
        let mut given = self.0.clone();
        let answer = given.add_order(pool::add_order);
        answer_text(answer, &given.pool)
    }
}

fn answer_text(answer: Result<(), Refusal>, pool: &Pool) -> String {
    match answer {
        Ok(()) => pool_text(pool),
        Err(refusal) => kept_text(refusal, pool),
    }
}

fn numbers(entry: &Entry) -> [u64; 5] {
    let Order {
        display,
        expected,
        new,
    } = entry.order;
    let slot = entry.slot.0.into();
    [display.into(), expected, new, slot, entry.depot.into()]
}

/// A pool's count, and its entries up to the last that is not of zeros.
pub fn pool_fields(pool: &Pool) -> impl Iterator<Item = Field> + '_ {
    let last = pool
        .entries
        .iter()
        .rposition(|entry| *entry != Entry::default());
    let listed = &pool.entries[..last.map_or(0, |last| last + 1)];
    let numbers = listed.iter().flat_map(numbers);
    let count = pool.count.into();
    [count].into_iter().chain(numbers).map(Field::from)
}

/// A pool as it is printed: past the count only entries that are not of zeros.
fn pool_text(pool: &Pool) -> String {
    let mut text = format!("pool {}", pool.count);
    for (place, entry) in pool.entries.iter().enumerate() {
        let within = place < pool.count as usize;
        if !within && *entry == Entry::default() {
            continue;
        }
        if !within {
            text += &format!(" past {place}");
        }
        for number in numbers(entry) {
            text += &format!(" {number}");
        }
    }
    text
}

fn kept_text(refusal: Refusal, pool: &Pool) -> String {
    format!("{} {}", refused(refusal), pool_text(pool))
}

/// One of the two ops on these arguments.
type Make = fn(Arguments) -> Box<dyn Op>;

const DROP: Make = |given| Box::new(Drop(given));
const ADD: Make = |given| Box::new(Add(given));

/// The pool is of these entries afterwards, with zeros past them.
fn leaves(make: Make, name: impl Into<String>, given: Arguments, after: &[Entry]) -> Case {
    boxed_case(name, make(given)).by_hand(pool_text(&Pool::of(after)))
}

/// The pool stays as it came.
fn keeps(make: Make, name: impl Into<String>, given: Arguments, refusal: Refusal) -> Case {
    let by_hand = kept_text(refusal, &given.pool);
    boxed_case(name, make(given)).by_hand(by_hand)
}

fn added(name: impl Into<String>, given: Arguments, after: &[Entry]) -> Case {
    leaves(ADD, name, given, after)
}

fn kept(name: impl Into<String>, given: Arguments, refusal: Refusal) -> Case {
    keeps(ADD, name, given, refusal)
}

/// The first release that 32 bits do not hold.
const ABOVE: Release = 1 << 32;

/// Offered by depot 0 at slot 20 to one who holds no blocks: display 2 is settled at release 40, the others at 0.
fn at_20(pool: Pool, order: Order) -> Arguments {
    Arguments {
        held: vec![],
        held_length: 0,
        pool,
        order,
        depot: 0,
        ..Arguments::good()
    }
}

/// The new order behind all of these entries.
fn behind(name: &str, entries: &[Entry], new: Order) -> Case {
    let after = [entries, &[entry(new, 20)]].concat();
    added(name, at_20(Pool::of(entries), new), &after)
}

fn refuses(name: &str, entries: &[Entry], new: Order, number: u32) -> Case {
    kept(name, at_20(Pool::of(entries), new), refusal(number))
}

/// Four entries for display 2, of which those that expect 40 or more count; and behind them what is past a count.
fn mixed() -> ([Entry; 4], Pool) {
    let entries = [
        entry(order(2, 39, 41), 20),
        entry(order(2, 40, 42), 1).of_depot(1),
        entry(order(2, 0, 43), 16).of_depot(2),
        entry(order(2, 42, 44), 20).of_depot(3),
    ];
    let mut spare = Pool::of(&entries);
    spare.entries[4..].fill(entry(order(u32::MAX, LARGEST + 1, u64::MAX), 0).of_depot(4));
    (entries, spare)
}

/// "One call drops the entries that no longer count", and leaves "zeros past the count".
fn dropped() -> Vec<Case> {
    let any = order(0, 0, 1);
    let (entries, spare) = mixed();
    let counting_ones = [entries[1], entries[3]];
    let drop = |name: &str, pool, after: &[Entry]| leaves(DROP, name, at_20(pool, any), after);
    let all = in_turn(&[counting(); ROOM]);
    vec![
        drop("a pool of no entries", Pool::of(&[]), &[]),
        drop("39, 40, 0, 42 expected", Pool::of(&entries), &counting_ones),
        drop(
            "the same, and entries past the count",
            spare,
            &counting_ones,
        ),
        drop("64 entries, all count", Pool::of(&all), &all),
        drop(
            "64 entries of one depot, none counts",
            Pool::of(&[old(); ROOM]),
            &[],
        ),
    ]
}

/// Entries of slot 1 that expect display 2 at 40 to 46, over the sample chain of a table: its stamps are 1, 3, 4, 6 and 9, and each block takes
/// display 2 one release on, from 40. So many blocks are settled.
fn over_the_chain(name: String, genesis: Genesis, now: u32, settled: usize) -> Case {
    let entries: Vec<Entry> = (40..47).map(|r| entry(order(2, r, r + 1), 1)).collect();
    let genesis = genesis.bytes();
    let held = samples::good_chain(&genesis);
    let given = Arguments {
        now: Slot(now),
        held_length: held.len(),
        held,
        genesis,
        ..at_20(Pool::of(&entries), order(0, 0, 1))
    };
    leaves(DROP, name, given, &entries[settled..])
}

/// "An entry now stops counting when its display's settled release is above the release that it expects, and not before", and "u .. has no effect".
fn settled() -> Vec<Case> {
    let mut cases = Vec::new();
    for (now, settled) in [(9, 3), (10, 3), (11, 4), (13, 4), (14, 5), (256, 5)] {
        let six = samples::genesis(6, 1, 5);
        cases.push(over_the_chain(format!("now {now}"), six, now, settled));
    }
    for (now, settled) in [(11, 0), (12, 1)] {
        let name = format!("n = 4, t = 1, now {now}");
        let four = samples::genesis(4, 1, 5);
        cases.push(over_the_chain(name, four, now, settled));
    }
    for u in [1, 64] {
        let six = samples::genesis(6, 1, u);
        cases.push(over_the_chain(format!("u = {u}, now 256"), six, 256, 5));
    }
    let back = Arguments {
        now: Slot(6),
        ..at_20(Pool::of(&[entry(order(0, 0, 1), 7)]), order(1, 0, 1))
    };
    let name = "slot 7, the clock set back to 6";
    cases.push(keeps(DROP, name, back, refusal(18)));
    cases
}

/// "The other only adds an order": entries that no longer count stay in their places, and take no effect.
fn only_added() -> Vec<Case> {
    let (entries, spare) = mixed();
    let new = order(2, 44, 45);
    let after = [&entries[..], &[entry(new, 20)]].concat();
    let only_old = order(2, 41, 42);
    vec![
        behind("a pool of no entries", &[], order(2, 40, 41)),
        behind("39, 40, 0, 42 expected", &entries, new),
        added(
            "the same, and entries past the count",
            at_20(spare.clone(), new),
            &after,
        ),
        kept(
            "the same, and an order that is not valid",
            at_20(spare, only_old),
            refusal(14),
        ),
        refuses(
            "valid only if an entry that no longer counts took effect",
            &[entries[0]],
            only_old,
            14,
        ),
    ]
}

/// "Valid after the held chain and then the counting entries in order, entries that are invalid at their place being skipped."
fn validity() -> Vec<Case> {
    let two = [entry(order(2, 40, 50), 20), entry(order(3, 0, 9), 20)];
    let above = [entry(order(3, 0, ABOVE), 20)];
    let mixed = [
        entry(order(2, 41, 42), 18),
        entry(order(2, 40, 41), 19),
        entry(order(2, 40, 99), 20),
        entry(order(5, 3, 3), 17),
        entry(order(5, 0, 3), 16),
    ];
    vec![
        behind("valid after a pooled one only", &two, order(2, 50, 51)),
        behind("to the largest release", &two, order(3, 9, LARGEST)),
        refuses(
            "9 in its lowest 32 bits",
            &two,
            order(3, ABOVE + 9, LARGEST),
            14,
        ),
        behind("to 4,294,967,296", &two, order(3, 9, ABOVE)),
        behind("from there on", &above, order(3, ABOVE, ABOVE + 1)),
        behind("another display", &two, order(63, 0, 1)),
        refuses("a pooled one makes it invalid", &two, order(2, 40, 41), 14),
        refuses("the same order again", &two, order(3, 0, 9), 14),
        refuses("new as expected", &two, order(2, 50, 50), 14),
        refuses("new below expected", &two, order(2, 50, 49), 14),
        refuses("expected too high", &two, order(0, 1, 2), 14),
        behind("entries that are skipped stay", &mixed, order(2, 41, 42)),
        refuses("after a skipped entry", &mixed, order(2, 42, 43), 14),
        refuses("after another one", &mixed, order(2, 99, 100), 14),
        behind("after the last", &mixed, order(5, 3, 4)),
    ]
}

/// "Starting orders from the pool's state when the chain below has changed since." Block i of the sample chain takes display 2 to 40 + i.
fn chain_below() -> Vec<Case> {
    let entries = [entry(order(2, 40, 41), 19), entry(order(2, 41, 42), 19)];
    let held = samples::good_chain(&samples::table());
    let mut cases = Vec::new();
    for (blocks, release) in [(0, 42), (1, 42), (2, 42), (3, 43), (5, 45)] {
        for expected in [release - 1, release] {
            let new = order(2, expected, 50);
            let given = Arguments {
                held: held.clone(),
                held_length: BLOCK * blocks,
                ..at_20(Pool::of(&entries), new)
            };
            let name = format!("{blocks} blocks held, {expected} expected");
            cases.push(match expected == release {
                true => added(name, given, &[&entries[..], &[entry(new, 20)]].concat()),
                false => kept(name, given, refusal(14)),
            });
        }
    }
    cases
}

/// A depot offers an order for display 0 behind these entries.
fn by_depot(depot: u32, entries: &[Entry]) -> Arguments {
    Arguments {
        depot,
        ..at_20(Pool::of(entries), order(0, 0, 1))
    }
}

/// It is added behind all of them.
fn room_for(name: &str, depot: u32, entries: &[Entry]) -> Case {
    let new = entry(order(0, 0, 1), 20).of_depot(depot);
    let after = [entries, &[new]].concat();
    added(name, by_depot(depot, entries), &after)
}

fn no_room_for(name: &str, depot: u32, entries: &[Entry], order: Order, number: u32) -> Case {
    let given = Arguments {
        order,
        ..by_depot(depot, entries)
    };
    kept(name, given, refusal(number))
}

/// 02: "20 .. after 14", "its full-pool and depot checks are over all entries present".
fn room() -> Vec<Case> {
    let new = order(0, 0, 1);
    let full = [counting(); 16];
    let of_two = full.map(|entry| entry.of_depot(2));
    let all = in_turn(&[counting(); ROOM]);
    let mut one_old = full;
    one_old[7] = old();
    let mixed = [&full[..], &[old()]].concat();
    vec![
        room_for("15 of depot 0", 0, &full[1..]),
        no_room_for("16 of depot 0", 0, &full, new, 20),
        no_room_for("16, one no longer counts", 0, &one_old, new, 20),
        no_room_for("16, none counts", 0, &[old(); 16], new, 20),
        room_for("16, none counts, depot 1 asks", 1, &[old(); 16]),
        no_room_for("17, one no longer counts", 1, &mixed, new, 18),
        no_room_for("17, none counts", 1, &[old(); 17], new, 18),
        room_for("16 of depot 2, depot 3 asks", 3, &of_two),
        room_for("16 of depot 2, depot 0 asks", 0, &of_two),
        no_room_for("16 of depot 2, it asks", 2, &of_two, new, 20),
        no_room_for("and is not valid", 2, &of_two, order(0, 1, 2), 14),
        no_room_for("and for display 64", 2, &of_two, order(64, 0, 1), 5),
        room_for("63 entries, 15 of depot 0", 0, &all[1..]),
        no_room_for("63 entries, 16 of depot 1", 1, &all[1..], new, 20),
        no_room_for("64 entries, 16 of depot 0", 0, &all, new, 20),
        no_room_for("64 entries, 16 of depot 3", 3, &all, new, 20),
    ]
}

/// 02: "a depot above 3 is .. 5 in an offer", whether or not the order would be valid.
fn depots() -> Vec<Case> {
    let one = [entry(order(2, 40, 41), 18)];
    let mut cases: Vec<Case> = [4, 256, u32::MAX]
        .map(|depot| {
            let name = format!("depot {depot}");
            no_room_for(&name, depot, &one, order(0, 0, 1), 5)
        })
        .into();
    let both = no_room_for("depot 4, display 64", 4, &one, order(64, 0, 1), 5);
    let invalid = no_room_for("depot 4, not valid", 4, &one, order(0, 1, 2), 5);
    cases.extend([both, invalid]);
    cases
}

fn displays() -> Vec<Case> {
    [64, 256, 257, u32::MAX]
        .map(|display| {
            let name = format!("display {display}");
            refuses(
                &name,
                &[entry(order(2, 40, 41), 18)],
                order(display, 0, 1),
                5,
            )
        })
        .into()
}

/// 02: "a release above the largest is 5 in an offer", whether or not it would be valid, and where the depot has no room.
fn releases() -> Vec<Case> {
    let one = [entry(order(2, 40, 41), 18)];
    let full = [counting(); 16];
    let large = LARGEST + 1;
    vec![
        refuses("expected 34,359,738,368", &one, order(2, large, 41), 5),
        refuses("new 34,359,738,368", &one, order(2, 41, large), 5),
        refuses("both", &one, order(2, large, large), 5),
        refuses("new 2^64 - 1", &one, order(2, 41, u64::MAX), 5),
        refuses("16 entries of the depot", &full, order(0, 0, large), 5),
    ]
}

/// Each with one of the two calls in turn.
fn bad_pools() -> Vec<Case> {
    samples::bad_pools()
        .into_iter()
        .zip([DROP, ADD].into_iter().cycle())
        .map(|((fault, pool), make)| keeps(make, fault, at_20(pool, order(1, 0, 1)), refusal(18)))
        .collect()
}

/// Openings and held chains that every call refuses, and the refusals.
pub fn bad_before_the_pool() -> Vec<(String, Arguments, Refusal)> {
    let mut bad: Vec<(String, Arguments, Refusal)> = bad_openings()
        .into_iter()
        .map(|(fault, given, number)| (fault, given, refusal(number)))
        .collect();
    for (fault, held, refused) in bad_blocks() {
        let given = Arguments {
            held_length: held.len(),
            held,
            ..Arguments::good()
        };
        bad.push((
            format!("held: {fault}"),
            given,
            at(17, refused.place as usize),
        ));
    }
    for (held, held_length) in samples::bad_lengths(&samples::table()) {
        let name = format!("length {held_length} of a buffer of {}", held.len());
        let given = Arguments {
            held,
            held_length,
            ..Arguments::good()
        };
        bad.push((name, given, refusal(17)));
    }
    bad
}

fn all_kept(make: Make, faults: Vec<(String, Arguments, Refusal)>) -> Vec<Case> {
    faults
        .into_iter()
        .map(|(name, given, refused)| keeps(make, name, given, refused))
        .collect()
}

fn dropping() -> Vec<Section> {
    let section = |title, cases| Section { title, cases };
    vec![
        section("Drop: entries that no longer count are gone", dropped()),
        section("Drop: what is settled decides what counts", settled()),
        section("Drop: 1, 2 and 17", all_kept(DROP, bad_before_the_pool())),
        section(
            "Drop: the earliest of several faults",
            all_kept(DROP, several(&samples::dropping_faults())),
        ),
    ]
}

fn adding() -> Vec<Section> {
    let section = |title, cases| Section { title, cases };
    vec![
        section("Add: entries that no longer count stay", only_added()),
        section("Add: valid where it would stand, or 14", validity()),
        section("Add: the chain below decides", chain_below()),
        section(
            "Add: 20 if the depot has 16 entries, counting or not",
            room(),
        ),
        section("Add: 5 for the depot that offers", depots()),
        section("Add: 5 for the display offered", displays()),
        section("Add: 5 for a release offered", releases()),
        section("Add: 1, 2 and 17", all_kept(ADD, bad_before_the_pool())),
        section(
            "Add: the earliest of several faults",
            all_kept(ADD, several(&samples::adding_faults())),
        ),
    ]
}

pub fn sections() -> Vec<Section> {
    let mut sections = dropping();
    sections.extend(adding());
    sections.push(Section {
        title: "Drop, Add: 18 for a bad pool",
        cases: bad_pools(),
    });
    sections
}
