//! The next block: drafted, as the text that a host signs, and appended.
use second::block::Block;
use second::issue;
use second::number::LARGEST;
use second::order::{Order, Release, Slot};
use second::pool::{Entry, Pool};
use second::samples::{self, entry, in_turn, old, order, BLOCK, FILLER, LONG_START};
use second::{refusal, sha256, Refusal};

use crate::case::{bytes_text, case, refused, told, Case, Field, Op, Section};
use crate::faults::{several, stamped, Arguments};
use crate::pools::{bad_before_the_pool, pool_fields};

#[derive(Clone, Copy, PartialEq)]
pub enum Call {
    Draft,
    Text,
    Append,
}

pub const CALLS: [Call; 3] = [Call::Draft, Call::Text, Call::Append];

/// draft or text GENESIS NOW HELD LENGTH CONTROLLER SLOT-SIGNATURE BUFFER COUNT DISPLAY EXPECTED NEW SLOT DEPOT ..
/// append GENESIS NOW BUFFER LENGTH CONTROLLER SLOT-SIGNATURE BLOCK-SIGNATURE COUNT DISPLAY EXPECTED NEW SLOT DEPOT ..
pub struct Issuing(pub Call, pub Arguments);

impl Issuing {
    /// The buffer that the call writes to.
    fn lent<'a>(&self, given: &'a Arguments) -> &'a [u8] {
        match self.0 {
            Call::Append => &given.held,
            _ => &given.buffer,
        }
    }
}

impl Op for Issuing {
    fn word(&self) -> &'static str {
        match self.0 {
            Call::Draft => "draft",
            Call::Text => "text",
            Call::Append => "append",
        }
    }

    fn fields(&self) -> Vec<Field> {
        let given = &self.1;
        let mut fields = vec![
            given.genesis[..].into(),
            given.now.0.into(),
            given.held[..].into(),
            given.held_length.into(),
            given.controller.into(),
            given.slot_signature[..].into(),
            match self.0 {
                Call::Append => given.block_signature[..].into(),
                _ => given.buffer[..].into(),
            },
        ];
        fields.extend(pool_fields(&given.pool));
        fields
    }

    fn answer(&self) -> String {
        let mut given = self.1.clone();
        let answer = match self.0 {
            Call::Draft => given.write(issue::draft),
            Call::Text => given.write(issue::block_text),
            Call::Append => given.append(issue::append),
        };
        let answer = told(answer, |length| format!("length {length}"));
        format!("{answer} {}", bytes_text(self.lent(&given)))
    }
}

/// The block of these orders is written, linked to these bytes: its front, `block` and its front, or behind the held chain the whole. Every
/// other byte stays.
fn written(call: Call, name: &str, given: &Arguments, before: &[u8], orders: &[Order]) -> Case {
    let block = Block {
        link: sha256::digest(before).unwrap(),
        orders: orders.to_vec(),
        slot: given.now,
        slot_signature: given.slot_signature,
        block_signature: given.block_signature,
    };
    let whole = block.bytes();
    let front = &whole[..whole.len() - 64];
    let (place, bytes) = match call {
        Call::Draft => (0, front.to_vec()),
        Call::Text => (0, [b"block", front].concat()),
        Call::Append => (given.held_length, whole),
    };
    let op = Issuing(call, given.clone());
    let mut lent = op.lent(given).to_vec();
    let length = place + bytes.len();
    lent[place..length].copy_from_slice(&bytes);
    let name = format!("{}: {name}", op.word());
    case(name, op).by_hand(format!("length {length} {}", bytes_text(&lent)))
}

fn issued(name: &str, given: &Arguments, before: &[u8], orders: &[Order]) -> [Case; 3] {
    CALLS.map(|call| written(call, name, given, before, orders))
}

/// Every byte stays.
fn kept(call: Call, name: &str, given: &Arguments, refusal: Refusal) -> Case {
    let op = Issuing(call, given.clone());
    let by_hand = format!("{} {}", refused(refusal), bytes_text(op.lent(given)));
    let name = format!("{}: {name}", op.word());
    case(name, op).by_hand(by_hand)
}

fn all_kept(name: &str, given: &Arguments, refusal: Refusal) -> [Case; 3] {
    CALLS.map(|call| kept(call, name, given, refusal))
}

/// At slot 20, controller 2's turn, behind two blocks without orders, which are settled: display 2 is at release 40, the others at 0.
fn pooled(entries: &[Entry]) -> Arguments {
    let mut given = Arguments {
        pool: Pool::of(entries),
        ..Arguments::good()
    };
    given.held.truncate(given.held_length + 260);
    given.buffer.truncate(260);
    given
}

/// The orders that are taken of these entries.
fn taken(name: &str, entries: &[Entry], orders: &[Order]) -> [Case; 3] {
    let given = pooled(entries);
    let before = given.held[162..324].to_vec();
    issued(name, &given, &before, orders)
}

fn none_taken() -> Vec<Case> {
    let invalid = entry(order(2, 41, 42), 20);
    let old = old();
    let mut first = pooled(&[]);
    (first.held, first.held_length) = (vec![FILLER; 170], 0);
    let genesis = first.genesis.clone();
    [
        taken("a pool of no entries", &[], &[]),
        taken("no entry is valid", &[invalid; 3], &[]),
        taken("no entry counts", &[old; 3], &[]),
        taken("neither", &[old, invalid, old], &[]),
        taken("64 of one depot, none counts", &[old; 64], &[]),
        issued("the first block", &first, &genesis, &[]),
    ]
    .into_iter()
    .flatten()
    .collect()
}

fn some_taken() -> Vec<Case> {
    let mixed = [
        entry(order(2, 41, 42), 20),
        entry(order(2, 39, 41), 15),
        entry(order(2, 40, 43), 1),
        entry(order(7, 0, 5), 18),
        entry(order(2, 43, 43), 18),
        entry(order(2, 43, 44), 17),
    ];
    let orders = [order(2, 40, 43), order(7, 0, 5), order(2, 43, 44)];
    let each: Vec<Entry> = (0..64)
        .map(|display| entry(order(display, 0, 1), 20))
        .collect();
    let each = in_turn(&each);
    let first = [0, 1, 3, 4, 5, 6, 7, 8].map(|display| order(display, 0, 1));
    let mut spare = pooled(&mixed);
    spare.pool.entries[6..].fill(entry(order(u32::MAX, LARGEST + 1, u64::MAX), 0).of_depot(4));
    let before = spare.held[162..324].to_vec();
    let large_orders = [order(2, 40, 1 << 32), order(2, 1 << 32, LARGEST)];
    let large = large_orders.map(|order| entry(order, 20));
    let rising: Vec<Entry> = (40..49).map(|r| entry(order(2, r, r + 1), 20)).collect();
    let rising_orders: Vec<Order> = (40..48).map(|r| order(2, r, r + 1)).collect();
    [
        taken("one order", &[entry(order(2, 40, 41), 18)], &orders_of(40)),
        taken("old and invalid ones between", &mixed, &orders),
        issued("entries past the count", &spare, &before, &orders),
        taken("7 valid ones, and one that is not", &each[..8], &first[..7]),
        taken("8 valid ones", &each[..9], &first),
        taken("9 valid ones, 8 taken", &each[..10], &first),
        taken("64 entries, 8 taken", &each, &first),
        taken("9, each valid after another", &rising, &rising_orders),
        taken("to the largest release", &large, &large_orders),
    ]
    .into_iter()
    .flatten()
    .collect()
}

fn orders_of(release: Release) -> [Order; 1] {
    [order(2, release, release + 1)]
}

/// "Starting orders from the pool's state when the chain below has changed since." Block i of the sample chain takes display 2 to 40 + i.
fn chain_below() -> Vec<Case> {
    let orders: Vec<Order> = (40..43).map(|r| order(2, r, r + 1)).collect();
    let entries: Vec<Entry> = orders.iter().map(|order| entry(*order, 18)).collect();
    let genesis = samples::table();
    let chain = samples::good_chain(&genesis);
    let mut cases = Vec::new();
    for blocks in [0, 1, 2, 3, 5] {
        let length = BLOCK * blocks;
        let mut given = pooled(&entries);
        given.held = [&chain[..length], &[FILLER; 180]].concat();
        given.held_length = length;
        let before = match blocks {
            0 => &genesis[..],
            _ => &chain[length - BLOCK..length],
        };
        let name = format!("{blocks} blocks held");
        cases.extend(issued(&name, &given, before, &orders[blocks.min(3)..]));
    }
    cases
}

fn turns() -> Vec<Case> {
    let mut cases = Vec::new();
    for (now, turn) in [(18, 6), (19, 1), (20, 2), (21, 3), (256, 4)] {
        let mut given = pooled(&[]);
        given.now = Slot(now);
        given.controller = turn;
        let before = given.held[162..324].to_vec();
        let name = format!("controller {turn} in slot {now}");
        cases.extend(issued(&name, &given, &before, &[]));
    }
    for controller in [0, 1, 3, 7, 8, 258, u32::MAX] {
        let mut given = pooled(&[]);
        given.controller = controller;
        let name = format!("controller {controller} in slot 20");
        cases.extend(all_kept(&name, &given, refusal(12)));
    }
    cases
}

fn stamps() -> Vec<Case> {
    let mut cases = Vec::new();
    for last in [19, 20] {
        let chain = stamped(&[1, last]);
        let mut given = pooled(&[]);
        given.held = [&chain[..], &[FILLER; 170]].concat();
        given.held_length = chain.len();
        let name = format!("the held chain ends at {last}, now 20");
        cases.extend(match last {
            19 => issued(&name, &given, &chain[162..], &[]),
            _ => all_kept(&name, &given, refusal(6)),
        });
    }
    cases
}

/// One order of three bytes: 165 bytes, 101 without the last 64, and 106 with the letters.
fn rooms() -> Vec<Case> {
    let mut cases = Vec::new();
    for (call, exact) in CALLS.into_iter().zip([101, 106, 324 + 165]) {
        for room in [exact + 1, exact, exact - 1, exact - 64, exact - 101] {
            let mut given = pooled(&[entry(order(2, 40, 41), 18)]);
            match call {
                Call::Append => given.held.truncate(room),
                _ => given.buffer.truncate(room),
            }
            let name = format!("{room} bytes");
            let before = given.held[162..324].to_vec();
            cases.push(match room >= exact {
                true => written(call, &name, &given, &before, &orders_of(40)),
                false => kept(call, &name, &given, refusal(15)),
            });
        }
    }
    cases
}

/// Behind a block in every slot but the last, each as long as it can be, one more of that length.
fn longest() -> Vec<Case> {
    let (genesis, chain) = samples::longest_chain(256);
    let release = LONG_START + 255;
    let orders: Vec<Order> = (0..9).map(|d| order(d, release, release + 1)).collect();
    let entries: Vec<Entry> = orders.iter().map(|order| entry(*order, 256)).collect();
    let length = chain.len() - 251;
    let mut held = chain.clone();
    held[length..].fill(FILLER);
    let mut given = Arguments {
        genesis,
        now: Slot(256),
        controller: 1,
        held,
        held_length: length,
        ..pooled(&entries)
    };
    let before = &chain[length - 251..length];
    let name = "64,129 bytes afterwards";
    let fits = written(Call::Append, name, &given, before, &orders[..8]);
    given.held.pop();
    let short = kept(Call::Append, "a byte fewer", &given, refusal(15));
    vec![fits, short]
}

/// Each fault with one of the three calls in turn.
fn one_each(faults: Vec<(String, Arguments, Refusal)>) -> Vec<Case> {
    let calls = CALLS.into_iter().cycle();
    faults
        .into_iter()
        .zip(calls)
        .map(|((name, given, refused), call)| kept(call, &name, &given, refused))
        .collect()
}

fn bad_pools() -> Vec<Case> {
    let pools = samples::bad_pools().into_iter();
    let faults = pools.map(|(fault, pool)| {
        let given = Arguments {
            pool,
            ..pooled(&[])
        };
        (fault, given, refusal(18))
    });
    one_each(faults.collect())
}

fn several_faults() -> Vec<Case> {
    several(&samples::issuing_faults())
        .into_iter()
        .flat_map(|(name, given, refused)| all_kept(&name, &given, refused))
        .collect()
}

pub fn sections() -> Vec<Section> {
    let section = |title, cases| Section { title, cases };
    vec![
        section("Issuing: no order is taken", none_taken()),
        section(
            "Issuing: each entry valid at its point, until 8",
            some_taken(),
        ),
        section("Issuing: the chain below decides", chain_below()),
        section("Issuing: the controller's turn, or 12", turns()),
        section("Issuing: one block in a slot, or 6", stamps()),
        section("Issuing: buffers, and 15 if one is too short", rooms()),
        section("Issuing: the longest chain", longest()),
        section("Issuing: 18 for a bad pool", bad_pools()),
        section("Issuing: 1, 2 and 17", one_each(bad_before_the_pool())),
        section("Issuing: the earliest of several faults", several_faults()),
    ]
}
