//! Every call made by both implementations on the same arguments. They must answer alike and leave the same bytes in every lent buffer and in
//! the pool. Where they differ, a panic tells the case, and which answer is whose. The answer is the proved one's.
use std::fmt::{self, Debug, Formatter};
use std::ptr;

use crate::proved;
use ledger::Genesis as Table;
use second::block::{self, Block};
use second::calls::Calls;
use second::genesis::{self, Genesis};
use second::issue::{self, Issue};
use second::order::{BlockCount, Order, Release, Releases, Slot};
use second::pool::{self, Pool};
use second::report::{self, Report};
use second::samples::Case;
use second::{adopt, chain, manifest, number, refusal, sha256, walk, Refusal};

type Answer<T> = Result<T, Refusal>;

/// The arguments of a call by their names, as they were before it.
type Given<'a> = &'a [(&'a str, &'a dyn Debug)];

/// Bytes, shown as hexadecimal digits.
#[derive(PartialEq)]
struct Hex<'a>(&'a [u8]);

impl Debug for Hex<'_> {
    fn fmt(&self, f: &mut Formatter) -> fmt::Result {
        self.0.iter().try_for_each(|byte| write!(f, "{byte:02x}"))
    }
}

/// What issuing takes, with its bytes so.
struct Issuing<'a>(&'a Issue<'a>);

impl Debug for Issuing<'_> {
    fn fmt(&self, f: &mut Formatter) -> fmt::Result {
        f.debug_struct("Issue")
            .field("genesis", &Hex(self.0.genesis))
            .field("now", &self.0.now)
            .field("pool", &self.0.pool)
            .field("controller", &self.0.controller)
            .field("slot_signature", &Hex(&self.0.slot_signature))
            .finish()
    }
}

/// Sees that both answer alike.
fn same<T: PartialEq + Debug>(call: &str, given: Given, proved: T, second: T) {
    if proved == second {
        return;
    }
    let given: Vec<String> = given
        .iter()
        .map(|(name, value)| format!("{name}: {value:?}"))
        .collect();
    panic!(
        "{call} differs\n{}\nthe proved library answers {proved:?}\nthe second implementation answers {second:?}",
        given.join("\n")
    );
}

/// Has both write into a buffer.
fn written(
    call: &str,
    given: Given,
    buffer: &mut [u8],
    first: impl FnOnce(&mut [u8]) -> Answer<usize>,
    other: impl FnOnce(&mut [u8]) -> Answer<usize>,
) -> Answer<usize> {
    let before = buffer.to_vec();
    let mut other_buffer = buffer.to_vec();
    let answer = first(buffer);
    let other = other(&mut other_buffer);
    let before = Hex(&before);
    let given = [given, &[("buffer", &before)]].concat();
    same(
        call,
        &given,
        (answer, Hex(buffer)),
        (other, Hex(&other_buffer)),
    );
    answer
}

/// What stands from a place on.
fn from(bytes: &[u8], at: usize) -> &[u8] {
    bytes.get(at..).unwrap_or(&[])
}

pub fn read_number(bytes: &[u8], at: usize) -> Answer<(u64, usize)> {
    let answer = proved::read_number(bytes, at);
    let other = number::read(from(bytes, at)).map(|(value, length)| (value, at + length));
    same(
        "read number",
        &[("bytes", &Hex(bytes)), ("at", &at)],
        answer,
        other,
    );
    answer
}

pub fn write_number(value: u64, buffer: &mut [u8], at: usize) -> Answer<usize> {
    written(
        "write number",
        &[("value", &value), ("at", &at)],
        buffer,
        |buffer| proved::write_number(value, buffer, at),
        |buffer| number::write(value, buffer, at).map(|length| at + length),
    )
}

pub fn digest(message: &[u8]) -> Answer<[u8; 32]> {
    let answer = proved::digest(message);
    same(
        "digest",
        &[("message", &Hex(message))],
        answer,
        sha256::digest(message),
    );
    answer
}

/// Reads a table, and sees that its keys, turns and depth are alike too.
pub fn read_genesis(bytes: &[u8]) -> Answer<Table> {
    let answer = proved::read_genesis(bytes);
    let other = genesis::read(bytes);
    let given: Given = &[("genesis", &Hex(bytes))];
    let told = answer.map(|table| Told::of(&table, bytes));
    same(
        "read genesis",
        given,
        told,
        other
            .as_ref()
            .map(Told::of_other)
            .map_err(|refused| *refused),
    );
    for controller in (0..=32).chain([u32::MAX]) {
        let key = proved::key(bytes, controller).copied();
        let other = other
            .as_ref()
            .map_err(|refused| *refused)
            .and_then(|table| other_key(table, controller));
        same("key", &[given[0], ("controller", &controller)], key, other);
    }
    answer
}

/// What a table says.
#[derive(Debug, PartialEq)]
struct Told {
    numbers: [u32; 3],
    releases: Releases,
    keys: Vec<u8>,
    turns: Vec<u32>,
    depth: u64,
}

impl Told {
    const SLOTS: [Slot; 7] = [
        Slot(1),
        Slot(2),
        Slot(7),
        Slot(31),
        Slot(256),
        Slot(257),
        Slot(u32::MAX),
    ];

    fn of(table: &Table, bytes: &[u8]) -> Told {
        Told {
            numbers: [table.n, table.t, table.u],
            releases: table.releases,
            keys: bytes[table.keys_at..].to_vec(),
            turns: Told::SLOTS.map(|slot| proved::turn(table, slot)).to_vec(),
            depth: table.depth(),
        }
    }

    fn of_other(table: &Genesis) -> Told {
        Told {
            numbers: [table.n, table.t, table.u],
            releases: table.releases,
            keys: table.keys.as_flattened().to_vec(),
            turns: Told::SLOTS.map(|slot| table.turn(slot)).to_vec(),
            depth: table.depth().into(),
        }
    }
}

/// A controller's key in the second implementation's table.
fn other_key(table: &Genesis, controller: u32) -> Answer<[u8; 32]> {
    let place = controller.checked_sub(1).ok_or(refusal(12))?;
    table.keys.get(place as usize).copied().ok_or(refusal(12))
}

pub fn read_block(bytes: &[u8], at: usize) -> Answer<(Block, usize)> {
    let answer = proved::read_block(bytes, at);
    let other = block::read(from(bytes, at)).map(|(block, length)| (block, at + length));
    same(
        "read block",
        &[("bytes", &Hex(bytes)), ("at", &at)],
        &answer,
        &other,
    );
    answer
}

pub fn write_block(block: &Block, buffer: &mut [u8], at: usize) -> Answer<usize> {
    written(
        "write block",
        &[("block", &Hex(&block.bytes())), ("at", &at)],
        buffer,
        |buffer| proved::write_block(block, buffer, at),
        |buffer| block::write(block, buffer, at).map(|length| at + length),
    )
}

pub fn slot_text(slot: Slot, buffer: &mut [u8]) -> Answer<usize> {
    written(
        "slot text",
        &[("slot", &slot)],
        buffer,
        |buffer| proved::slot_text(slot, buffer),
        |buffer| block::slot_text(slot, buffer),
    )
}

pub fn walk_step(chain: &[u8], at: usize) -> Answer<Option<(Block, usize)>> {
    let answer = proved::walk_step(chain, at);
    same(
        "walk",
        &[("chain", &Hex(chain)), ("at", &at)],
        &answer,
        &walk::step(chain, at),
    );
    answer
}

pub fn check(
    genesis: &[u8],
    now: Slot,
    chain: &[u8],
    verdicts: &[u8],
) -> Answer<(BlockCount, Releases)> {
    let answer = proved::check(genesis, now, chain, verdicts);
    let other = chain::check(genesis, now, chain, verdicts);
    let given: Given = &[
        ("genesis", &Hex(genesis)),
        ("now", &now),
        ("chain", &Hex(chain)),
        ("verdicts", &Hex(verdicts)),
    ];
    same("check", given, answer, other);
    answer
}

/// The same slice, not only the same bytes.
pub fn choose<'a>(
    genesis: &[u8],
    now: Slot,
    held: &'a [u8],
    delivered: &'a [u8],
    verdicts: &[u8],
) -> (&'a [u8], Option<Refusal>) {
    let answer = proved::choose(genesis, now, held, delivered, verdicts);
    let other = adopt::choose(genesis, now, held, delivered, verdicts);
    let given: Given = &[
        ("genesis", &Hex(genesis)),
        ("now", &now),
        ("held", &Hex(held)),
        ("delivered", &Hex(delivered)),
        ("verdicts", &Hex(verdicts)),
    ];
    same(
        "choose",
        given,
        (ptr::from_ref(answer.0), answer.1),
        (ptr::from_ref(other.0), other.1),
    );
    answer
}

pub fn adopt(
    genesis: &[u8],
    now: Slot,
    held: &mut [u8],
    held_length: usize,
    delivered: &[u8],
    verdicts: &[u8],
) -> Answer<(usize, BlockCount)> {
    let before = held.to_vec();
    let mut other_held = held.to_vec();
    let answer = proved::adopt(genesis, now, held, held_length, delivered, verdicts);
    let other = adopt::adopt(
        genesis,
        now,
        &mut other_held,
        held_length,
        delivered,
        verdicts,
    );
    let given: Given = &[
        ("genesis", &Hex(genesis)),
        ("now", &now),
        ("held", &Hex(&before)),
        ("held length", &held_length),
        ("delivered", &Hex(delivered)),
        ("verdicts", &Hex(verdicts)),
    ];
    same(
        "adopt",
        given,
        (answer, Hex(held)),
        (other, Hex(&other_held)),
    );
    answer
}

pub fn report(genesis: &[u8], now: Slot, held: &[u8], held_length: usize) -> Answer<Report> {
    let answer = proved::report(genesis, now, held, held_length);
    let other = report::report(genesis, now, held, held_length);
    let given: Given = &[
        ("genesis", &Hex(genesis)),
        ("now", &now),
        ("held", &Hex(held)),
        ("held length", &held_length),
    ];
    same("report", given, &answer, &other);
    answer
}

pub fn check_manifest(image: &[u8], bytes: &[u8], key: &[u8], settled: Release) -> Answer<()> {
    let answer = proved::check_manifest(image, bytes, key, settled);
    let other = manifest::check(image, bytes, key, settled);
    let given: Given = &[
        ("image", &Hex(image)),
        ("manifest", &Hex(bytes)),
        ("key", &Hex(key)),
        ("settled release", &settled),
    ];
    same("check manifest", given, answer, other);
    answer
}

pub fn drop_entries(
    genesis: &[u8],
    now: Slot,
    held: &[u8],
    held_length: usize,
    pool: &mut Pool,
) -> Answer<()> {
    let before = pool.clone();
    let mut other_pool = pool.clone();
    let answer = proved::drop_entries(genesis, now, held, held_length, pool);
    let other = pool::drop_entries(genesis, now, held, held_length, &mut other_pool);
    let given: Given = &[
        ("genesis", &Hex(genesis)),
        ("now", &now),
        ("held", &Hex(held)),
        ("held length", &held_length),
        ("pool", &before),
    ];
    same("drop", given, (answer, &*pool), (other, &other_pool));
    answer
}

pub fn add_order(
    genesis: &[u8],
    now: Slot,
    held: &[u8],
    held_length: usize,
    pool: &mut Pool,
    order: Order,
    depot: u32,
) -> Answer<()> {
    let before = pool.clone();
    let mut other_pool = pool.clone();
    let answer = proved::add_order(genesis, now, held, held_length, pool, order, depot);
    let other = pool::add_order(
        genesis,
        now,
        held,
        held_length,
        &mut other_pool,
        order,
        depot,
    );
    let given: Given = &[
        ("genesis", &Hex(genesis)),
        ("now", &now),
        ("held", &Hex(held)),
        ("held length", &held_length),
        ("pool", &before),
        ("order", &order),
        ("depot", &depot),
    ];
    same("add", given, (answer, &*pool), (other, &other_pool));
    answer
}

pub fn draft(issue: &Issue, held: &[u8], held_length: usize, buffer: &mut [u8]) -> Answer<usize> {
    written(
        "draft",
        &[
            ("issue", &Issuing(issue)),
            ("held", &Hex(held)),
            ("held length", &held_length),
        ],
        buffer,
        |buffer| proved::draft(issue, held, held_length, buffer),
        |buffer| issue::draft(issue, held, held_length, buffer),
    )
}

pub fn block_text(
    issue: &Issue,
    held: &[u8],
    held_length: usize,
    buffer: &mut [u8],
) -> Answer<usize> {
    written(
        "block text",
        &[
            ("issue", &Issuing(issue)),
            ("held", &Hex(held)),
            ("held length", &held_length),
        ],
        buffer,
        |buffer| proved::block_text(issue, held, held_length, buffer),
        |buffer| issue::block_text(issue, held, held_length, buffer),
    )
}

/// The buffer is the held chain's.
pub fn append(
    issue: &Issue,
    held: &mut [u8],
    held_length: usize,
    block_signature: [u8; 64],
) -> Answer<usize> {
    written(
        "append",
        &[
            ("issue", &Issuing(issue)),
            ("held length", &held_length),
            ("block signature", &Hex(&block_signature)),
        ],
        held,
        |held| proved::append(issue, held, held_length, block_signature),
        |held| issue::append(issue, held, held_length, block_signature),
    )
}

/// Both implementations, compared at every call.
pub const BOTH: Calls = Calls {
    adopt,
    drop_entries,
    add_order,
    block_text,
    append,
    report,
};

/// A call on a case, made with both.
pub struct Call {
    pub name: &'static str,
    /// The refusals that 01 and 02 have for it, but for 13, which can't occur any more (02, d).
    pub refusals: &'static [u32],
    pub make: fn(&mut Case) -> Option<Refusal>,
}

/// Every call that a case has the arguments of.
#[rustfmt::skip]
pub const CALLS: [Call; 9] = [
    Call { name: "check", refusals: &[1, 2, 16, 3, 4, 5, 6, 7, 8, 9, 10], make: |case| case.check(check).err() },
    Call { name: "choose", refusals: &[1, 2, 17, 16, 3, 4, 5, 6, 7, 8, 9, 10, 11], make: |case| case.choose(choose).1 },
    Call { name: "adopt", refusals: &[1, 2, 17, 16, 3, 4, 5, 6, 7, 8, 9, 10, 11, 15], make: |case| case.adopt(adopt).err() },
    Call { name: "drop", refusals: &[1, 2, 17, 18], make: |case| case.drop_entries(drop_entries).err() },
    Call { name: "add", refusals: &[1, 2, 17, 18, 5, 14, 20], make: |case| case.add_order(add_order).err() },
    Call { name: "draft", refusals: &[1, 2, 17, 18, 12, 6, 15], make: |case| case.write(draft).err() },
    Call { name: "block text", refusals: &[1, 2, 17, 18, 12, 6, 15], make: |case| case.write(block_text).err() },
    Call { name: "append", refusals: &[1, 2, 17, 18, 12, 6, 15], make: |case| case.append(append).err() },
    Call { name: "report", refusals: &[1, 2, 17], make: |case| case.report(report).err() },
];

#[cfg(test)]
mod tests {
    use super::*;

    #[test]
    #[should_panic(
        expected = "report differs\nnow: Slot(20)\nheld: 0aff\nthe proved library answers 1\nthe second implementation answers 2"
    )]
    fn a_difference_tells_the_case_and_whose_answer_is_which() {
        let held = Hex(&[0x0A, 0xFF]);
        same("report", &[("now", &Slot(20)), ("held", &held)], 1, 2);
    }
}
