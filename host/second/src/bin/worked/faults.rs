//! What the cases of the calls on chains are made of: the samples' arguments of a call, with a fault or two in them.
use second::samples::{self, adopting_faults, Edit, Fault, EDITS};
pub use second::samples::{at, Case as Arguments};
use second::Refusal;

/// The samples' first fault of one block that meets this number.
pub fn edit(number: u32) -> &'static Edit {
    EDITS.iter().find(|edit| edit.number == number).unwrap()
}

/// The sample chain with a fault in one of its blocks, to which the next is linked.
pub fn with_edit(edit: &Edit, place: usize) -> Vec<u8> {
    samples::edited_chain(&samples::table(), &samples::blocks(), place, edit.change)
}

/// The first, the middle and the last block of the sample chain, with a fault of each number from 4 to 10 where it can be had. 8 is no
/// fault of the bytes.
pub fn bad_blocks() -> impl Iterator<Item = (String, Vec<u8>, Refusal)> {
    let faults = [1, 3, 5]
        .into_iter()
        .flat_map(|place| [4, 5, 6, 7, 9, 10].map(|number| (place, number)));
    faults
        .filter(|fault| *fault != (1, 6))
        .map(|(place, number)| {
            let edit = edit(number);
            let name = format!("{} in block {place}", edit.name);
            (name, with_edit(edit, place), at(number, place))
        })
}

/// Blocks without orders at these stamps, as a chain.
pub fn stamped(stamps: &[u32]) -> Vec<u8> {
    samples::chain(&samples::table(), &samples::empty_blocks(stamps))
}

/// The tables of `bad_openings`, by the samples' names.
const TABLES: [&str; 4] = [
    "n = 3, t = 1, u = 1",
    "n = 257, t = 0, u = 1",
    "cut to 0 bytes",
    "a byte after",
];

/// Genesis bytes and clock readings that meet 1 and 2.
pub fn bad_openings() -> Vec<(String, Arguments, u32)> {
    let mut bad = Vec::new();
    for (fault, genesis) in samples::bad_geneses() {
        if TABLES.contains(&&fault[..]) {
            let given = Arguments {
                genesis,
                ..Arguments::good()
            };
            bad.push((format!("genesis: {fault}"), given, 1));
        }
    }
    for now in samples::BAD_NOWS {
        let given = Arguments {
            now,
            ..Arguments::good()
        };
        bad.push((format!("now {}", now.0), given, 2));
    }
    bad
}

/// Two faults at once: their numbers in 01's order, and the refusal of the first.
pub struct Pair {
    pub numbers: [u32; 2],
    pub given: Arguments,
    pub refused: Refusal,
}

impl Pair {
    pub fn name(&self) -> String {
        format!("{} and {}", self.numbers[0], self.numbers[1])
    }

    /// Whether both faults are among these.
    pub fn among(&self, numbers: &[u32]) -> bool {
        self.numbers.iter().all(|number| numbers.contains(number))
    }
}

/// A good case with a fault, and with one that comes after it in 01's order.
fn pair((refused, earlier): &Fault, (also, later): &Fault) -> Pair {
    let mut given = Arguments::good();
    later(&mut given);
    earlier(&mut given);
    Pair {
        numbers: [refused.number, also.number],
        given,
        refused: *refused,
    }
}

/// Every two of adoption's faults. The fault of a stamp is 6 or 7, as asked for.
pub fn pairs(stamp: u32) -> Vec<Pair> {
    let faults = adopting_faults(stamp);
    let mut pairs = Vec::new();
    for (place, earlier) in faults.iter().enumerate() {
        pairs.extend(faults[place + 1..].iter().map(|later| pair(earlier, later)));
    }
    pairs
}

/// The first of these faults together with all the others, which come after it.
fn with_the_others(faults: &[Fault]) -> (String, Arguments, Refusal) {
    let mut given = Arguments::good();
    for (_, fault) in faults.iter().rev() {
        fault(&mut given);
    }
    let refused = faults[0].0;
    let name = format!("{} and all that come after it", refused.number);
    (name, given, refused)
}

/// Each of adoption's faults together with all that come after it.
pub fn with_all_after(stamp: u32) -> Vec<(String, Arguments, Refusal)> {
    let faults = adopting_faults(stamp);
    let last = faults.len() - 1;
    (0..last)
        .map(|first| with_the_others(&faults[first..]))
        .collect()
}

/// Every two of these faults, given in 01's order, and each together with all that come after it.
pub fn several(faults: &[Fault]) -> Vec<(String, Arguments, Refusal)> {
    let mut several = Vec::new();
    for (place, earlier) in faults.iter().enumerate() {
        for later in faults[place + 1..].iter().rev() {
            let pair = pair(earlier, later);
            several.push((pair.name(), pair.given, pair.refused));
        }
        several.push(with_the_others(&faults[place..]));
    }
    several
}
