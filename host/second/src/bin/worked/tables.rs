//! Genesis tables, and what hangs on one: turns, the depth, keys.
use second::genesis::{self, Genesis};
use second::number::LARGEST;
use second::order::Slot;
use second::refusal;
use second::samples::{self, headed, BAD_HEADS};

use crate::case::{bytes_text, case, releases_text, told, Case, Field, Op, Section};

/// genesis BYTES
pub struct Table(pub Vec<u8>);

impl Op for Table {
    fn word(&self) -> &'static str {
        "genesis"
    }

    fn fields(&self) -> Vec<Field> {
        vec![self.0[..].into()]
    }

    fn answer(&self) -> String {
        told(genesis::read(&self.0), |table| {
            let Genesis { n, t, u, .. } = table;
            let keys = first_key(&table);
            let releases = releases_text(&table.releases);
            format!("n {n} t {t} u {u} keys at {keys} releases{releases}")
        })
    }
}

/// Where the keys begin: they are what the bytes end with.
fn first_key(table: &Genesis) -> usize {
    table.bytes().len() - 32 * table.keys.len()
}

/// turn GENESIS SLOT
pub struct Turn(pub Vec<u8>, pub u32);

impl Op for Turn {
    fn word(&self) -> &'static str {
        "turn"
    }

    fn fields(&self) -> Vec<Field> {
        vec![self.0[..].into(), self.1.into()]
    }

    fn answer(&self) -> String {
        told(genesis::read(&self.0), |table| {
            format!("controller {}", table.turn(Slot(self.1)))
        })
    }
}

/// depth GENESIS
pub struct Depth(pub Vec<u8>);

impl Op for Depth {
    fn word(&self) -> &'static str {
        "depth"
    }

    fn fields(&self) -> Vec<Field> {
        vec![self.0[..].into()]
    }

    fn answer(&self) -> String {
        told(genesis::read(&self.0), |table| {
            format!("depth {}", table.depth())
        })
    }
}

/// key GENESIS CONTROLLER
pub struct Key(pub Vec<u8>, pub u32);

impl Op for Key {
    fn word(&self) -> &'static str {
        "key"
    }

    fn fields(&self) -> Vec<Field> {
        vec![self.0[..].into(), self.1.into()]
    }

    fn answer(&self) -> String {
        let read = genesis::read(&self.0).and_then(|table| {
            let before = (self.1 as usize).wrapping_sub(1);
            let key = *table.keys.get(before).ok_or(refusal(12))?;
            Ok((first_key(&table) + 32 * before, key))
        });
        told(read, |(at, key)| {
            format!("key at {at} {}", bytes_text(&key))
        })
    }
}

/// The longest table: "at most 1,315 bytes".
fn longest() -> Genesis {
    Genesis {
        releases: [LARGEST; 64],
        keys: vec![[0xFF; 32]; 31],
        ..samples::genesis(31, 6, 64)
    }
}

/// A table with releases of every length, in which all keys are equal.
fn equal_keys() -> Genesis {
    let mut table = samples::genesis(2, 0, 64);
    table.keys = vec![[7; 32]; 2];
    let releases = [
        0,
        127,
        128,
        16_383,
        16_384,
        1 << 21,
        1 << 28,
        1 << 32,
        LARGEST,
    ];
    for (place, release) in releases.into_iter().enumerate() {
        table.releases[7 * place] = release;
    }
    table
}

fn read() -> Vec<Case> {
    let table = |name: &str, table: Genesis| case(name, Table(table.bytes()));
    vec![
        table("01's: n = 1, 99 bytes", samples::worked_genesis())
            .by_hand("n 1 t 0 u 1 keys at 67 releases 0:7"),
        table("n = 6, t = 1", samples::genesis(6, 1, 5))
            .by_hand("n 6 t 1 u 5 keys at 67 releases 2:40"),
        table("n = 6, t = 0, u = 64", samples::genesis(6, 0, 64)),
        table("n = 11, t = 2", samples::genesis(11, 2, 1)),
        table("n = 4, t = 1", samples::genesis(4, 1, 5))
            .by_hand("n 4 t 1 u 5 keys at 67 releases 2:40"),
        table("n = 7, t = 2", samples::genesis(7, 2, 5))
            .by_hand("n 7 t 2 u 5 keys at 67 releases 2:40"),
        table("n = 31, t = 10", samples::genesis(31, 10, 64))
            .by_hand("n 31 t 10 u 64 keys at 67 releases 2:40"),
        table("n = 31, t = 6", samples::genesis(31, 6, 64)),
        table("n = 31, t = 6, 1,315 bytes", longest()),
        table("releases of every length, equal keys", equal_keys()).by_hand(
            "n 2 t 0 u 64 keys at 86 releases 2:40 \
            7:127 14:128 21:16383 28:16384 35:2097152 42:268435456 49:4294967296 56:34359738367",
        ),
        case(
            "release 0 is FF FF FF FF 10",
            Table(with_number(3, &[0xFF, 0xFF, 0xFF, 0xFF, 0x10])),
        )
        .by_hand("n 6 t 1 u 5 keys at 71 releases 0:4563402751 2:40"),
    ]
}

fn refused(name: impl Into<String>, bytes: Vec<u8>) -> Case {
    case(name, Table(bytes)).by_hand("refused 1 0")
}

/// Numbers that are read well and break a rule.
fn out_of_range() -> Vec<Case> {
    let mut cases: Vec<Case> = BAD_HEADS
        .into_iter()
        .map(|(n, t, u)| refused(format!("n = {n}, t = {t}, u = {u}"), headed(n, t, u)))
        .collect();
    let all_keys = Genesis {
        keys: vec![[7; 32]; 257],
        ..samples::genesis(257, 0, 1)
    };
    cases.push(refused("n = 257, and 257 keys", all_keys.bytes()));
    cases
}

fn cut_or_long() -> Vec<Case> {
    let good = samples::table();
    let mut cases: Vec<Case> = [0, 1, 2, 3, 4, 66, 67, 98, 99, 258]
        .into_iter()
        .map(|end| refused(format!("cut to {end} bytes of 259"), good[..end].to_vec()))
        .collect();
    cases.push(refused("a byte after the keys", [&good[..], &[0]].concat()));
    cases.push(refused("a key too many", [&good[..], &[0; 32]].concat()));
    cases.push(refused("65,537 bytes", vec![1; 65_537]));
    cases
}

/// A good table with other bytes in the place of one of its numbers.
fn with_number(place: usize, form: &[u8]) -> Vec<u8> {
    let good = samples::table();
    [&good[..place], form, &good[place + 1..]].concat()
}

/// One number of a good table written badly.
fn badly_written() -> Vec<Case> {
    let good = samples::table();
    let mut cases = Vec::new();
    for (place, number) in [
        (0, "n"),
        (1, "t"),
        (2, "u"),
        (3, "release 0"),
        (66, "release 63"),
    ] {
        let forms: [(&str, &[u8]); 3] = [
            ("not shortest", &[good[place] | 0x80, 0x00]),
            (
                "of five bytes, not shortest",
                &[0xFF, 0xFF, 0xFF, 0xFF, 0x00],
            ),
            ("too large", &[0x81; 5]),
        ];
        for (fault, form) in forms {
            let name = format!("{number} {fault}");
            cases.push(refused(name, with_number(place, form)));
        }
    }
    cases
}

/// n, the slot, and the controller by hand.
const TURNS: [(u32, u32, u32); 14] = [
    (6, 7, 1),
    (6, 256, 4),
    (6, 1, 1),
    (6, 6, 6),
    (6, 12, 6),
    (1, 1, 1),
    (1, 2, 1),
    (1, 256, 1),
    (31, 31, 31),
    (31, 32, 1),
    (31, 256, 8),
    (2, 255, 1),
    (4, 5, 1),
    (4, 256, 4),
];

fn turns() -> Vec<Case> {
    let mut cases: Vec<Case> = TURNS
        .into_iter()
        .map(|(n, slot, controller)| {
            let table = samples::genesis(n, 0, 1).bytes();
            case(format!("n = {n}: slot {slot}"), Turn(table, slot))
                .by_hand(format!("controller {controller}"))
        })
        .collect();
    cases.push(case("a table of no bytes", Turn(vec![], 7)).by_hand("refused 1 0"));
    cases
}

/// n, t, and the depth by hand.
const DEPTHS: [(u32, u32, u32); 18] = [
    (31, 0, 1),
    (31, 1, 4),
    (31, 2, 7),
    (31, 3, 10),
    (31, 4, 13),
    (31, 5, 16),
    (31, 6, 19),
    (4, 1, 10),
    (5, 1, 7),
    (6, 1, 4),
    (7, 2, 31),
    (10, 2, 13),
    (11, 2, 7),
    (30, 6, 37),
    (31, 7, 43),
    (22, 7, 316),
    (30, 9, 190),
    (31, 10, 631),
];

fn depths() -> Vec<Case> {
    let mut cases: Vec<Case> = DEPTHS
        .into_iter()
        .map(|(n, t, depth)| {
            let table = samples::genesis(n, t, 1).bytes();
            case(format!("n = {n}, t = {t}"), Depth(table)).by_hand(format!("depth {depth}"))
        })
        .collect();
    cases.push(case("a table of no bytes", Depth(vec![])).by_hand("refused 1 0"));
    cases
}

fn keys() -> Vec<Case> {
    let six = samples::table();
    let long = longest();
    let of_six = |controller: u32| {
        case(
            format!("n = 6: controller {controller}"),
            Key(six.clone(), controller),
        )
    };
    let bad = [&six[..], &[0]].concat();
    vec![
        of_six(1).by_hand("key at 67 01*32"),
        of_six(2).by_hand("key at 99 02*32"),
        of_six(6).by_hand("key at 227 06*32"),
        of_six(0).by_hand("refused 12 0"),
        of_six(7).by_hand("refused 12 0"),
        of_six(257).by_hand("refused 12 0"),
        of_six(u32::MAX).by_hand("refused 12 0"),
        case("1,315 bytes: controller 31", Key(long.bytes(), 31)).by_hand("key at 1283 ff*32"),
        case("a bad table: controller 1", Key(bad.clone(), 1)).by_hand("refused 1 0"),
        case("a bad table: controller 0", Key(bad, 0)).by_hand("refused 1 0"),
    ]
}

pub fn sections() -> Vec<Section> {
    let section = |title, cases| Section { title, cases };
    vec![
        section("Genesis: tables that are read", read()),
        section(
            "Genesis: n, t and u out of their ranges, and nothing wraps",
            out_of_range(),
        ),
        section("Genesis: cut, or longer than its keys", cut_or_long()),
        section("Genesis: numbers badly written", badly_written()),
        section("Turns (01, \"Worked by hand\")", turns()),
        section(
            "Depth: 3t(k + 1) + 1, where k is 2t divided by n - 3t, rounded down",
            depths(),
        ),
        section("Keys: 1, then 12", keys()),
    ]
}
