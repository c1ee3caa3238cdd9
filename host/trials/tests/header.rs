//! The wrapper's version, limits and refusals are those of `include/ledger.h`, by name and number.
use std::collections::BTreeMap;
use std::fs;

use ledger::Kind;
use trials::programs::root;

/// What the header gives a number: its limits, and its refusals.
fn numbers() -> BTreeMap<String, u64> {
    let header = fs::read_to_string(root().join("include/ledger.h")).unwrap();
    let define = |line: &str| line.strip_prefix("#define LEDGER_").map(str::to_string);
    let refusal = |line: &str| {
        let line = line.trim().strip_prefix("LEDGER_")?;
        Some(line.replacen(" =", "", 1).replace(',', " "))
    };
    let named = header
        .lines()
        .filter_map(|line| define(line).or(refusal(line)));
    named
        .filter_map(|line| {
            let mut words = line.split_whitespace();
            let name = words.next()?.to_string();
            Some((name, number(words.next()?)?))
        })
        .collect()
}

/// A number in C: its digits, or those of a number of 64 bits.
fn number(word: &str) -> Option<u64> {
    let wide = word.strip_prefix("UINT64_C(");
    let digits = wide.and_then(|word| word.strip_suffix(')'));
    digits.unwrap_or(word).parse().ok()
}

macro_rules! limits {
    ($($name:ident)*) => { [$((stringify!($name), ledger::$name as u64)),*] };
}

#[test]
fn limits() {
    let numbers = numbers();
    let limits = limits! {
        VERSION DISPLAYS CONTROLLERS SLOTS ORDERS POOL_ROOM DEPOTS DEPOT_ROOM POOL_SLOTS NUMBER_BYTES LARGEST KEY_BYTES DIGEST_BYTES LINK_BYTES
        SIGNATURE_BYTES SLOT_TEXT_BYTES DRAFT_BYTES BLOCK_TEXT_BYTES GENESIS_BYTES BLOCK_LEAST_BYTES BLOCK_BYTES CHAIN_BYTES MESSAGE_BYTES
        IMAGE_BYTES MANIFEST_KEY_BYTES MANIFEST_SIGNATURE_BYTES MANIFEST_BYTES GOOD_VERDICT
    };
    for (name, value) in limits {
        assert_eq!(numbers.get(name), Some(&value), "{name}");
    }
}

#[test]
fn refusals() {
    let numbers = numbers();
    for kind in Kind::ALL {
        let number = u64::from(kind.number());
        assert_eq!(numbers.get(kind.name()), Some(&number), "{}", kind.name());
    }
}
