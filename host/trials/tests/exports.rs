//! The crate `ledger_c`, of which the archive is built, exports the calls of the crate `ledger` and no others, each with the parameters and the
//! clauses that it has there.
use std::collections::BTreeMap;
use std::fs;

use trials::programs::root;

const ATTRIBUTE: &str = "#[unsafe(no_mangle)]\npub extern \"C\" fn ";

/// Each call by its name, with its parameters, answer and clauses as they stand between the name and the body.
fn calls(name: &str) -> BTreeMap<String, String> {
    let folder = root().join("crates").join(name).join("src");
    let files = fs::read_dir(folder).unwrap();
    let texts: Vec<_> = files
        .map(|file| fs::read_to_string(file.unwrap().path()).unwrap())
        .collect();
    let found = texts.iter().flat_map(|text| text.split(ATTRIBUTE).skip(1));
    found
        .map(|text| {
            let (head, _) = text.split_once("\n{\n").unwrap();
            let (name, contract) = head.split_once('(').unwrap();
            (name.to_string(), contract.to_string())
        })
        .collect()
}

#[test]
fn the_archive_exports_the_calls_with_their_contracts() {
    let exports = calls("ledger_c");
    assert_eq!(exports, calls("ledger"));
    assert_eq!(exports.len(), 21);
    for (name, contract) in exports {
        assert!(contract.contains("\n    ensures "), "{name}");
    }
}
