//! What the example prints, worked out by hand from 01, and that README shows the example's own lines.
use std::fs;

use trials::programs::{program, root};

/// n = 2 and t = 0: a block is settled exactly if its slot + 1 < now. Slot 1 orders release 8, slot 2 release 300.
const ACCOUNT: &str = "\
slot 3: controller 1 is given the same chain again: refused 11 0: the delivered chain does not have more blocks than the held one
slot 3: controller 1 holds 2 blocks, 1 of them settled, and display 4 is to boot release 8
slot 3: controller 2 holds 2 blocks, 1 of them settled, and display 4 is to boot release 8
slot 4: controller 1 holds 3 blocks, 2 of them settled, and display 4 is to boot release 300
slot 4: controller 2 holds 3 blocks, 2 of them settled, and display 4 is to boot release 300
";

#[test]
fn the_account_of_the_example() {
    let ran = program(env!("CARGO_BIN_EXE_example")).output().unwrap();
    assert_eq!(String::from_utf8(ran.stdout).unwrap(), ACCOUNT);
    assert!(ran.status.success());
}

/// The lines of README that stand behind these words, as far as they are set in.
fn shown_behind(words: &str) -> String {
    let readme = fs::read_to_string(root().join("README.md")).unwrap();
    let (_, behind) = readme.split_once(words).expect(words);
    let lines = behind.lines().skip_while(|line| !line.starts_with("    "));
    lines
        .take_while(|line| line.is_empty() || line.starts_with("    "))
        .map(|line| line.strip_prefix("    ").unwrap_or(line))
        .collect::<Vec<&str>>()
        .join("\n")
}

#[test]
fn readme_shows_the_example() {
    let example = include_str!("../src/main.rs");
    let shown = shown_behind("from `host/example/src/main.rs`");
    assert!(shown.trim().lines().count() > 20, "{shown}");
    assert!(example.contains(shown.trim_end()), "{shown}");
}
