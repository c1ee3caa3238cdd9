//! The report program against the second implementation: the same input, the same text. Where 01 gives a text by hand it stands here too. The
//! program is the one that `rt run` builds in `crates/station`, or `rt ci`, and it must be there.
use std::io::Write;
use std::process::Stdio;
use std::thread;

use second::chain;
use second::number::{self, LARGEST};
use second::report::station;
use second::samples::{self, block, order};
use trials::programs::{program, root};
use trials::rounds::rounds;

/// What the program writes. It need not read all of its input.
fn printed(input: &[u8]) -> String {
    let station = root().join("crates/station/out/station");
    assert!(
        station.exists(),
        "no crates/station/out/station: run `rt run` in crates/station first"
    );
    let mut child = program(station)
        .stdin(Stdio::piped())
        .stdout(Stdio::piped())
        .spawn()
        .unwrap();
    let mut stdin = child.stdin.take().unwrap();
    let input = input.to_vec();
    let writer = thread::spawn(move || stdin.write_all(&input).unwrap_or(()));
    let output = child.wait_with_output().unwrap();
    writer.join().unwrap();
    assert!(output.status.success());
    String::from_utf8(output.stdout).unwrap()
}

/// The second implementation's text, which the program's must be too.
fn same(name: &str, input: &[u8]) -> String {
    let text = station(input);
    assert_eq!(printed(input), text, "{name}");
    text
}

fn input(genesis: &[u8], now: &[u8], held: &[u8]) -> Vec<u8> {
    let length = number::bytes(genesis.len() as u64);
    [&length, genesis, now, held].concat()
}

/// Several displays, at releases of up to 35 bits: at slot 10 the block of slot 5 is settled, that of slot 6 is not.
fn several_displays() -> (Vec<u8>, Vec<u8>) {
    let mut table = samples::genesis(6, 1, 5);
    table.releases[0] = 7;
    table.releases[63] = LARGEST;
    let genesis = table.bytes();
    let blocks = [
        block(2, &[order(2, 40, 41), order(9, 0, 3)]),
        block(
            5,
            &[order(2, 41, 300), order(10, 0, 1), order(12, 0, 1 << 32)],
        ),
        block(6, &[order(2, 300, 301), order(9, 3, 4), order(11, 0, 5)]),
        block(10, &[]),
    ];
    let held = samples::chain(&genesis, &blocks);
    (genesis, held)
}

/// A name, and the input. The same text is expected of each.
fn by_hand(text: &str, inputs: &[(&str, Vec<u8>)]) {
    for (name, input) in inputs {
        assert_eq!(same(name, input), text, "{name}");
    }
}

#[test]
fn reports_by_hand() {
    let worked = samples::worked_genesis().bytes();
    by_hand(
        "1 0 0\n0 7\n",
        &[("01's example", input(&worked, &[1], &[]))],
    );
    let (genesis, held) = several_displays();
    by_hand(
        "10 4 2\n0 7\n2 300\n9 3\n10 1\n12 4294967296\n63 34359738367\n",
        &[(
            "settled and unsettled orders",
            input(&genesis, &[10], &held),
        )],
    );
}

#[test]
fn bad_held_chains_by_hand() {
    let (genesis, held) = several_displays();
    let at = |now: u8, held: &[u8]| input(&genesis, &[now], held);
    by_hand("refused 17 2\n", &[("block 2 cut", at(10, &held[..300]))]);
    by_hand("refused 17 4\n", &[("a stamp above now", at(9, &held))]);
    let one_too_long = vec![0; chain::LONGEST + 1];
    by_hand(
        "refused 17 0\n",
        &[("one byte too long", at(10, &one_too_long))],
    );
    by_hand(
        "refused 2 0\n",
        &[("now 0 before too long", at(0, &one_too_long))],
    );
}

#[test]
fn bad_starts_by_hand() {
    let start = input(&samples::worked_genesis().bytes(), &[], &[]);
    let then = |now: &[u8]| [&start[..], now].concat();
    by_hand(
        "refused 2 0\n",
        &[
            ("now 257", then(&[0x81, 2])),
            ("no now", then(&[])),
            ("now cut", then(&[0x80])),
            ("now 80 00", then(&[0x80, 0])),
            ("now of five high bits", then(&[0x81; 5])),
            ("now 4,294,967,297", then(&[0x81, 0x80, 0x80, 0x80, 0x10])),
            ("now the largest", then(&[0xFF, 0xFF, 0xFF, 0xFF, 0x7F])),
        ],
    );
    by_hand(
        "refused 1 0\n",
        &[
            ("no input", vec![]),
            ("length cut", vec![0x80]),
            (
                "length not shortest",
                [&[0xE3, 0], &start[1..], &[1]].concat(),
            ),
            ("length 1,316", [&[0xA4, 0x0A][..], &[1; 1400]].concat()),
            (
                "length 4,294,967,395, which is not 99",
                [&[0xE3, 0x80, 0x80, 0x80, 0x10], &start[1..], &[1]].concat(),
            ),
            (
                "too short for its genesis",
                start[..start.len() - 1].to_vec(),
            ),
            ("bad genesis, now cut", vec![1, 0, 0x80]),
        ],
    );
}

#[test]
fn bad_chains() {
    let genesis = samples::table();
    for (fault, held, refused) in samples::bad_chains(&genesis).iter().step_by(7) {
        let text = same(fault, &input(&genesis, &[20], held));
        assert_eq!(text, format!("refused 17 {}\n", refused.place), "{fault}");
    }
}

#[test]
fn bad_geneses() {
    for (fault, genesis) in samples::bad_geneses().iter().step_by(5) {
        assert_eq!(
            same(fault, &input(genesis, &[1], &[])),
            "refused 1 0\n",
            "{fault}"
        );
    }
}

#[test]
fn the_longest_input_with_an_answer() {
    let (genesis, held) = samples::longest_chain(256);
    let text = same("the longest chain", &input(&genesis, &[0x80, 2], &held));
    assert!(text.starts_with("256 256 254\n"), "{text}");
    // 64 displays at releases of eleven digits
    assert_eq!(text.len(), 12 + 10 * 14 + 54 * 15);
}

/// Inputs beyond what the program looks at.
#[test]
fn longer_inputs() {
    let mut table = samples::genesis(31, 6, 64);
    table.releases = [LARGEST; 64];
    let genesis = table.bytes();
    for size in [chain::LONGEST, chain::LONGEST + 1, 70_000, 1_000_000] {
        for now in [&[0x80, 2][..], &[0xFF; 5], &[0xFF, 0xFF, 0xFF, 0xFF, 0x7F]] {
            same(
                &format!("{size} bytes"),
                &input(&genesis, now, &vec![0; size]),
            );
        }
    }
}

/// One byte changed anywhere in a good input.
#[test]
fn changed_bytes() {
    let (genesis, held) = several_displays();
    let good = input(&genesis, &[10], &held);
    let places = rounds(good.len() as u64 / 3) as usize;
    for place in (0..good.len()).step_by(good.len() / places) {
        for change in [1, 0x80] {
            let mut changed = good.clone();
            changed[place] ^= change;
            same(&format!("byte {place}"), &changed);
        }
    }
}
