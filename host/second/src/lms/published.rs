//! The published cases in `rfc8554.txt`, which says where they are from.
use super::{part, Hash};

pub struct Published {
    pub name: &'static str,
    /// What the key was made from, where it is published.
    pub seed: Option<Hash>,
    pub key: Vec<u8>,
    pub message: Vec<u8>,
    pub signature: Vec<u8>,
}

pub fn cases() -> Vec<Published> {
    let text = include_str!("rfc8554.txt");
    text.split("\n* ").skip(1).map(case).collect()
}

/// A case: its name, then its parts, each a line with its word and then lines of digits.
fn case(text: &'static str) -> Published {
    let name = text.lines().next().unwrap();
    let bytes = |word: &str| hex(text.lines().skip_while(|line| *line != word).skip(1));
    let seed = bytes("seed");
    Published {
        name,
        seed: (!seed.is_empty()).then(|| part(&seed, 0)),
        key: bytes("key"),
        message: bytes("message"),
        signature: bytes("signature"),
    }
}

/// The bytes of the lines in front that are digits.
fn hex<'a>(lines: impl Iterator<Item = &'a str>) -> Vec<u8> {
    lines
        .map_while(|line| {
            let places = (0..line.len()).step_by(2);
            let bytes: Result<Vec<u8>, _> = places
                .map(|at| u8::from_str_radix(line.get(at..at + 2).unwrap_or(""), 16))
                .collect();
            bytes.ok().filter(|bytes| !bytes.is_empty())
        })
        .flatten()
        .collect()
}
