//! A genesis as text, and as bytes.
use std::str::FromStr;

use ledger::{Genesis, Release, DISPLAYS, GENESIS_BYTES, KEY_BYTES, LARGEST, POOL_SLOTS, SLOTS};

use crate::Answer;

/// What the lines of a text have said so far.
#[derive(Default)]
struct Text {
    n: Option<u32>,
    t: Option<u32>,
    u: Option<u32>,
    releases: Vec<(usize, Release)>,
    keys: Vec<[u8; KEY_BYTES]>,
}

/// The genesis bytes of a text.
pub fn make(text: &str) -> Answer {
    let mut read = Text::default();
    for (place, line) in (1..).zip(text.lines()) {
        let (line, _) = line.split_once('#').unwrap_or((line, ""));
        let words: Vec<&str> = line.split_whitespace().collect();
        let wrong = |wrong| format!("line {place}: {wrong}");
        read.line(&words).map_err(wrong)?;
    }
    read.bytes()
}

impl Text {
    fn line(&mut self, words: &[&str]) -> Result<(), String> {
        match words {
            [] => Ok(()),
            ["n", value] => once(&mut self.n, value),
            ["t", value] => once(&mut self.t, value),
            ["u", value] => self.no_effect(value),
            ["release", display, release] => self.release(small(display)?, number(release)?),
            ["key", controller, digits] => self.key(small(controller)?, digits),
            _ => Err("not a line of a genesis".into()),
        }
    }

    /// A u is looked at, as in a table that is read, and not written: a new table has its own.
    fn no_effect(&mut self, value: &str) -> Result<(), String> {
        once(&mut self.u, value)?;
        match self.u {
            Some(u) if u < 1 || u as usize > POOL_SLOTS => Err(format!(
                "u is {u}: it has no effect, and must be 1 to {POOL_SLOTS}"
            )),
            _ => Ok(()),
        }
    }

    fn release(&mut self, display: u32, release: Release) -> Result<(), String> {
        let display = display as usize;
        if display >= DISPLAYS {
            return Err(format!("display {display}: displays are 0 to 63"));
        }
        if self.releases.iter().any(|(listed, _)| *listed == display) {
            return Err(format!("display {display} is listed twice"));
        }
        self.releases.push((display, release));
        Ok(())
    }

    fn key(&mut self, controller: u32, digits: &str) -> Result<(), String> {
        let next = self.keys.len() + 1;
        if controller as usize != next {
            return Err(format!("the key of controller {next} comes next"));
        }
        let key = key(digits).ok_or("a key has 64 hexadecimal digits")?;
        self.keys.push(key);
        Ok(())
    }

    fn bytes(self) -> Answer {
        let said = |value: Option<u32>, name| value.ok_or(format!("no line with {name}"));
        let (n, t) = (said(self.n, "n")?, said(self.t, "t")?);
        if n as usize != self.keys.len() {
            return Err(format!("n is {n}, and {} keys are listed", self.keys.len()));
        }
        let mut releases = [0; DISPLAYS];
        for (display, release) in self.releases {
            releases[display] = release;
        }
        let mut out = [0; GENESIS_BYTES];
        let bytes = ledger::write_genesis(t, &releases, &self.keys, &mut out);
        bytes.map(<[u8]>::to_vec).map_err(|fault| fault.to_string())
    }
}

fn once(value: &mut Option<u32>, word: &str) -> Result<(), String> {
    match value.replace(small(word)?) {
        None => Ok(()),
        Some(_) => Err("this was said before".into()),
    }
}

/// A number that can be written.
pub fn number(word: &str) -> Result<u64, String> {
    let value = decimal(word).filter(|value| *value <= LARGEST);
    value.ok_or(format!("{word} is not a number from 0 to {LARGEST}"))
}

/// A number of 32 bits: each but a release and a slot.
fn small(word: &str) -> Result<u32, String> {
    decimal(word).ok_or(format!("{word} is not a number from 0 to {}", u32::MAX))
}

fn decimal<T: FromStr>(word: &str) -> Option<T> {
    let plain = word.bytes().all(|byte| byte.is_ascii_digit());
    word.parse().ok().filter(|_| plain)
}

fn key(digits: &str) -> Option<[u8; KEY_BYTES]> {
    if digits.len() != 2 * KEY_BYTES || !digits.bytes().all(|digit| digit.is_ascii_hexdigit()) {
        return None;
    }
    let mut key = [0; KEY_BYTES];
    for (place, byte) in key.iter_mut().enumerate() {
        *byte = u8::from_str_radix(&digits[2 * place..][..2], 16).ok()?;
    }
    Some(key)
}

/// The text that makes these bytes.
pub fn show(bytes: &[u8]) -> Result<String, String> {
    let wrong = || match ledger::genesis_fault(bytes) {
        Err(fault) => format!("a bad genesis: {fault}"),
        Ok(()) => "a bad genesis".into(),
    };
    let table = Genesis::read(bytes).map_err(|_| wrong())?;
    let mut text = format!("n {}\nt {}\n", table.n, table.t);
    text += &format!("u {}  # of no effect\n", table.u);
    for (display, release) in table.releases.iter().enumerate() {
        if *release != 0 {
            text += &format!("release {display} {release}\n");
        }
    }
    let keys: Vec<&[u8]> = bytes[table.keys_at..].chunks(KEY_BYTES).collect();
    for (controller, key) in (1..).zip(&keys) {
        let digits: String = key.iter().map(|byte| format!("{byte:02x}")).collect();
        let earlier = keys[..controller - 1].iter().position(|other| other == key);
        let twice = earlier.map_or(String::new(), |place| {
            format!("  # as controller {}", place + 1)
        });
        text += &format!("key {controller} {digits}{twice}\n");
    }
    Ok(text + &settling(table.depth()))
}

/// Which blocks are settled. Where not even one of slot 1 is in the last slot, nothing ever is.
fn settling(depth: u64) -> String {
    let ever = 1 + depth < SLOTS as u64;
    let never = if ever { "" } else { ", so never in a run" };
    format!("# settled: slot + {depth} < now{never}\n")
}

#[cfg(test)]
mod tests {
    use super::*;

    /// n = 1, t = 0, display 0 at release 7, and a key of 32 bytes: the bytes of `docs/FORMATS.md`, but for u and the key.
    const TEXT: &str = "\
        # a station of one\n\
        n 1\nt 0\nu 1\nrelease 0 7  # the first layout\n\
        key 1 00112233445566778899aabbccddeeff00112233445566778899AABBCCDDEEFF\n";

    fn bytes() -> Vec<u8> {
        let half = [
            0, 17, 34, 51, 68, 85, 102, 119, 136, 153, 170, 187, 204, 221, 238, 255,
        ];
        [&[1, 0, 64, 7][..], &[0; 63], &half, &half].concat()
    }

    #[test]
    fn made() {
        assert_eq!(make(TEXT), Ok(bytes()));
    }

    /// "New tables are written with 64 .. whatever u was", also if it was not said.
    #[test]
    fn a_u_of_64_whatever_was_asked() {
        for u in ["", "u 5\n", "u 64\n"] {
            assert_eq!(make(&TEXT.replace("u 1\n", u)), Ok(bytes()));
        }
    }

    #[test]
    fn shown() {
        let text = "n 1\nt 0\nu 64  # of no effect\nrelease 0 7\n\
            key 1 00112233445566778899aabbccddeeff00112233445566778899aabbccddeeff\n\
            # settled: slot + 1 < now\n";
        assert_eq!(show(&bytes()), Ok(text.into()));
        let mut old = bytes();
        old[2] = 5;
        let old_text = text.replace("u 64", "u 5");
        assert_eq!(show(&old), Ok(old_text.clone()));
        assert_eq!(make(&old_text), Ok(bytes()));
    }

    /// 28 controllers of whom 8 may be faulty wait 121 slots; with 9 it is 514, and the last slot is 256.
    #[test]
    fn nothing_settles() {
        let last = |t: u32| {
            let (keys, mut out) = ([[7; KEY_BYTES]; 28], [0; GENESIS_BYTES]);
            let bytes = ledger::write_genesis(t, &[0; DISPLAYS], &keys, &mut out).unwrap();
            show(bytes).unwrap().lines().last().unwrap().to_string()
        };
        assert_eq!(last(8), "# settled: slot + 121 < now");
        assert_eq!(last(9), "# settled: slot + 514 < now, so never in a run");
    }

    /// What is shown makes the same bytes again, two equal keys too.
    #[test]
    fn there_and_back() {
        let keys = [[1; 32], [2; 32], [1; 32], [3; 32], [4; 32], [5; 32]];
        let mut releases = [0; DISPLAYS];
        (releases[2], releases[62], releases[63]) = (40, 1 << 32, LARGEST);
        let mut out = [0; GENESIS_BYTES];
        let bytes = ledger::write_genesis(1, &releases, &keys, &mut out).unwrap();
        let text = show(bytes).unwrap();
        assert!(text.contains("01  # as controller 1\n"), "{text}");
        assert_eq!(make(&text), Ok(bytes.to_vec()));
    }

    #[test]
    fn not_made() {
        let changed = |from: &str, to: &str| make(&TEXT.replace(from, to)).unwrap_err();
        for (from, to, wrong) in [
            ("t 0\n", "", "no line with t"),
            ("n 1", "n 2", "n is 2, and 1 keys are listed"),
            (
                "t 0",
                "t +1",
                "line 3: +1 is not a number from 0 to 4294967295",
            ),
            ("t 0", "t 0\nt 0", "line 4: this was said before"),
            ("t 0", "T 0", "line 3: not a line of a genesis"),
            (
                "release 0 7",
                "release 64 7",
                "line 5: display 64: displays are 0 to 63",
            ),
            (
                "release 0 7",
                "release 0 7\nrelease 0 8",
                "line 6: display 0 is listed twice",
            ),
            (
                "key 1",
                "key 2",
                "line 6: the key of controller 1 comes next",
            ),
            ("ff00", "ff0", "line 6: a key has 64 hexadecimal digits"),
            ("ff00", "ff0g", "line 6: a key has 64 hexadecimal digits"),
            (
                "u 1",
                "u 0",
                "line 4: u is 0: it has no effect, and must be 1 to 64",
            ),
        ] {
            assert_eq!(changed(from, to), wrong);
        }
    }

    #[test]
    fn releases_up_to_the_largest() {
        let of = |release: &str| make(&TEXT.replace("release 0 7", release));
        let large = [
            &bytes()[..3],
            &[0xFF, 0xFF, 0xFF, 0xFF, 0x7F],
            &bytes()[4..],
        ]
        .concat();
        assert_eq!(of("release 0 34359738367"), Ok(large));
        let wrong = "line 5: 34359738368 is not a number from 0 to 34359738367";
        assert_eq!(of("release 0 34359738368"), Err(wrong.into()));
    }

    #[test]
    fn not_shown() {
        let wrong = show(&bytes()[..50]).unwrap_err();
        assert_eq!(wrong, "a bad genesis: the release of display 47 is cut");
    }
}
