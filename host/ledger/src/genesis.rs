//! The genesis table: reading it, making it, and what is wrong with one in words.
use core::error::Error;
use core::fmt::{self, Display, Formatter};

use crate::{raw, read_number, told, write_number};
use crate::{
    Genesis, Kind, Refusal, Release, Releases, Slot, CONTROLLERS, DISPLAYS, GENESIS_BYTES,
    KEY_BYTES, LARGEST, POOL_SLOTS,
};

impl Genesis {
    /// Reads genesis bytes: 1. What is wrong with them, [`genesis_fault`] tells.
    pub fn read(bytes: &[u8]) -> Result<Genesis, Refusal> {
        let answer = raw::ledger_read_genesis(bytes);
        told(answer.refusal, answer.place, answer.table)
    }

    /// Whose turn a slot is: a controller, counted from 1. Any slot has a turn, but for a table that was not read, with n = 0: then it is 0.
    pub fn turn(&self, slot: Slot) -> u32 {
        raw::ledger_turn(*self, slot)
    }

    /// How many slots a block must lie back to be settled: it is if its slot + depth < now. 0 for a table that was not read, whose n is not 1 to 31
    /// or is below 3t + 1; where it is 255 or more, nothing settles in a run.
    pub fn depth(&self) -> u64 {
        raw::ledger_depth(*self)
    }
}

/// A controller's key in genesis bytes; controllers count from 1: 1, 12.
pub fn key(genesis: &[u8], controller: u32) -> Result<&[u8; KEY_BYTES], Refusal> {
    let answer = raw::ledger_find_key(genesis, controller);
    told(answer.refusal, answer.place, ())?;
    let found = genesis.get(answer.at..).and_then(<[u8]>::first_chunk);
    found.ok_or(Refusal {
        kind: Kind::BadGenesis,
        place: answer.place,
    })
}

/// Writes the genesis of a station with these keys, as many as there are controllers, of whom t may be faulty, and gives it. Its u, which has no
/// effect, is [`POOL_SLOTS`]. [`GENESIS_BYTES`] never are too few; a fault leaves the buffer as it came.
pub fn write_genesis<'o>(
    t: u32,
    releases: &Releases,
    keys: &[[u8; KEY_BYTES]],
    out: &'o mut [u8],
) -> Result<&'o [u8], GenesisFault> {
    let head = [keys.len() as u64, t.into(), POOL_SLOTS as u64];
    head_fault(head)?;
    release_fault(releases)?;
    let mut bytes = [0; GENESIS_BYTES];
    let mut at = 0;
    for number in head.iter().chain(releases) {
        at = write_number(*number, at, &mut bytes).map_err(|_| GenesisFault::ShortBuffer)?;
    }
    let length = at + keys.as_flattened().len();
    bytes[at..length].copy_from_slice(keys.as_flattened());
    let out = out.get_mut(..length).ok_or(GenesisFault::ShortBuffer)?;
    out.copy_from_slice(&bytes[..length]);
    Ok(out)
}

/// What is wrong with a genesis.
#[derive(Debug, Clone, Copy, PartialEq, Eq)]
pub enum GenesisFault {
    /// n is not 1 to 31.
    Controllers { n: u64 },
    /// n is not at least 3t + 1.
    Faulty { n: u64, t: u64 },
    /// u is not 1 to 64.
    Pooled { u: u64 },
    /// A release that is to be written is above the largest.
    Release { display: usize, release: Release },
    /// A number is cut, or badly written.
    Number { part: Part, kind: Kind },
    /// So many bytes stand where n keys belong.
    Keys { n: u64, bytes: usize },
    /// The buffer that it is to be written into.
    ShortBuffer,
}

/// A number of a genesis.
#[derive(Debug, Clone, Copy, PartialEq, Eq)]
pub enum Part {
    N,
    T,
    U,
    Release { display: usize },
}

/// What is wrong with genesis bytes: the first fault, or nothing exactly if [`Genesis::read`] reads them.
pub fn genesis_fault(bytes: &[u8]) -> Result<(), GenesisFault> {
    let mut at = 0;
    let mut number = |part| match read_number(bytes, at) {
        Ok((value, next)) => {
            at = next;
            Ok(value)
        }
        Err(Refusal { kind, .. }) => Err(GenesisFault::Number { part, kind }),
    };
    let head = [number(Part::N)?, number(Part::T)?, number(Part::U)?];
    head_fault(head)?;
    for display in 0..DISPLAYS {
        number(Part::Release { display })?;
    }
    let (n, bytes) = (head[0], bytes.len() - at);
    match bytes as u64 == n * KEY_BYTES as u64 {
        true => Ok(()),
        false => Err(GenesisFault::Keys { n, bytes }),
    }
}

/// n is 1 to 31 and at least 3t + 1, and u is 1 to 64. t is at most the largest number, so 3t + 1 is no more than 64 bits hold.
fn head_fault([n, t, u]: [u64; 3]) -> Result<(), GenesisFault> {
    if !(1..=CONTROLLERS as u64).contains(&n) {
        return Err(GenesisFault::Controllers { n });
    }
    if n < 3 * t + 1 {
        return Err(GenesisFault::Faulty { n, t });
    }
    if !(1..=POOL_SLOTS as u64).contains(&u) {
        return Err(GenesisFault::Pooled { u });
    }
    Ok(())
}

fn release_fault(releases: &Releases) -> Result<(), GenesisFault> {
    match releases.iter().position(|release| *release > LARGEST) {
        None => Ok(()),
        Some(display) => Err(GenesisFault::Release {
            display,
            release: releases[display],
        }),
    }
}

impl Display for GenesisFault {
    fn fmt(&self, f: &mut Formatter) -> fmt::Result {
        match *self {
            GenesisFault::Controllers { n } => {
                write!(f, "n = {n}: a station has 1 to {CONTROLLERS} controllers")
            }
            GenesisFault::Faulty { n, t } => {
                let most = (n - 1) / 3;
                write!(f, "t = {t}: of {n} controllers at most {most} may be faulty, since n is at least 3t + 1")
            }
            GenesisFault::Pooled { u } => {
                write!(
                    f,
                    "u = {u}: it has no effect, and must be 1 to {POOL_SLOTS}"
                )
            }
            GenesisFault::Release { display, release } => {
                write!(
                    f,
                    "display {display} at release {release}: the largest is {LARGEST}"
                )
            }
            GenesisFault::Number { part, kind } => match kind {
                Kind::Cut => write!(f, "{part} is cut"),
                _ => write!(f, "{part} is badly written"),
            },
            GenesisFault::Keys { n, bytes } => {
                let expected = n * KEY_BYTES as u64;
                write!(
                    f,
                    "{bytes} bytes follow the releases, and {n} keys take {expected}"
                )
            }
            GenesisFault::ShortBuffer => Kind::ShortBuffer.fmt(f),
        }
    }
}

impl Error for GenesisFault {}

impl Display for Part {
    fn fmt(&self, f: &mut Formatter) -> fmt::Result {
        match self {
            Part::N => f.write_str("n"),
            Part::T => f.write_str("t"),
            Part::U => f.write_str("u"),
            Part::Release { display } => write!(f, "the release of display {display}"),
        }
    }
}

#[cfg(test)]
mod tests {
    use super::*;
    use std::string::ToString;
    use std::vec::Vec;

    /// Display 63 starts at release 300, the others at 0.
    fn releases() -> Releases {
        let mut releases = [0; DISPLAYS];
        releases[63] = 300;
        releases
    }

    /// No two are equal.
    fn keys(n: u8) -> Vec<[u8; KEY_BYTES]> {
        (1..=n).map(|controller| [controller; KEY_BYTES]).collect()
    }

    /// The proved reader reads back what was written.
    #[test]
    fn every_size_is_read_back() {
        for n in 1..=31 {
            for t in 0..=u32::from(n - 1) / 3 {
                let mut out = [0xEE; GENESIS_BYTES];
                let bytes = write_genesis(t, &releases(), &keys(n), &mut out).unwrap();
                let table = Genesis::read(bytes).unwrap();
                assert_eq!((table.n, table.t, table.u), (n.into(), t, 64));
                assert_eq!(table.releases, releases());
                for controller in 1..=n {
                    assert_eq!(key(bytes, controller.into()), Ok(&[controller; KEY_BYTES]));
                }
                assert_eq!(genesis_fault(bytes), Ok(()));
            }
        }
    }

    #[test]
    fn the_longest_and_a_byte_less_room() {
        let mut out = [0xEE; GENESIS_BYTES];
        let (most, keys) = ([LARGEST; DISPLAYS], keys(31));
        let short = write_genesis(10, &most, &keys, &mut out[1..]);
        assert_eq!(short, Err(GenesisFault::ShortBuffer));
        assert_eq!(out, [0xEE; GENESIS_BYTES]);
        let bytes = write_genesis(10, &most, &keys, &mut out).unwrap();
        assert_eq!(bytes.len(), GENESIS_BYTES);
        let table = Genesis::read(bytes).unwrap();
        assert_eq!((table.keys_at, table.releases), (323, most));
    }

    #[test]
    fn releases_above_the_largest() {
        for (display, release, words) in [
            (
                0,
                LARGEST + 1,
                "display 0 at release 34359738368: the largest is 34359738367",
            ),
            (
                63,
                u64::MAX,
                "display 63 at release 18446744073709551615: the largest is 34359738367",
            ),
        ] {
            let (mut releases, mut out) = (releases(), [0xEE; GENESIS_BYTES]);
            releases[display] = release;
            let fault = write_genesis(0, &releases, &keys(1), &mut out).unwrap_err();
            assert_eq!(fault, GenesisFault::Release { display, release });
            assert_eq!(fault.to_string(), words);
            assert_eq!(out, [0xEE; GENESIS_BYTES]);
        }
    }

    #[test]
    fn not_written() {
        for (t, n, words) in [
            (0, 0, "n = 0: a station has 1 to 31 controllers"),
            (0, 32, "n = 32: a station has 1 to 31 controllers"),
            (
                4,
                12,
                "t = 4: of 12 controllers at most 3 may be faulty, since n is at least 3t + 1",
            ),
        ] {
            let mut out = [0xEE; GENESIS_BYTES];
            let fault = write_genesis(t, &releases(), &keys(n), &mut out).unwrap_err();
            assert_eq!(fault.to_string(), words);
            assert_eq!(out, [0xEE; GENESIS_BYTES]);
        }
    }

    #[test]
    fn not_read() {
        let mut out = [0; GENESIS_BYTES];
        let good = write_genesis(0, &releases(), &keys(2), &mut out).unwrap();
        let words = |bytes: &[u8]| genesis_fault(bytes).unwrap_err().to_string();
        assert_eq!(words(&[]), "n is cut");
        assert_eq!(words(&[1, 0x80, 0]), "t is badly written");
        assert_eq!(words(&good[..2]), "u is cut");
        assert_eq!(words(&good[..66]), "the release of display 63 is cut");
        assert_eq!(
            words(&good[..100]),
            "32 bytes follow the releases, and 2 keys take 64"
        );
        assert_eq!(
            words(&[1, 1, 1]),
            "t = 1: of 1 controllers at most 0 may be faulty, since n is at least 3t + 1"
        );
        for (u, wrong) in [
            (0, "u = 0: it has no effect, and must be 1 to 64"),
            (65, "u = 65: it has no effect, and must be 1 to 64"),
        ] {
            assert_eq!(words(&[1, 0, u]), wrong);
        }
        // n = 2^32 + 1
        assert_eq!(
            words(&[0x81, 0x80, 0x80, 0x80, 0x10, 0, 1]),
            "n = 4294967297: a station has 1 to 31 controllers"
        );
        assert_eq!(words(&[0xFF; 5]), "n is badly written");
    }
}
