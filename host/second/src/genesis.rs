//! The genesis table (01, "Genesis"; its least n and its depth: 02, e; its u: 02, n), and what every call looks at first: the table and the clock.
use super::order::{Releases, Slot, SLOTS};
use super::{lent, number, refusal, Refusal};

/// "At most 1,315 bytes."
pub const LONGEST: usize = 1_315;

/// The genesis table. One that was read has n from 1 to 31, t at most 10 and n keys.
#[derive(Debug, Clone, PartialEq, Eq)]
pub struct Genesis {
    /// How many controllers there are.
    pub n: u32,
    /// How many of them may be faulty.
    pub t: u32,
    /// "u is still read, must still be 1 to 64, and has no effect" (02, n).
    pub u: u32,
    /// "The starting release of displays 0 to 63."
    pub releases: Releases,
    pub keys: Vec<[u8; 32]>,
}

/// Reads a genesis: "n, t and u as numbers, the starting release of displays 0 to 63 as 64 numbers, then n keys of 32 bytes, and nothing
/// after." Every fault is 1.
pub fn read(bytes: &[u8]) -> Result<Genesis, Refusal> {
    let mut rest = bytes;
    match take(&mut rest) {
        Ok(genesis) if rest.is_empty() => Ok(genesis),
        _ => Err(refusal(1)),
    }
}

/// Takes a genesis off the front of `rest`.
fn take(rest: &mut &[u8]) -> Result<Genesis, Refusal> {
    let n = take_small(rest)?;
    let t = take_small(rest)?;
    let u = take_small(rest)?;
    if !enough(n, t) || !(1..=64).contains(&u) {
        return Err(refusal(1));
    }
    let mut releases = [0; 64];
    for release in &mut releases {
        *release = lent::number(rest)?;
    }
    let keys = (0..n)
        .map(|_| lent::array(rest))
        .collect::<Result<_, _>>()?;
    Ok(Genesis {
        n,
        t,
        u,
        releases,
        keys,
    })
}

/// Takes a number that 32 bits must hold: n, t and u are far smaller.
fn take_small(rest: &mut &[u8]) -> Result<u32, Refusal> {
    u32::try_from(lent::number(rest)?).map_err(|_| refusal(1))
}

/// "n is 1 to 31", and 02: "Allow every n of at least 3t + 1, so t goes up to 10."
fn enough(n: u32, t: u32) -> bool {
    (1..=31).contains(&n) && u64::from(n) > 3 * u64::from(t)
}

impl Genesis {
    /// The genesis bytes.
    pub fn bytes(&self) -> Vec<u8> {
        let head = [self.n, self.t, self.u].map(u64::from);
        let numbers = head.into_iter().chain(self.releases);
        let mut bytes: Vec<u8> = numbers.flat_map(number::bytes).collect();
        bytes.extend(self.keys.as_flattened());
        bytes
    }

    /// How many slots a block waits until it is settled: "D = 3t(k + 1) + 1, where k is 2t divided by n − 3t, rounded down". 0 for a table that
    /// cannot have been read.
    pub fn depth(&self) -> u32 {
        let (n, t) = (self.n, self.t);
        if !enough(n, t) {
            return 0;
        }
        let k = 2 * t / (n - 3 * t);
        3 * t * (k + 1) + 1
    }

    /// "Settled means slot + D < now."
    pub fn settled(&self, stamp: Slot, now: Slot) -> bool {
        u64::from(stamp.0) + u64::from(self.depth()) < u64::from(now.0)
    }

    /// "The turn in slot j belongs to controller i with i − 1 = (j − 1) mod n."
    pub fn turn(&self, slot: Slot) -> u32 {
        let before = i64::from(slot.0) - 1;
        before.rem_euclid(i64::from(self.n)) as u32 + 1
    }
}

/// What every call begins with: a genesis that was read, its bytes, and a clock reading in its range.
#[derive(Debug, Clone, PartialEq, Eq)]
pub struct Opening<'a> {
    pub genesis: Genesis,
    pub bytes: &'a [u8],
    pub now: Slot,
}

impl<'a> Opening<'a> {
    /// 1, then 2.
    pub fn new(bytes: &'a [u8], now: Slot) -> Result<Opening<'a>, Refusal> {
        let genesis = read(bytes)?;
        if !SLOTS.contains(&now.0) {
            return Err(refusal(2));
        }
        Ok(Opening {
            genesis,
            bytes,
            now,
        })
    }
}

#[cfg(test)]
mod tests {
    use super::*;
    use crate::number::LARGEST;
    use crate::samples::{self, BAD_NOWS};

    /// 01's worked examples.
    #[test]
    fn whose_turn() {
        let six = samples::genesis(6, 1, 5);
        assert_eq!(six.turn(Slot(7)), 1);
        assert_eq!(six.turn(Slot(256)), 4);
        let turns: Vec<u32> = (1..=7).map(|slot| six.turn(Slot(slot))).collect();
        assert_eq!(turns, [1, 2, 3, 4, 5, 6, 1]);
        let one = samples::genesis(1, 0, 1);
        for slot in SLOTS {
            assert_eq!(one.turn(Slot(slot)), 1);
        }
    }

    /// 01's worked examples, 02's depth of 10, and "reading 'more than 3t + 1 slots ago' as 'at least'".
    #[test]
    fn what_is_settled() {
        let six = samples::genesis(6, 1, 5);
        assert!(six.settled(Slot(5), Slot(10)));
        assert!(!six.settled(Slot(6), Slot(10)));
        let four = samples::genesis(4, 1, 5);
        assert!(four.settled(Slot(1), Slot(12)));
        assert!(!four.settled(Slot(1), Slot(11)));
        let one = samples::genesis(1, 0, 1);
        assert!(one.settled(Slot(254), Slot(256)));
        assert!(!one.settled(Slot(255), Slot(256)));
        assert!(!one.settled(Slot(u32::MAX), Slot(256)));
    }

    fn depth(n: u32, t: u32) -> u32 {
        samples::genesis(n, t, 1).depth()
    }

    /// "For n of at least 5t + 1 nothing changes; n = 4, t = 1 gives 10; n = 7, t = 2 gives 31."
    #[test]
    fn depths() {
        assert_eq!(depth(4, 1), 10);
        assert_eq!(depth(7, 2), 31);
        for n in 1..=31 {
            for t in 0..=(n - 1) / 5 {
                assert_eq!(depth(n, t), 3 * t + 1, "n = {n}, t = {t}");
            }
        }
    }

    /// The most faulty turns that so many slots in a row can have: t in each round, and in what is left of one.
    fn most_faulty_turns(n: u32, t: u32, slots: u32) -> u32 {
        slots / n * t + (slots % n).min(t)
    }

    /// What the depth is for: it is the least number of slots from which on fewer than a third are faulty turns.
    #[test]
    fn the_least_depth_of_which_fewer_than_a_third_are_faulty() {
        for n in 1..=31 {
            for t in 0..=(n - 1) / 3 {
                let fewer = |slots: &u32| 3 * most_faulty_turns(n, t, *slots) < *slots;
                let last = (1..2_000).rev().find(|slots| !fewer(slots)).unwrap_or(0);
                assert_eq!(depth(n, t), last + 1, "n = {n}, t = {t}");
            }
        }
    }

    /// A block stamped 1 settles in slot 256 at the latest, if at all: the depth is then at most 254.
    #[test]
    fn stations_where_nothing_settles() {
        let sizes = (1..=31).flat_map(|n| (0..=(n - 1) / 3).map(move |t| (n, t)));
        let nothing: Vec<(u32, u32)> = sizes.filter(|(n, t)| depth(*n, *t) >= 255).collect();
        assert_eq!(nothing, [(22, 7), (25, 8), (28, 9), (29, 9), (31, 10)]);
    }

    #[test]
    fn tables_that_were_not_read_have_depth_0() {
        let sizes = [(0, 0), (32, 0), (3, 1), (30, 10), (31, 11), (31, u32::MAX)];
        for (n, t) in sizes.into_iter().chain([(1, 1_431_655_765)]) {
            assert_eq!(depth(n, t), 0, "n = {n}, t = {t}");
        }
    }

    #[test]
    fn every_size_is_read_back() {
        for n in 1..=31 {
            for t in 0..=(n - 1) / 3 {
                for u in [1, 64] {
                    let genesis = samples::genesis(n, t, u);
                    assert_eq!(read(&genesis.bytes()), Ok(genesis));
                }
            }
        }
    }

    /// "1 for n below 3t + 1, not 5t + 1."
    #[test]
    fn the_least_n() {
        for t in 1..=10 {
            let of = |n| read(&samples::genesis(n, t, 1).bytes()).map(|table| table.n);
            assert_eq!(of(3 * t), Err(refusal(1)), "t = {t}");
            assert_eq!(of(3 * t + 1), Ok(3 * t + 1), "t = {t}");
        }
    }

    #[test]
    fn shortest_and_longest() {
        let shortest = samples::worked_genesis();
        assert_eq!(shortest.bytes().len(), 99);
        let mut longest = samples::genesis(31, 10, 64);
        longest.releases = [LARGEST; 64];
        longest.keys = vec![[0xFF; 32]; 31];
        assert_eq!(longest.bytes().len(), LONGEST);
        assert_eq!(read(&longest.bytes()), Ok(longest));
    }

    /// FF FF FF FF 10, which was too large, is a release: 4,563,402,751.
    #[test]
    fn releases_of_35_bits() {
        let good = samples::table();
        for place in [3, 66] {
            let form = [0xFF, 0xFF, 0xFF, 0xFF, 0x10];
            let bytes = [&good[..place], &form, &good[place + 1..]].concat();
            let table = read(&bytes).unwrap();
            assert_eq!(table.releases[place - 3], 4_563_402_751);
            assert_eq!(table.bytes(), bytes);
        }
    }

    #[test]
    fn every_fault_is_1() {
        for (fault, bytes) in samples::bad_geneses() {
            assert_eq!(read(&bytes), Err(refusal(1)), "{fault}");
        }
    }

    #[test]
    fn the_clock_after_the_genesis() {
        let genesis = samples::table();
        for now in SLOTS.map(Slot) {
            assert_eq!(Opening::new(&genesis, now).map(|good| good.now), Ok(now));
        }
        for now in BAD_NOWS {
            assert_eq!(Opening::new(&genesis, now), Err(refusal(2)));
            assert_eq!(Opening::new(&genesis[1..], now), Err(refusal(1)));
        }
    }
}
