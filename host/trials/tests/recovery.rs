//! What a host does when something has gone wrong with a controller: an outage, a damaged byte, a bad pool. n = 6 and t = 1, so a block is
//! settled exactly if its slot + 4 < now.
use second::order::{BlockCount, Releases, Slot};
use second::pool::Pool;
use second::report::Report;
use second::samples::{at, entry, order};
use second::{refusal, Refusal};
use trials::both::BOTH;
use trials::run::{Controller, Station};

/// Six controllers, and the chain that was issued in the slot before.
struct Six {
    station: Station,
    all: Vec<Controller>,
    issued: Option<Vec<u8>>,
}

impl Six {
    fn new() -> Six {
        Six {
            station: Station::new(6, 1, vec![]),
            all: (1..=6).map(Controller::new).collect(),
            issued: None,
        }
    }

    fn one(&mut self, number: u32) -> &mut Controller {
        &mut self.all[number as usize - 1]
    }

    /// A controller is given the chain of the slot before, if there is one.
    fn deliver(&mut self, to: u32, now: Slot) -> Result<BlockCount, Refusal> {
        let chain = self.issued.clone().unwrap_or_default();
        self.all[to as usize - 1].adopt(&self.station, &BOTH, now, &chain)
    }

    /// The controllers that are here are given the chain of the slot before. Then the one whose turn it is issues, if it is here.
    fn slot(&mut self, now: Slot, here: &[u32]) {
        for number in here {
            let _ = self.deliver(*number, now);
        }
        self.issue(now, here);
    }

    fn issue(&mut self, now: Slot, here: &[u32]) {
        let turn = self.station.genesis.turn(now);
        self.issued = None;
        if here.contains(&turn) {
            let one = &mut self.all[turn as usize - 1];
            one.issue(&self.station, &BOTH, now).unwrap();
            self.issued = Some(one.chain().to_vec());
        }
    }

    fn report(&self, number: u32, now: Slot) -> Result<Report, Refusal> {
        self.all[number as usize - 1].report(&self.station, &BOTH, now)
    }

    /// The first line of a report.
    fn line(&self, number: u32, now: Slot) -> String {
        let report = self.report(number, now).unwrap();
        format!("{} {} {}", now.0, report.held.0, report.settled.0)
    }

    /// What a controller reports settled: the blocks' bytes, and the releases after them.
    fn settled(&self, number: u32, now: Slot) -> (Vec<u8>, Releases) {
        let report = self.report(number, now).unwrap();
        let bytes = &self.all[number as usize - 1].held[..report.settled_length];
        (bytes.to_vec(), report.releases)
    }
}

const ALL: [u32; 6] = [1, 2, 3, 4, 5, 6];
const OTHERS: [u32; 5] = [1, 2, 4, 5, 6];

/// Slots 1 to 11, and the deliveries of slot 12. Controller 3 issues a block with an order in slot 3, and is gone before anybody is given it.
/// In slot 12 it comes back, and its clock is set right.
fn after_an_outage() -> Six {
    let mut six = Six::new();
    for now in [1, 2].map(Slot) {
        six.slot(now, &ALL);
    }
    let _ = six.deliver(3, Slot(3));
    let Six { station, all, .. } = &mut six;
    all[2]
        .offer(station, &BOTH, Slot(3), order(7, 0, 9), 0)
        .unwrap();
    six.slot(Slot(3), &ALL);
    six.issued = None;
    for now in (4..=11).map(Slot) {
        six.slot(now, &OTHERS);
    }
    for number in OTHERS {
        let _ = six.deliver(number, Slot(12));
    }
    six
}

/// The others have a block in each slot from 1 to 11 but 3 and 9, the turns of controller 3: 9 blocks, of which those of 1, 2, 4, 5, 6 and 7 are
/// settled. Controller 3 has those of 1, 2 and 3, which all lie back far enough.
///
/// So it counts among the faulty from the slot in which it was not given a chain: among the five demand 3 holds in every slot, but not among
/// the six.
#[test]
fn who_was_away_reports_what_nobody_else_does() {
    let six = after_an_outage();
    let now = Slot(12);
    assert_eq!(six.line(3, now), "12 3 3");
    let (bytes, releases) = six.settled(1, now);
    for number in OTHERS {
        assert_eq!(six.line(number, now), "12 9 6");
        assert_eq!(six.settled(number, now), (bytes.clone(), releases));
    }
    let (away, booted) = six.settled(3, now);
    assert!(!bytes.starts_with(&away) && !away.starts_with(&bytes));
    assert_eq!((booted[7], releases[7]), (9, 0));
}

/// Length 0, then every whole chain as it comes: from the first on it reports as the others do, to the end of the run. It issues in its turns
/// again.
#[test]
fn who_was_away_begins_with_no_blocks() {
    let mut six = after_an_outage();
    six.one(3).length = 0;
    assert_eq!(six.deliver(3, Slot(12)), Ok(BlockCount(9)));
    for now in (12..=256).map(Slot) {
        for number in ALL {
            let _ = six.deliver(number, now);
            assert_eq!(six.settled(number, now), six.settled(1, now), "{now:?}");
        }
        six.issue(now, &ALL);
    }
    assert_eq!(six.line(3, Slot(256)), "256 253 249");
}

/// Six controllers in slot 6, after deliveries: all hold the blocks of slots 1 to 5, of 162 bytes each.
fn in_slot_6() -> Six {
    let mut six = Six::new();
    for now in (1..=5).map(Slot) {
        six.slot(now, &ALL);
    }
    for number in ALL {
        let _ = six.deliver(number, Slot(6));
    }
    assert_eq!(six.line(2, Slot(6)), "6 5 1");
    six
}

/// A byte of controller 2's held chain is damaged, and the refusal that it then meets everywhere: a block's own, or the next one's, whose link is
/// wrong then.
#[test]
fn one_damaged_byte() {
    for (byte, place) in [(0, 1), (162, 2), (162 + 32, 2), (162 + 40, 3), (4 * 162, 5)] {
        let mut six = in_slot_6();
        six.one(2).held[byte] ^= 0x80;
        let refused = at(17, place);
        six.issue(Slot(6), &ALL);
        for now in (7..=13).map(Slot) {
            assert_eq!(six.deliver(2, now), Err(refused), "{byte}: {now:?}");
            assert_eq!(six.report(2, now), Err(refused));
            let others = [1, 3, 4, 5, 6];
            six.slot(now, &others);
        }
        six.one(2).length = 0;
        assert_eq!(six.deliver(2, Slot(14)), Ok(BlockCount(12)));
        let _ = six.deliver(1, Slot(14));
        assert_eq!(six.settled(2, Slot(14)), six.settled(1, Slot(14)));
    }
}

/// A bad pool keeps a controller from clearing it, from pooling and from issuing until it is emptied.
#[test]
fn a_bad_pool() {
    let mut six = in_slot_6();
    let Six { station, all, .. } = &mut six;
    let one = &mut all[5];
    one.pool = Pool::of(&[entry(order(0, 0, 1), 7)]);
    for _ in 0..2 {
        assert_eq!(one.clear(station, &BOTH, Slot(6)), Err(refusal(18)));
        let offered = one.offer(station, &BOTH, Slot(6), order(1, 0, 1), 0);
        assert_eq!(offered, Err(refusal(18)));
        assert_eq!(one.issue(station, &BOTH, Slot(6)), Err(refusal(18)));
    }
    one.pool = Pool::of(&[]);
    one.offer(station, &BOTH, Slot(6), order(1, 0, 1), 0)
        .unwrap();
    assert_eq!(one.issue(station, &BOTH, Slot(6)), Ok(()));
}
