//! Pools by chance, each with a held chain behind which most of its orders are valid. Depots have all the room that they need, most often, and are
//! crowded often enough to be seen.
use self::Kind::{Old, Valid};
use super::Chance;
use crate::chain;
use crate::genesis::Opening;
use crate::number::LARGEST;
use crate::order::{Order, Release, Releases};
use crate::pool::{Entry, Pool};
use crate::samples::{self, Case, FILLER};

/// Whether an entry is to be valid where it stands, or for a display of which more is settled than it expects.
#[derive(Clone, Copy)]
enum Kind {
    Valid,
    Old,
}

/// The releases of a held chain: after all its blocks, and after the settled ones.
struct Held {
    whole: Releases,
    settled: Releases,
}

impl Held {
    /// For a chain that is bad.
    fn unknown() -> Held {
        Held {
            whole: [40; 64],
            settled: [40; 64],
        }
    }
}

impl Chance {
    /// The arguments of a call on a held chain and a pool, with an order and a controller that often suit them.
    pub fn issuing(&mut self) -> Case {
        let mut case = self.exchange();
        let Ok(opening) = Opening::new(&case.genesis, case.now) else {
            return case;
        };
        let summary = chain::summary(&opening, &case.held, case.held_length);
        let mut held = summary.map_or(Held::unknown(), |summary| Held {
            whole: summary.whole.releases,
            settled: summary.settled.releases,
        });
        case.depot = self.depot();
        case.pool = self.pool(case.now.0, case.depot, &mut held);
        case.order = self.offered(&mut held.whole);
        match self.below(90) {
            0..=2 => case.order.display = self.small(),
            3 => case.order.expected = self.above(),
            4 => case.order.new = self.above(),
            5 => case.depot = self.small(),
            _ => (),
        }
        case.controller = opening.genesis.turn(case.now) + u32::from(self.once_in(20));
        let room = case.held.len() + self.of(&[0, 170, 251, 300]);
        case.held.resize(room, FILLER);
        case.buffer
            .truncate(self.of(&[400, 400, 251, 192, 187, 103, 98, 97, 0]));
        case.slot_signature = self.array();
        case.block_signature = self.array();
        case
    }

    /// A depot.
    pub fn depot(&mut self) -> u32 {
        self.of(&[0, 1, 2, 3])
    }

    /// A pool of entries that are up to seven slots old, and what they put on these releases. Its count or an entry is bad now and then, and the
    /// asker's depot is crowded.
    fn pool(&mut self, now: u32, asker: u32, held: &mut Held) -> Pool {
        let mut origins = Vec::new();
        let mut depots = [0, 1, 2, 3];
        if self.once_in(5) {
            origins.extend(self.crowd(asker));
            // the others', so that the crowd is as large as it is meant to be
            depots = depots.map(|depot| {
                if depot == asker {
                    (depot + 1) % 4
                } else {
                    depot
                }
            });
        }
        let most = self.of(&[3, 12, 47]);
        for _ in 0..self.below(most) {
            let place = self.below(origins.len() + 1);
            origins.insert(place, (self.of(&depots), self.of(&[Valid, Valid, Old])));
        }
        let entries: Vec<Entry> = origins
            .into_iter()
            .map(|(depot, kind)| self.entry(now, kind, held).of_depot(depot))
            .collect();
        self.faulty_pool(Pool::of(&entries))
    }

    /// Depot and kind of about as many entries as a depot has room for, all of one kind or of both.
    fn crowd(&mut self, depot: u32) -> Vec<(u32, Kind)> {
        let count = self.of(&[15, 16, 16, 17]);
        let kinds = self.of(&[[Valid, Valid], [Valid, Old]]);
        (0..count).map(|_| (depot, self.of(&kinds))).collect()
    }

    /// An entry of a kind, and what it puts on the releases.
    fn entry(&mut self, now: u32, kind: Kind, held: &mut Held) -> Entry {
        let age = self.of(&[0, 1, 2, 3, 4, 5, 6, 7]);
        let order = match kind {
            Valid => self.offered(&mut held.whole),
            Old => self.overtaken(&held.settled),
        };
        samples::entry(order, now.saturating_sub(age).max(1))
    }

    /// An order that expects a little less than what is settled, or just that: then it counts, though blocks behind may have overtaken it.
    fn overtaken(&mut self, settled: &Releases) -> Order {
        let display = self.of(&[0, 1, 2, 3, 63]);
        let expected = settled[display as usize].saturating_sub(self.of(&[0, 1, 1, 2]));
        let new = (expected + self.of(&[0, 1, 2])).min(LARGEST);
        samples::order(display, expected, new)
    }

    /// A pool with a fault now and then, within the count or behind it.
    fn faulty_pool(&mut self, mut pool: Pool) -> Pool {
        let place = self.below(64);
        match self.below(40) {
            0 => pool.count = self.within(0, 64),
            1 => pool.entries[place] = samples::entry(self.order(), self.small()),
            // behind the count, most often
            2 => pool.entries[place].order.expected = self.above(),
            3 => pool.entries[0].order.expected = self.above(),
            4 => pool.entries[0].order.new = self.above(),
            5 => pool.entries[place].depot = self.small(),
            6 => pool.entries[0].depot = self.of(&[4, 5, 256, u32::MAX]),
            _ => (),
        }
        pool
    }

    /// An order that is valid at these releases, most often, and what it puts there.
    fn offered(&mut self, releases: &mut Releases) -> Order {
        let display = self.below(5) * 15;
        let expected = releases[display];
        let new = (expected + self.below(3) as Release).min(LARGEST);
        releases[display] = self.of(&[new, new, new, expected]);
        samples::order(display as u32, expected, new)
    }
}
