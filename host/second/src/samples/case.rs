//! One case with the arguments of every call, faults to put into it, and how a call is held to its refusals.
use std::mem;

use super::{
    at, bad_chains, bad_geneses, bad_lengths, bad_pools, chain, counting, crowd, empty_blocks,
    entry, good_chain, old, old_crowds, order, put, table, verdicts, BAD_NOWS, BLOCK, COUNT,
    DISPLAY, FILLER, NEW, NOW, SLOT,
};
use crate::calls::{AddOrder, Adopt, Append, Check, Choose, DropEntries, Report, Write};
use crate::chain::LONGEST;
use crate::issue::Issue;
use crate::number::LARGEST;
use crate::order::{BlockCount, Order, Releases, Slot};
use crate::pool::Pool;
use crate::{refusal, report, Refusal};

/// The arguments of every call, and its lent buffers.
#[derive(Debug, Clone, PartialEq, Eq)]
pub struct Case {
    pub genesis: Vec<u8>,
    pub now: Slot,
    pub held: Vec<u8>,
    pub held_length: usize,
    pub delivered: Vec<u8>,
    pub verdicts: Vec<u8>,
    pub pool: Pool,
    pub order: Order,
    pub depot: u32,
    pub controller: u32,
    pub slot_signature: [u8; 64],
    pub block_signature: [u8; 64],
    pub buffer: Vec<u8>,
}

impl Case {
    /// A case that every call accepts: two blocks without orders are held, five are delivered, the pool takes display 2 from 40 to 41 for depot
    /// 1, and the offered order from 41 to 42 for depot 3.
    pub fn good() -> Case {
        let genesis = table();
        let mut held = chain(&genesis, &empty_blocks(&[1, 3]));
        let held_length = held.len();
        held.resize(1_000, FILLER);
        Case {
            now: NOW,
            held,
            held_length,
            delivered: good_chain(&genesis),
            verdicts: verdicts(5),
            pool: Pool::of(&[entry(order(2, 40, 41), 18).of_depot(1)]),
            order: order(2, 41, 42),
            depot: 3,
            controller: 2,
            slot_signature: [0x51; 64],
            block_signature: [0xB1; 64],
            buffer: vec![FILLER; 400],
            genesis,
        }
    }

    /// Checks the delivered chain.
    pub fn check(&self, call: Check) -> Result<(BlockCount, Releases), Refusal> {
        call(&self.genesis, self.now, &self.delivered, &self.verdicts)
    }

    /// The held chain as a slice, as far as there are bytes of it.
    pub fn held_chain(&self) -> &[u8] {
        self.held.get(..self.held_length).unwrap_or(&self.held)
    }

    pub fn choose(&self, call: Choose) -> (&[u8], Option<Refusal>) {
        call(
            &self.genesis,
            self.now,
            self.held_chain(),
            &self.delivered,
            &self.verdicts,
        )
    }

    pub fn adopt(&mut self, call: Adopt) -> Result<(usize, BlockCount), Refusal> {
        call(
            &self.genesis,
            self.now,
            &mut self.held,
            self.held_length,
            &self.delivered,
            &self.verdicts,
        )
    }

    pub fn report(&self, call: Report) -> Result<report::Report, Refusal> {
        call(&self.genesis, self.now, &self.held, self.held_length)
    }

    pub fn drop_entries(&mut self, call: DropEntries) -> Result<(), Refusal> {
        let (held, pool) = (&self.held, &mut self.pool);
        call(&self.genesis, self.now, held, self.held_length, pool)
    }

    pub fn add_order(&mut self, call: AddOrder) -> Result<(), Refusal> {
        call(
            &self.genesis,
            self.now,
            &self.held,
            self.held_length,
            &mut self.pool,
            self.order,
            self.depot,
        )
    }

    /// What issuing takes besides the held chain.
    fn issue(&self) -> Issue<'_> {
        Issue {
            genesis: &self.genesis,
            now: self.now,
            pool: &self.pool,
            controller: self.controller,
            slot_signature: self.slot_signature,
        }
    }

    /// Drafts, or writes the block text, into the buffer.
    pub fn write(&mut self, call: Write) -> Result<usize, Refusal> {
        let mut buffer = mem::take(&mut self.buffer);
        let answer = call(&self.issue(), &self.held, self.held_length, &mut buffer);
        self.buffer = buffer;
        answer
    }

    pub fn append(&mut self, call: Append) -> Result<usize, Refusal> {
        let mut held = mem::take(&mut self.held);
        let answer = call(
            &self.issue(),
            &mut held,
            self.held_length,
            self.block_signature,
        );
        self.held = held;
        answer
    }

    /// The second delivered block, from its first byte.
    fn second(&mut self) -> &mut [u8] {
        &mut self.delivered[BLOCK..]
    }
}

/// A fault in a good case: the refusal that it meets, and what makes it.
pub type Fault = (Refusal, fn(&mut Case));

/// The faults of adoption in their order, those of the second delivered block among them; 6 and 7 can't meet in one block, so one of the
/// two is asked for.
pub fn adopting_faults(stamp: u32) -> Vec<Fault> {
    let stamp_fault: Fault = match stamp {
        6 => (at(6, 2), |case| case.second()[SLOT] = 1),
        _ => (at(7, 2), |case| case.second()[SLOT] = 20),
    };
    vec![
        (refusal(1), |case| case.genesis.push(0)),
        (refusal(2), |case| case.now = Slot(257)),
        (at(17, 1), |case| case.held[0] ^= 1),
        (refusal(16), |case| case.delivered.resize(LONGEST + 1, 0)),
        (at(4, 2), |case| {
            put(&mut case.delivered, BLOCK + COUNT, &[0x81, 0])
        }),
        (at(5, 2), |case| case.second()[DISPLAY] = 64),
        stamp_fault,
        (at(8, 2), |case| case.verdicts[1] = 2),
        (at(9, 2), |case| case.second()[0] ^= 1),
        (at(10, 2), |case| case.second()[NEW] = 41),
        (refusal(11), |case| case.delivered.truncate(2 * BLOCK)),
        (refusal(15), |case| case.held.truncate(case.held_length)),
    ]
}

/// The faults of dropping in their order.
pub fn dropping_faults() -> Vec<Fault> {
    vec![
        (refusal(1), |case| case.genesis.push(0)),
        (refusal(2), |case| case.now = Slot(0)),
        (at(17, 2), |case| case.held[162] ^= 1),
        (refusal(18), |case| case.pool.count = 65),
    ]
}

/// The faults of adding in their order.
pub fn adding_faults() -> Vec<Fault> {
    vec![
        (refusal(1), |case| case.genesis.push(0)),
        (refusal(2), |case| case.now = Slot(0)),
        (at(17, 2), |case| case.held[162] ^= 1),
        (refusal(18), |case| case.pool.count = 65),
        (refusal(5), |case| case.order.display = 64),
        (refusal(14), |case| case.order.new = case.order.expected),
        (refusal(20), |case| {
            crowd(&mut case.pool, counting(), case.depot, 16)
        }),
    ]
}

/// The faults of issuing in their order.
pub fn issuing_faults() -> Vec<Fault> {
    vec![
        (refusal(1), |case| case.genesis.push(0)),
        (refusal(2), |case| case.now = Slot(0)),
        (at(17, 1), |case| case.held[0] ^= 1),
        (refusal(18), |case| case.pool.entries[0].slot = Slot(0)),
        (refusal(12), |case| case.controller = 3),
        (refusal(6), |case| case.held[162 + 33] = 20),
        (refusal(15), |case| {
            case.held.truncate(case.held_length);
            case.buffer.clear();
        }),
    ]
}

/// The faults of adding in all their ways: also where the entries that crowd a depot no longer count.
pub fn adding_kinds() -> Vec<Vec<Fault>> {
    let mut kinds = kinds(adding_faults());
    let full = with(&adding_faults(), 20, |case| {
        crowd(&mut case.pool, old(), case.depot, 16)
    });
    let crowded = with(&full, 18, |case| crowd(&mut case.pool, old(), 2, 17));
    kinds.extend([full, crowded]);
    kinds
}

/// These faults, and the same with other ways to meet 18 and 5: by releases, and by depots.
pub fn kinds(faults: Vec<Fault>) -> Vec<Vec<Fault>> {
    let releases = of_releases(&faults);
    let depots = of_depots(&faults);
    [vec![faults], releases.into(), depots.into()].concat()
}

/// These faults, where a release above the largest is what is wrong with the pool and with an offer: the expected one in the pool and the new
/// one in the offer, and the other way round.
fn of_releases(faults: &[Fault]) -> [Vec<Fault>; 2] {
    let expected = with(faults, 18, |case| {
        case.pool.entries[0].order.expected = LARGEST + 1
    });
    let new = with(faults, 18, |case| {
        case.pool.entries[0].order.new = LARGEST + 1
    });
    [
        with(&expected, 5, |case| case.order.new = LARGEST + 1),
        with(&new, 5, |case| case.order.expected = LARGEST + 1),
    ]
}

/// These faults, where a depot is what is wrong with the pool and with an offer: one above 3, and in the pool one with 17 counting entries.
fn of_depots(faults: &[Fault]) -> [Vec<Fault>; 2] {
    let above = with(faults, 18, |case| case.pool.entries[0].depot = 4);
    let crowded = with(faults, 18, |case| crowd(&mut case.pool, counting(), 2, 17));
    [above, crowded].map(|faults| with(&faults, 5, |case| case.depot = 4))
}

/// These faults, where another one is met with this number.
fn with(faults: &[Fault], number: u32, other: fn(&mut Case)) -> Vec<Fault> {
    faults
        .iter()
        .map(|(refused, fault)| match refused.number == number {
            true => (*refused, other),
            false => (*refused, *fault),
        })
        .collect()
}

/// Makes every choice of the faults, given in the order of refusals, and sees that the call refuses with the earliest of them and leaves the
/// case as it came. Without a fault it must accept.
pub fn refuses_in_order(faults: &[Fault], call: impl Fn(&mut Case) -> Option<Refusal>) {
    for choice in 0..1u32 << faults.len() {
        let chosen = (0..faults.len()).filter(|place| choice >> place & 1 == 1);
        let mut case = Case::good();
        let mut earliest = None;
        for place in chosen.rev() {
            let (refused, fault) = faults[place];
            fault(&mut case);
            earliest = Some(refused);
        }
        answers(earliest, &format!("choice {choice:b}"), case, &call);
    }
}

/// Sees that a call gives this refusal or none, and that a refusal leaves the case as it came.
pub fn answers(
    refused: Option<Refusal>,
    fault: &str,
    mut case: Case,
    call: impl Fn(&mut Case) -> Option<Refusal>,
) {
    let before = case.clone();
    assert_eq!(call(&mut case), refused, "{fault}");
    assert!(
        refused.is_none() || case == before,
        "{fault}: refused, and something changed"
    );
}

/// Sees that a call refuses every bad genesis with 1 and every bad now with 2.
pub fn refuses_bad_openings(call: impl Fn(&mut Case) -> Option<Refusal>) {
    for (fault, genesis) in bad_geneses() {
        let case = Case {
            genesis,
            ..Case::good()
        };
        answers(Some(refusal(1)), &fault, case, &call);
    }
    for now in BAD_NOWS {
        let case = Case {
            now,
            ..Case::good()
        };
        answers(Some(refusal(2)), &format!("{now:?}"), case, &call);
    }
}

/// Sees that a call refuses every bad held chain with 17 at its place.
pub fn refuses_bad_held(call: impl Fn(&mut Case) -> Option<Refusal>) {
    for (fault, held, refused) in bad_chains(&table()) {
        let case = Case {
            held_length: held.len(),
            held,
            ..Case::good()
        };
        let refused = Refusal {
            number: 17,
            ..refused
        };
        answers(Some(refused), &fault, case, &call);
    }
    for (held, held_length) in bad_lengths(&table()) {
        let case = Case {
            held,
            held_length,
            ..Case::good()
        };
        answers(
            Some(refusal(17)),
            &format!("held length {held_length}"),
            case,
            &call,
        );
    }
}

/// Sees that a call refuses every bad pool with 18.
pub fn refuses_bad_pools(call: impl Fn(&mut Case) -> Option<Refusal>) {
    for (fault, pool) in bad_pools() {
        let case = Case {
            pool,
            ..Case::good()
        };
        answers(Some(refusal(18)), &fault, case, &call);
    }
}

/// Sees that the adding call refuses with 18 where a depot has too many entries, though they no longer count.
pub fn refuses_old_crowds(call: impl Fn(&mut Case) -> Option<Refusal>) {
    for (fault, pool) in old_crowds() {
        let case = Case {
            pool,
            ..Case::good()
        };
        answers(Some(refusal(18)), &fault, case, &call);
    }
}

/// Sees that a call takes no offence at them.
pub fn takes_old_crowds(call: impl Fn(&mut Case) -> Option<Refusal>) {
    for (name, pool) in old_crowds() {
        let case = Case {
            pool,
            ..Case::good()
        };
        answers(None, &name, case, &call);
    }
}
