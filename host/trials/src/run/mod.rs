//! A run of several controllers over the calls, as demand 3 has it: the correct ones act in every slot, deliveries first, then issuing when it is
//! their turn; a chain that one of them issues reaches all of them in the next slot; the faulty ones send what they like.
mod controller;
mod faulty;
mod station;

use std::collections::BTreeMap;
use std::rc::Rc;

pub use controller::Controller;
use faulty::{Chain, Faulty, Letter};
use second::calls::Calls;
use second::chain;
use second::chance::Chance;
use second::genesis::Opening;
use second::order::{Releases, Slot};
use second::Refusal;
pub use station::Station;

/// What a run is made of. The same plan gives the same run.
#[derive(Debug, Clone, Copy)]
pub struct Plan {
    pub n: u32,
    pub t: u32,
    pub slots: u32,
    pub seed: u64,
}

/// What a run has shown beside that nothing broke.
#[derive(Debug, Default)]
pub struct Account {
    /// How many blocks were settled at its end.
    pub settled: u32,
    /// In how many slots two correct controllers held different chains after their deliveries.
    pub forks: u32,
    /// How often a delivered chain was adopted.
    pub adopted: u32,
    /// How many orders were pooled.
    pub pooled: u32,
    /// How often an adoption was refused, by number.
    pub refused: BTreeMap<u32, u32>,
}

/// What no run may show. Controllers are named by their numbers.
#[derive(Debug, PartialEq, Eq)]
pub enum Broken {
    /// Two report different settled lists in one slot.
    Differ(Slot, u32, u32),
    /// One no longer reports what was reported settled before.
    TakenBack(Slot, u32),
    /// One holds fewer blocks than there were correct turns.
    Behind(Slot, u32),
    /// One could not issue in its turn, not clear its pool, or not report.
    Refused(Slot, u32, Refusal),
}

/// What a controller reports settled: the bytes, and the releases after them.
type Settled = (Vec<u8>, Releases);

struct Run<'a> {
    station: Station,
    calls: &'a Calls,
    correct: Vec<Controller>,
    faulty: Faulty,
    chance: Chance,
    letters: Vec<Letter>,
    /// What was reported settled in the slot before.
    settled: Vec<u8>,
    account: Account,
}

/// Runs a plan with these calls.
pub fn run(plan: Plan, calls: &Calls) -> Result<Account, Broken> {
    let mut run = Run::new(plan, calls);
    for now in (1..=plan.slots).map(Slot) {
        run.deliver(now);
        run.judge(now)?;
        run.clear(now)?;
        run.offer(now);
        let mut letters = run.issue(now)?;
        letters.extend(run.disturb(now));
        run.letters = letters;
    }
    Ok(run.account)
}

impl<'a> Run<'a> {
    /// The faulty ones are by chance, next to each other in every other run, so that they have turns in a row.
    fn new(plan: Plan, calls: &'a Calls) -> Run<'a> {
        let Plan { n, t, seed, .. } = plan;
        let mut chance = Chance::of_seed(seed);
        let first = chance.below(n as usize) as u32;
        let apart = if chance.once_in(2) { 1 } else { n / t.max(1) };
        let faulty: Vec<u32> = (0..t)
            .map(|place| (first + place * apart) % n + 1)
            .collect();
        let station = Station::new(n, t, faulty);
        let correct = (1..=n)
            .filter(|number| !station.is_faulty(*number))
            .map(Controller::new)
            .collect();
        Run {
            station,
            calls,
            correct,
            faulty: Faulty::new(),
            chance,
            letters: Vec::new(),
            settled: Vec::new(),
            account: Account::default(),
        }
    }

    /// "Several deliveries in one slot are taken one after another", here in an order by chance.
    fn deliver(&mut self, now: Slot) {
        while !self.letters.is_empty() {
            let place = self.chance.below(self.letters.len());
            let (to, chain) = self.letters.swap_remove(place);
            match self.correct[to].adopt(&self.station, self.calls, now, &chain) {
                Ok(_) => self.account.adopted += 1,
                Err(refused) => *self.account.refused.entry(refused.number).or_default() += 1,
            }
        }
    }

    /// Demand 3, and that chains grow: "a correct controller holds at least as many blocks as there were correct turns before".
    fn judge(&mut self, now: Slot) -> Result<(), Broken> {
        let turns = self.station.correct_turns_before(now);
        let mut first: Option<(u32, Settled)> = None;
        let mut chains: Vec<&[u8]> = Vec::new();
        for one in &self.correct {
            let report = one
                .report(&self.station, self.calls, now)
                .map_err(|refused| Broken::Refused(now, one.number, refused))?;
            let settled = (one.held[..report.settled_length].to_vec(), report.releases);
            let (other, reported) = first.get_or_insert((one.number, settled.clone()));
            if *reported != settled {
                return Err(Broken::Differ(now, *other, one.number));
            }
            if !settled.0.starts_with(&self.settled) {
                return Err(Broken::TakenBack(now, one.number));
            }
            if (report.held.0 as usize) < turns {
                return Err(Broken::Behind(now, one.number));
            }
            self.account.settled = report.settled.0;
            chains.push(one.chain());
        }
        self.account.forks += u32::from(chains.iter().any(|chain| *chain != chains[0]));
        self.settled = first.map_or(Vec::new(), |(_, (bytes, _))| bytes);
        Ok(())
    }

    /// Most of the correct controllers clear their pools; the others add to what is there.
    fn clear(&mut self, now: Slot) -> Result<(), Broken> {
        for one in &mut self.correct {
            if self.chance.once_in(4) {
                continue;
            }
            one.clear(&self.station, self.calls, now)
                .map_err(|refused| Broken::Refused(now, one.number, refused))?;
        }
        Ok(())
    }

    /// Orders for some of the correct controllers, most of them valid behind what they hold.
    fn offer(&mut self, now: Slot) {
        for _ in 0..self.chance.below(3) {
            let place = self.chance.below(self.correct.len());
            let one = &mut self.correct[place];
            let opening = Opening::new(&self.station.bytes, now).unwrap();
            let held = chain::summary(&opening, &one.held, one.length).unwrap();
            let order = self.chance.order_at(&mut held.whole.releases.clone());
            let depot = self.chance.depot();
            let offered = one.offer(&self.station, self.calls, now, order, depot);
            self.account.pooled += u32::from(offered.is_ok());
        }
    }

    /// If it is a correct controller's turn, it issues a block, and the whole chain goes to all.
    fn issue(&mut self, now: Slot) -> Result<Vec<Letter>, Broken> {
        let turn = self.station.genesis.turn(now);
        let Some(one) = self.correct.iter_mut().find(|one| one.number == turn) else {
            return Ok(Vec::new());
        };
        one.issue(&self.station, self.calls, now)
            .map_err(|refused| Broken::Refused(now, turn, refused))?;
        let chain: Chain = Rc::from(one.chain());
        self.faulty.see(&chain);
        Ok((0..self.correct.len())
            .map(|to| (to, chain.clone()))
            .collect())
    }

    fn disturb(&mut self, now: Slot) -> Vec<Letter> {
        if self.station.genesis.t == 0 {
            return Vec::new();
        }
        let correct = self.correct.len();
        self.faulty
            .act(&self.station, now, correct, &mut self.chance)
    }
}
