//! One controller, and what it does in a slot.
use super::station::Station;
use second::calls::Calls;
use second::chain::LONGEST;
use second::issue::Issue;
use second::order::{BlockCount, Order, Slot};
use second::pool::Pool;
use second::report::Report;
use second::Refusal;

/// A controller. Its buffer is full-sized.
pub struct Controller {
    pub number: u32,
    pub held: Vec<u8>,
    pub length: usize,
    pub pool: Pool,
}

impl Controller {
    pub fn new(number: u32) -> Controller {
        Controller {
            number,
            held: vec![0; LONGEST],
            length: 0,
            pool: Pool::of(&[]),
        }
    }

    pub fn chain(&self) -> &[u8] {
        &self.held[..self.length]
    }

    /// Is given a chain, with true verdicts.
    pub fn adopt(
        &mut self,
        station: &Station,
        calls: &Calls,
        now: Slot,
        chain: &[u8],
    ) -> Result<BlockCount, Refusal> {
        let verdicts = station.verdicts(chain);
        let genesis = &station.bytes;
        let adopted = (calls.adopt)(genesis, now, &mut self.held, self.length, chain, &verdicts);
        let (length, count) = adopted?;
        self.length = length;
        Ok(count)
    }

    /// Clears its pool of what no longer counts.
    pub fn clear(&mut self, station: &Station, calls: &Calls, now: Slot) -> Result<(), Refusal> {
        let genesis = &station.bytes;
        (calls.drop_entries)(genesis, now, &self.held, self.length, &mut self.pool)
    }

    /// Is offered an order by a depot, and adds it.
    pub fn offer(
        &mut self,
        station: &Station,
        calls: &Calls,
        now: Slot,
        order: Order,
        depot: u32,
    ) -> Result<(), Refusal> {
        let genesis = &station.bytes;
        let (held, pool) = (&self.held, &mut self.pool);
        (calls.add_order)(genesis, now, held, self.length, pool, order, depot)
    }

    /// Signs the slot text and the block text, and appends.
    pub fn issue(&mut self, station: &Station, calls: &Calls, now: Slot) -> Result<(), Refusal> {
        let issue = Issue {
            genesis: &station.bytes,
            now,
            pool: &self.pool,
            controller: self.number,
            slot_signature: station.sign_slot(self.number, now),
        };
        let mut text = [0; 192];
        let length = (calls.block_text)(&issue, &self.held, self.length, &mut text)?;
        let signature = station.sign_block(self.number, &text[..length]);
        self.length = (calls.append)(&issue, &mut self.held, self.length, signature)?;
        Ok(())
    }

    pub fn report(&self, station: &Station, calls: &Calls, now: Slot) -> Result<Report, Refusal> {
        (calls.report)(&station.bytes, now, &self.held, self.length)
    }
}
