//! The held chain, and the calls on it.
use crate::{raw, told, written};
use crate::{BlockCount, Order, Pool, Refusal, Releases, Signature, Slot};

/// A held chain: the first bytes of a buffer, and how many they are. The buffer is lent (`&mut [u8]`) or owned (`[u8; CHAIN_BYTES]`); one of
/// [`CHAIN_BYTES`](crate::CHAIN_BYTES) never is too short.
#[derive(Clone)]
pub struct Held<B> {
    buffer: B,
    length: usize,
}

/// What draft, block text and append take besides the held chain. What was signed is what is appended, if all three are given the same.
#[derive(Clone, Copy)]
pub struct Issue<'a> {
    pub genesis: &'a [u8],
    pub now: Slot,
    pub pool: &'a Pool,
    pub controller: u32,
    pub slot_signature: Signature,
}

/// What is settled, and what is held.
#[derive(Debug, Clone, PartialEq, Eq)]
pub struct Report {
    pub held: BlockCount,
    pub settled: BlockCount,
    /// Of the settled blocks in bytes.
    pub settled_length: usize,
    /// After the settled blocks.
    pub releases: Releases,
}

impl<B> Held<B> {
    /// The chain of no blocks, in this buffer.
    pub const fn new(buffer: B) -> Held<B> {
        Held { buffer, length: 0 }
    }

    /// A chain as it was stored: the first `length` bytes of a buffer. Nothing is judged here: the calls do that, with 17. Whether the
    /// signatures are good is for [`is_signed`](Held::is_signed) to say.
    pub const fn stored(buffer: B, length: usize) -> Held<B> {
        Held { buffer, length }
    }

    /// How many bytes the chain has.
    pub const fn length(&self) -> usize {
        self.length
    }

    /// Puts the length to 0. A controller whose held chain is bad (17), or that comes back after an outage, does this and takes the next whole
    /// chain.
    pub fn clear(&mut self) {
        self.length = 0;
    }
}

impl<B: AsRef<[u8]>> Held<B> {
    /// The chain's bytes, as far as the buffer has them: what is stored, and what is sent.
    pub fn chain(&self) -> &[u8] {
        written(self.buffer.as_ref(), self.length)
    }

    /// Reports: 1, 2, 17.
    pub fn report(&self, genesis: &[u8], now: Slot) -> Result<Report, Refusal> {
        let answer = raw::ledger_report(genesis, now, self.buffer.as_ref(), self.length);
        let report = Report {
            held: answer.held,
            settled: answer.settled,
            settled_length: answer.settled_length,
            releases: answer.releases,
        };
        told(answer.refusal, answer.place, report)
    }

    /// Drops the entries of a pool that no longer count, since a release above the one that they expect is settled: 1, 2, 17, 18. What it has dropped
    /// stays dropped, also where an order that is added then is refused.
    pub fn drop_entries(&self, genesis: &[u8], now: Slot, pool: &mut Pool) -> Result<(), Refusal> {
        let held = self.buffer.as_ref();
        let answer = raw::ledger_drop_entries(genesis, now, held, self.length, *pool);
        *pool = answer.pool;
        told(answer.refusal, answer.place, ())
    }

    /// Adds an order of a depot behind all entries of a pool, those that no longer count too: 1, 2, 17, 18, 5, 14, 20, 13. It drops none:
    /// [`drop_entries`](Held::drop_entries) does. The last refusal can't occur: each of the four depots has room for 16 of the 64 entries.
    pub fn add_order(
        &self,
        genesis: &[u8],
        now: Slot,
        pool: &mut Pool,
        order: Order,
        depot: u32,
    ) -> Result<(), Refusal> {
        let held = self.buffer.as_ref();
        let answer = raw::ledger_add_order(genesis, now, held, self.length, *pool, order, depot);
        *pool = answer.pool;
        told(answer.refusal, answer.place, ())
    }

    /// Writes the next block without its last 64 bytes, and gives it: 1, 2, 17, 18, 12, 6, 15.
    pub fn draft<'o>(&self, issue: &Issue, out: &'o mut [u8]) -> Result<&'o [u8], Refusal> {
        self.write(raw::ledger_draft, issue, out)
    }

    /// Writes the text of the next block that a host signs, and gives it: `block` and the draft. Refuses as the draft does.
    pub fn block_text<'o>(&self, issue: &Issue, out: &'o mut [u8]) -> Result<&'o [u8], Refusal> {
        self.write(raw::ledger_block_text, issue, out)
    }

    fn write<'o>(
        &self,
        call: Write,
        issue: &Issue,
        out: &'o mut [u8],
    ) -> Result<&'o [u8], Refusal> {
        let answer = call(
            issue.genesis,
            issue.now,
            self.buffer.as_ref(),
            self.length,
            *issue.pool,
            issue.controller,
            issue.slot_signature,
            out,
        );
        told(answer.refusal, answer.place, written(out, answer.length))
    }
}

/// The draft, or the block text.
type Write = fn(&[u8], Slot, &[u8], usize, Pool, u32, Signature, &mut [u8]) -> raw::IssueAnswer;

impl<B: AsMut<[u8]>> Held<B> {
    /// Puts a delivered chain in the place of the held one if it has more blocks: 1, 2, 17, 16, the delivered blocks as in
    /// [`check`](crate::check), 11, 15. Gives how many blocks are held then.
    pub fn adopt(
        &mut self,
        genesis: &[u8],
        now: Slot,
        delivered: &[u8],
        verdicts: &[u8],
    ) -> Result<BlockCount, Refusal> {
        let held = self.buffer.as_mut();
        let answer = raw::ledger_adopt(genesis, now, held, self.length, delivered, verdicts);
        self.length = answer.length;
        told(answer.refusal, answer.place, answer.count)
    }

    /// Writes the next block after the held chain: 1, 2, 17, 18, 12, 6, 15. Then [`chain`](Held::chain) is what is stored first and then sent.
    pub fn append(&mut self, issue: &Issue, block_signature: Signature) -> Result<(), Refusal> {
        let answer = raw::ledger_append(
            issue.genesis,
            issue.now,
            self.buffer.as_mut(),
            self.length,
            *issue.pool,
            issue.controller,
            issue.slot_signature,
            block_signature,
        );
        self.length = answer.length;
        told(answer.refusal, answer.place, ())
    }
}
