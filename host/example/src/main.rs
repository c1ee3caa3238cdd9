//! A whole small run: two controllers, of whom none is faulty, keep one chain over four slots. This is the example to copy from. What a host
//! brings itself is made up here: `sign` and `verify`, storing, and sending, which is lending one controller's chain to the other.
use std::error::Error;

use ledger::{Held, Issue, Order, Pool, Refusal, Release, Report, Signature, Slot};
use ledger::{BLOCK_TEXT_BYTES, CHAIN_BYTES, DISPLAYS, GENESIS_BYTES, SLOTS, SLOT_TEXT_BYTES};

const DISPLAY: usize = 4;

/// Stands in for the host's signature scheme: the digest of key and text, twice. NOBODY MAY SIGN LIKE THIS: the key is in the genesis.
fn sign(key: &[u8; 32], text: &[u8]) -> [u8; 64] {
    let digest = ledger::digest(&[key, text].concat()).expect("a text is short");
    std::array::from_fn(|place| digest[place % 32])
}

fn verify(key: &[u8; 32], text: &[u8], signature: &[u8; 64]) -> bool {
    sign(key, text) == *signature
}

/// What a controller keeps. Chain and pool are as the last call left them.
struct Controller {
    number: u32,
    key: [u8; 32],
    held: Held<[u8; CHAIN_BYTES]>,
    pool: Pool,
}

impl Controller {
    /// A chain arrives. One that is not longer is refused, and the held one stays.
    fn deliver(&mut self, genesis: &[u8], now: Slot, chain: &[u8]) -> Result<(), Refusal> {
        let mut verdicts = [0; SLOTS];
        self.held
            .verdicts(genesis, now, chain, verify, &mut verdicts)?;
        self.held.adopt(genesis, now, chain, &verdicts)?;
        Ok(())
    }

    /// Its turn: it signs the slot text, then the block text, and appends. A host stores chain and slot before it sends.
    fn issue(&mut self, genesis: &[u8], now: Slot) -> Result<&[u8], Refusal> {
        let mut text = [0; SLOT_TEXT_BYTES];
        let slot_signature = sign(&self.key, ledger::slot_text(now, &mut text)?);
        let issue = Issue {
            genesis,
            now,
            pool: &self.pool,
            controller: self.number,
            slot_signature: Signature(slot_signature),
        };
        let mut text = [0; BLOCK_TEXT_BYTES];
        let block_signature = sign(&self.key, self.held.block_text(&issue, &mut text)?);
        self.held.append(&issue, Signature(block_signature))?;
        Ok(self.held.chain())
    }

    /// An order of depot 0 for the display is pooled, for this controller's next block. What no longer counts is dropped before: a call of its own,
    /// so it stays dropped where the order is then refused.
    fn offer(
        &mut self,
        genesis: &[u8],
        now: Slot,
        from: Release,
        to: Release,
    ) -> Result<(), Refusal> {
        let order = Order {
            display: DISPLAY as u32,
            expected: from,
            new: to,
        };
        self.held.drop_entries(genesis, now, &mut self.pool)?;
        self.held.add_order(genesis, now, &mut self.pool, order, 0)
    }

    fn report(&self, genesis: &[u8], now: Slot) -> Result<Report, Refusal> {
        let report = self.held.report(genesis, now)?;
        println!(
            "slot {}: controller {} holds {} blocks, {} of them settled, and display {DISPLAY} is to boot release {}",
            now.0, self.number, report.held.0, report.settled.0, report.releases[DISPLAY]
        );
        Ok(report)
    }
}

/// In each slot the deliveries come first, then the block of the controller whose turn it is.
fn main() -> Result<(), Box<dyn Error>> {
    let keys = [[1; 32], [2; 32]];
    let [mut one, mut two] = [1, 2].map(|number| Controller {
        number,
        key: keys[number as usize - 1],
        held: Held::new([0; CHAIN_BYTES]),
        pool: Pool::EMPTY,
    });
    // t = 0, and the display starts at release 7
    let mut releases = [0; DISPLAYS];
    releases[DISPLAY] = 7;
    let mut buffer = [0; GENESIS_BYTES];
    let genesis = ledger::write_genesis(0, &releases, &keys, &mut buffer)?;

    one.offer(genesis, Slot(1), 7, 8)?;
    let sent = one.issue(genesis, Slot(1))?;

    two.deliver(genesis, Slot(2), sent)?;
    two.offer(genesis, Slot(2), 8, 300)?;
    let sent = two.issue(genesis, Slot(2))?;

    one.deliver(genesis, Slot(3), sent)?;
    if let Err(refused) = one.deliver(genesis, Slot(3), sent) {
        println!("slot 3: controller 1 is given the same chain again: {refused}");
    }
    assert_eq!(one.report(genesis, Slot(3)), two.report(genesis, Slot(3)));
    let sent = one.issue(genesis, Slot(3))?;

    two.deliver(genesis, Slot(4), sent)?;
    assert_eq!(one.report(genesis, Slot(4)), two.report(genesis, Slot(4)));
    Ok(())
}
