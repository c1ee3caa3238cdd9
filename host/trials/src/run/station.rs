//! What the controllers of a run share: the genesis, who is faulty, and signatures, which stand in for the host's.
use std::cell::RefCell;
use std::collections::HashMap;

use second::block::{self, Block};
use second::genesis::Genesis;
use second::order::Slot;
use second::{samples, sha256, walk};

pub struct Station {
    pub genesis: Genesis,
    pub bytes: Vec<u8>,
    faulty: Vec<u32>,
    /// Verdicts that were worked out before, by the block's bytes.
    known: RefCell<HashMap<Vec<u8>, u8>>,
}

impl Station {
    pub fn new(n: u32, t: u32, faulty: Vec<u32>) -> Station {
        assert!(faulty.len() <= t as usize);
        let genesis = samples::genesis(n, t, 64);
        Station {
            bytes: genesis.bytes(),
            genesis,
            faulty,
            known: RefCell::default(),
        }
    }

    pub fn is_faulty(&self, controller: u32) -> bool {
        self.faulty.contains(&controller)
    }

    /// Whether a slot is a faulty controller's turn.
    pub fn is_faulty_turn(&self, slot: Slot) -> bool {
        self.is_faulty(self.genesis.turn(slot))
    }

    /// How many turns before a slot are correct controllers'.
    pub fn correct_turns_before(&self, now: Slot) -> usize {
        let turns = (1..now.0).map(Slot);
        turns.filter(|slot| !self.is_faulty_turn(*slot)).count()
    }

    /// The digest of a controller's secret and a text, twice. Only the controller itself and the judge of signatures may ask for it.
    fn sign(&self, controller: u32, text: &[u8]) -> [u8; 64] {
        let secret = [!controller as u8; 32];
        let digest = sha256::digest(&[&secret, text].concat()).unwrap();
        std::array::from_fn(|place| digest[place % 32])
    }

    pub fn sign_slot(&self, controller: u32, slot: Slot) -> [u8; 64] {
        let mut text = [0; 6];
        let length = block::slot_text(slot, &mut text).unwrap();
        self.sign(controller, &text[..length])
    }

    /// Signs a block text.
    pub fn sign_block(&self, controller: u32, text: &[u8]) -> [u8; 64] {
        assert!(text.starts_with(b"block"));
        self.sign(controller, text)
    }

    /// Whether a signature is that of the controller whose key this is. The key of controller i is i, 32 times.
    pub fn verify(&self, key: &[u8; 32], text: &[u8], signature: &[u8; 64]) -> bool {
        self.sign(key[0].into(), text) == *signature
    }

    /// "Verdict 3 means that both signatures verify under the key whose turn the slot is."
    fn verdict(&self, block: &Block, bytes: &[u8]) -> u8 {
        let turn = self.genesis.turn(block.slot);
        let text = [b"block", &bytes[..bytes.len() - 64]].concat();
        let good = block.slot_signature == self.sign_slot(turn, block.slot)
            && block.block_signature == self.sign_block(turn, &text);
        2 + u8::from(good)
    }

    /// True verdicts on the blocks of a delivered chain, as far as they can be read.
    pub fn verdicts(&self, chain: &[u8]) -> Vec<u8> {
        let mut known = self.known.borrow_mut();
        walk::blocks(chain)
            .map(|(block, bytes)| {
                if !known.contains_key(bytes) {
                    known.insert(bytes.to_vec(), self.verdict(&block, bytes));
                }
                known[bytes]
            })
            .collect()
    }
}
