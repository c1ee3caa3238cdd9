//! Numbers, the digest, single blocks and the slot text.
use crate::{raw, told, written, Block, Refusal, Slot, DIGEST_BYTES};

/// The number at a place, and the place after it: 3, 4.
pub fn read_number(bytes: &[u8], at: usize) -> Result<(u64, usize), Refusal> {
    let answer = raw::ledger_read_number(bytes, at);
    told(answer.refusal, answer.place, (answer.value, answer.next))
}

/// Writes a number at a place of a buffer and gives the place after it: 4 if it is above [`LARGEST`](crate::LARGEST), 15.
pub fn write_number(value: u64, at: usize, out: &mut [u8]) -> Result<usize, Refusal> {
    let answer = raw::ledger_write_number(value, at, out);
    told(answer.refusal, answer.place, answer.next)
}

/// SHA-256: 16.
pub fn digest(message: &[u8]) -> Result<[u8; DIGEST_BYTES], Refusal> {
    let answer = raw::ledger_digest(message);
    told(answer.refusal, answer.place, answer.digest)
}

/// The block at a place, and the place after it: 3, 4, 5 in byte order.
pub fn read_block(bytes: &[u8], at: usize) -> Result<(Block, usize), Refusal> {
    let answer = raw::ledger_read_block(bytes, at);
    told(answer.refusal, answer.place, (answer.block, answer.next))
}

/// Writes a block at a place of a buffer and gives the place after it: 5, 15.
pub fn write_block(block: &Block, at: usize, out: &mut [u8]) -> Result<usize, Refusal> {
    let answer = raw::ledger_write_block(*block, at, out);
    told(answer.refusal, answer.place, answer.next)
}

/// Writes the text of a slot that a host signs, and gives it: 2, 15.
pub fn slot_text(slot: Slot, out: &mut [u8]) -> Result<&[u8], Refusal> {
    let answer = raw::ledger_slot_text(slot, out);
    told(answer.refusal, answer.place, written(out, answer.next))
}
