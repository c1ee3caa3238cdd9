//! One block: reading and writing it, and the slot text (01, "Orders, blocks, chains").
use std::ops::RangeInclusive;

use super::order::{Order, Slot, DISPLAYS, SLOTS};
use super::{lent, number, refusal, Refusal};

/// How many orders a block can have.
pub const ORDERS: RangeInclusive<u32> = 0..=8;

/// "A block is: 32 bytes of link, the number of orders (0 to 8), the orders (three numbers each), the slot (1 to 256), 64 bytes of slot
/// signature, 64 bytes of block signature."
#[derive(Debug, Clone, PartialEq, Eq)]
pub struct Block {
    pub link: [u8; 32],
    pub orders: Vec<Order>,
    pub slot: Slot,
    pub slot_signature: [u8; 64],
    pub block_signature: [u8; 64],
}

/// The block at the front of `bytes` and its length, or 3, 4, 5 in byte order.
pub fn read(bytes: &[u8]) -> Result<(Block, usize), Refusal> {
    let mut rest = bytes;
    let block = Block {
        link: lent::array(&mut rest)?,
        orders: take_orders(&mut rest)?,
        slot: Slot(take_within(SLOTS, &mut rest)?),
        slot_signature: lent::array(&mut rest)?,
        block_signature: lent::array(&mut rest)?,
    };
    Ok((block, bytes.len() - rest.len()))
}

/// Takes the number of orders and the orders.
fn take_orders(rest: &mut &[u8]) -> Result<Vec<Order>, Refusal> {
    let count = take_within(ORDERS, rest)?;
    (0..count).map(|_| take_order(rest)).collect()
}

fn take_order(rest: &mut &[u8]) -> Result<Order, Refusal> {
    Ok(Order {
        display: take_within(DISPLAYS, rest)?,
        expected: lent::number(rest)?,
        new: lent::number(rest)?,
    })
}

/// Takes a number; out of its range it is 5, at once.
fn take_within(range: RangeInclusive<u32>, rest: &mut &[u8]) -> Result<u32, Refusal> {
    let value = u32::try_from(lent::number(rest)?);
    match value {
        Ok(value) if range.contains(&value) => Ok(value),
        _ => Err(refusal(5)),
    }
}

impl Block {
    /// The block without its last 64 bytes.
    pub fn front_bytes(&self) -> Vec<u8> {
        let mut bytes = self.link.to_vec();
        bytes.extend(number::bytes(self.orders.len() as u64));
        for order in &self.orders {
            bytes.extend(number::bytes(order.display.into()));
            bytes.extend(number::bytes(order.expected));
            bytes.extend(number::bytes(order.new));
        }
        bytes.extend(number::bytes(self.slot.0.into()));
        bytes.extend(self.slot_signature);
        bytes
    }

    /// The whole block.
    pub fn bytes(&self) -> Vec<u8> {
        let mut bytes = self.front_bytes();
        bytes.extend(self.block_signature);
        bytes
    }

    /// Whether order count, displays, releases and slot are in their ranges.
    fn in_range(&self) -> bool {
        self.orders.len() <= *ORDERS.end() as usize
            && self.orders.iter().all(Order::in_range)
            && SLOTS.contains(&self.slot.0)
    }
}

/// Writes a block into a buffer from a place on and gives its length: 5, then 15.
pub fn write(block: &Block, buffer: &mut [u8], at: usize) -> Result<usize, Refusal> {
    if !block.in_range() {
        return Err(refusal(5));
    }
    lent::put(&block.bytes(), buffer, at)
}

/// Writes "the four letters `slot` followed by the slot as a number" and gives the length: 2, then 15.
pub fn slot_text(slot: Slot, buffer: &mut [u8]) -> Result<usize, Refusal> {
    if !SLOTS.contains(&slot.0) {
        return Err(refusal(2));
    }
    let text = [b"slot", &number::bytes(slot.0.into())[..]].concat();
    lent::put(&text, buffer, 0)
}

#[cfg(test)]
mod tests {
    use super::*;
    use crate::number::LARGEST;
    use crate::samples::{self, order, BAD_NOWS, EDITS};

    /// A block of one order whose numbers take one byte each.
    fn plain() -> Block {
        samples::block(9, &[order(2, 40, 41)])
    }

    /// The longest block.
    fn longest() -> Block {
        samples::block(256, &[order(63, LARGEST, LARGEST); 8])
    }

    #[test]
    fn shortest_and_longest() {
        for (block, length) in [(samples::block(1, &[]), 162), (longest(), 251)] {
            let bytes = block.bytes();
            assert_eq!(bytes.len(), length);
            assert_eq!(bytes[..length - 64], block.front_bytes());
            assert_eq!(read(&bytes), Ok((block, length)));
        }
    }

    #[test]
    fn parts_stand_in_their_order() {
        let block = plain();
        let mut bytes = block.link.to_vec();
        bytes.extend([1, 2, 40, 41, 9]);
        bytes.extend(block.slot_signature);
        bytes.extend(block.block_signature);
        assert_eq!(block.bytes(), bytes);
    }

    #[test]
    fn bytes_after_the_block_are_ignored() {
        for after in [0x00, 0x80, 0xFF] {
            let bytes = [plain().bytes(), vec![after; 300]].concat();
            assert_eq!(read(&bytes), Ok((plain(), 165)));
        }
    }

    #[test]
    fn every_cut_is_3() {
        for block in [plain(), longest(), samples::block(256, &[])] {
            let bytes = block.bytes();
            for end in 0..bytes.len() {
                assert_eq!(read(&bytes[..end]), Err(refusal(3)), "{end} bytes");
            }
        }
    }

    #[test]
    fn numbers_badly_written_or_out_of_range() {
        for edit in EDITS.iter().filter(|edit| edit.number <= 5) {
            let mut bytes = plain().bytes();
            (edit.change)(&mut bytes);
            assert_eq!(read(&bytes), Err(refusal(edit.number)), "{}", edit.name);
        }
    }

    /// A link and what follows it.
    fn after_link(bytes: &[u8]) -> Vec<u8> {
        [&[0; 32], bytes].concat()
    }

    #[test]
    fn the_earlier_byte_decides() {
        let faults: [(u32, &[u8]); 20] = [
            (5, &[9]),                                // a count of 9 at the slice's end
            (4, &[0x80, 0x00]),                       // not shortest, at the slice's end
            (3, &[0x80]),                             // cut, although it began badly
            (3, &[0x80, 0x80, 0x80, 0x80]),           // cut, although it can only be too large
            (4, &[0xFF, 0xFF, 0xFF, 0xFF, 0xFF]),     // too large, at the slice's end
            (5, &[0x89, 0x02]),                       // 265 is not 9 and not 1
            (4, &[1, 0xC0, 0x00]),                    // a display of 64, badly written
            (5, &[1, 64]),                            // a display out of range, then a cut
            (5, &[1, 64, 0x80, 0x00]),                // then a number badly written
            (4, &[1, 0x80, 0x00, 0x80]),              // badly written, then a cut
            (3, &[1, 2, 0x80]),                       // a cut in the expected release
            (4, &[1, 2, 0, 0x81, 0x00, 0]),           // then a slot out of range
            (5, &[0, 0]),                             // slot 0, then a cut
            (5, &[2, 2, 40, 41, 64, 0x80, 0x00, 41]), // the second order's display first
            (5, &[0x80, 0x80, 0x80, 0x80, 0x10]),     // a count of 2^32, which is not 0
            (5, &[1, 0x82, 0x80, 0x80, 0x80, 0x10]),  // a display of 2^32 + 2
            (5, &[0, 0x81, 0x80, 0x80, 0x80, 0x10]),  // a slot of 2^32 + 1
            (5, &[0, 0xFF, 0xFF, 0xFF, 0xFF, 0x7F]),  // the largest number, as a slot
            (4, &[1, 0x82, 0x80, 0x80, 0x80, 0x80]),  // a display too large, not out of range
            (3, &[1, 2, 0xFF, 0xFF, 0xFF, 0xFF]),     // a cut in an expected release above 2^28
        ];
        for (number, bytes) in faults {
            assert_eq!(
                read(&after_link(bytes)),
                Err(refusal(number)),
                "{bytes:02X?}"
            );
        }
    }

    /// An order from 2^32 to the largest release, its bytes by hand.
    #[test]
    fn releases_of_35_bits() {
        let block = samples::block(9, &[order(2, 1 << 32, 34_359_738_367)]);
        let mut bytes = vec![0; 32];
        bytes.extend([1, 2, 0x80, 0x80, 0x80, 0x80, 0x10]);
        bytes.extend([0xFF, 0xFF, 0xFF, 0xFF, 0x7F, 9]);
        bytes.extend([[9; 64], [0xF6; 64]].as_flattened());
        assert_eq!(read(&bytes), Ok((block.clone(), 173)));
        let mut buffer = [0xEE; 173];
        assert_eq!(write(&block, &mut buffer, 0), Ok(173));
        assert_eq!(buffer[..], bytes);
    }

    #[test]
    fn one_block_has_one_form() {
        for block in [plain(), longest(), samples::block(128, &[])] {
            for place in 0..block.bytes().len() {
                for byte in 0..=255 {
                    let mut bytes = [block.bytes(), vec![0; 100]].concat();
                    bytes[place] = byte;
                    if let Ok((read, length)) = read(&bytes) {
                        assert_eq!(read.bytes(), bytes[..length]);
                    }
                }
            }
        }
    }

    #[test]
    fn written_where_it_was_asked() {
        let bytes = plain().bytes();
        for at in [0, 1, 7, 35] {
            let mut buffer = [0xEE; 200];
            assert_eq!(write(&plain(), &mut buffer, at), Ok(165));
            assert_eq!(buffer[..at], [0xEE; 200][..at]);
            assert_eq!(buffer[at..at + 165], bytes);
            assert_eq!(buffer[at + 165..], [0xEE; 200][at + 165..]);
        }
    }

    #[test]
    fn what_is_written_is_read() {
        let mut buffer = [0; 251];
        for orders in 0..=8 {
            let orders = vec![order(63, 7, 7); orders];
            let block = samples::block(200, &orders);
            let length = write(&block, &mut buffer, 0).unwrap();
            assert_eq!(read(&buffer), Ok((block, length)));
        }
    }

    #[test]
    fn a_new_release_not_above_is_written() {
        let mut buffer = [0; 165];
        let block = samples::block(9, &[order(2, 40, 39)]);
        assert_eq!(write(&block, &mut buffer, 0), Ok(165));
        assert_eq!(buffer[..], block.bytes());
    }

    #[test]
    fn out_of_range_is_not_written() {
        let good = order(0, 0, 1);
        for block in [
            samples::block(9, &[good; 9]),
            samples::block(9, &[good; 257]),
            samples::block(9, &[order(64, 0, 1)]),
            samples::block(9, &[good, good, order(256, 0, 1), good]),
            samples::block(9, &[good, order(u32::MAX, 0, 1)]),
            samples::block(0, &[]),
            samples::block(257, &[]),
            samples::block(65_537, &[]),
            samples::block(9, &[order(0, LARGEST + 1, 1)]),
            samples::block(9, &[order(0, 0, LARGEST + 1)]),
            samples::block(9, &[good, good, order(0, u64::MAX, 1), good]),
            samples::block(9, &[good, order(0, 0, u64::MAX)]),
        ] {
            for length in [0, 4_000] {
                let mut buffer = vec![0xEE; length];
                assert_eq!(write(&block, &mut buffer, 0), Err(refusal(5)));
                assert_eq!(buffer, vec![0xEE; length]);
            }
        }
    }

    #[test]
    fn a_buffer_too_short_for_the_block() {
        for (length, at) in [
            (0, 0),
            (164, 0),
            (165, 1),
            (165, 165),
            (165, 166),
            (165, usize::MAX),
        ] {
            let mut buffer = vec![0xEE; length];
            assert_eq!(write(&plain(), &mut buffer, at), Err(refusal(15)));
            assert_eq!(buffer, vec![0xEE; length]);
        }
    }

    #[test]
    fn slot_texts() {
        for (slot, text) in [
            (1, &b"slot\x01"[..]),
            (127, b"slot\x7F"),
            (128, b"slot\x80\x01"),
            (256, b"slot\x80\x02"),
        ] {
            let mut buffer = [0xEE; 8];
            assert_eq!(slot_text(Slot(slot), &mut buffer), Ok(text.len()));
            assert_eq!(buffer[..text.len()], *text);
            assert_eq!(buffer[text.len()..], [0xEE; 8][text.len()..]);
            let exact = &mut buffer[..text.len()];
            assert_eq!(slot_text(Slot(slot), exact), Ok(text.len()));
            let mut short = vec![0xEE; text.len() - 1];
            assert_eq!(slot_text(Slot(slot), &mut short), Err(refusal(15)));
            assert_eq!(short, vec![0xEE; text.len() - 1]);
        }
    }

    #[test]
    fn no_text_for_a_slot_out_of_range() {
        for slot in BAD_NOWS {
            for length in [0, 20] {
                let mut buffer = vec![0xEE; length];
                assert_eq!(slot_text(slot, &mut buffer), Err(refusal(2)));
                assert_eq!(buffer, vec![0xEE; length]);
            }
        }
    }
}
