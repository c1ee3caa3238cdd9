//! Single blocks read at a place of a slice.
use second::block::{self, Block};
use second::number::LARGEST;
use second::samples::{self, order, EDITS};
use second::Refusal;

use crate::case::{bytes_text, case, told, Case, Field, Op, Section};

/// block BYTES AT
pub struct Read(pub Vec<u8>, pub usize);

impl Op for Read {
    fn word(&self) -> &'static str {
        "block"
    }

    fn fields(&self) -> Vec<Field> {
        vec![self.0[..].into(), self.1.into()]
    }

    fn answer(&self) -> String {
        told(self.read(), |(block, next)| {
            format!("{} next {next}", block_text(&block))
        })
    }
}

impl Read {
    /// The block and the place after it. Past the end of the bytes there are none.
    fn read(&self) -> Result<(Block, usize), Refusal> {
        let rest = self.0.get(self.1..).unwrap_or(&[]);
        let (block, length) = block::read(rest)?;
        Ok((block, self.1 + length))
    }
}

/// body BYTES AT
pub struct Body(pub Read);

impl Op for Body {
    fn word(&self) -> &'static str {
        "body"
    }

    fn fields(&self) -> Vec<Field> {
        self.0.fields()
    }

    fn answer(&self) -> String {
        told(self.0.read(), |(block, next)| {
            format!("{} next {next}", body_text(&block))
        })
    }
}

/// A block's orders and slot.
fn body_text(block: &Block) -> String {
    let orders: String = block
        .orders
        .iter()
        .map(|order| format!(" {} {} {}", order.display, order.expected, order.new))
        .collect();
    format!(
        "orders {}{orders} slot {}",
        block.orders.len(),
        block.slot.0
    )
}

/// A block's parts.
pub fn block_text(block: &Block) -> String {
    format!(
        "link {} {} signatures {} {}",
        bytes_text(&block.link),
        body_text(block),
        bytes_text(&block.slot_signature),
        bytes_text(&block.block_signature),
    )
}

/// A block of one order whose numbers take one byte each: 165 bytes.
pub fn plain() -> Block {
    samples::block(9, &[order(2, 40, 41)])
}

/// "It has 162 to 251 bytes."
pub fn shortest() -> Block {
    samples::block(1, &[])
}

pub fn longest() -> Block {
    samples::block(256, &[order(63, LARGEST, LARGEST); 8])
}

/// A block in which no two parts, and no two bytes of one, are alike.
pub fn mixed() -> Block {
    let orders: Vec<_> = (0..8)
        .map(|place| order(place, 16 << (4 * place), 48 << (4 * place)))
        .collect();
    Block {
        link: std::array::from_fn(|place| place as u8),
        slot_signature: std::array::from_fn(|place| 0x40 + place as u8),
        block_signature: std::array::from_fn(|place| 0x80 + place as u8),
        ..samples::block(128, &orders)
    }
}

fn read() -> Vec<Case> {
    let after = |block: Block, after: &[u8]| [&block.bytes()[..], after].concat();
    vec![
        case("the shortest, 162 bytes", Read(shortest().bytes(), 0))
            .by_hand("link 00*32 orders 0 slot 1 signatures 01*64 fe*64 next 162"),
        case("one order, 165 bytes", Read(plain().bytes(), 0))
            .by_hand("link 00*32 orders 1 2 40 41 slot 9 signatures 09*64 f6*64 next 165"),
        case("the longest, 251 bytes", Read(longest().bytes(), 0)),
        case("every part unlike the others", Read(mixed().bytes(), 0)),
        case(
            "slot 127, one byte",
            Read(samples::block(127, &[]).bytes(), 0),
        ),
        case(
            "slot 128, two bytes",
            Read(samples::block(128, &[]).bytes(), 0),
        ),
        case(
            "a new release not above the expected one is read",
            Read(samples::block(9, &[order(2, 40, 39)]).bytes(), 0),
        ),
        case("followed by zeros", Read(after(plain(), &[0; 300]), 0)),
        case("followed by FF", Read(after(plain(), &[0xFF; 300]), 0)),
        case(
            "the longest, followed by a count of 9",
            Read(after(longest(), &[9]), 0),
        ),
        case(
            "at a place, after another block",
            Read(after(shortest(), &plain().bytes()), 162),
        ),
        case(
            "at a place, after 7 bytes, and followed by others",
            Read([&[0xAB; 7], &mixed().bytes()[..], &[0xCD; 5]].concat(), 7),
        ),
    ]
}

/// One order, whose releases have more than 32 bits: the bytes written out by hand.
fn of_35_bits() -> Vec<Case> {
    let mut bytes = vec![0; 32];
    bytes.extend([1, 2, 0xFF, 0xFF, 0xFF, 0xFF, 0x10]);
    bytes.extend([0xFF, 0xFF, 0xFF, 0xFF, 0x7F]);
    bytes.extend([9; 1 + 64 + 64]);
    let body = "orders 1 2 4563402751 34359738367 slot 9";
    let whole = format!("link 00*32 {body} signatures 09*64 09*64 next 173");
    vec![
        case(
            "from FF FF FF FF 10 to FF FF FF FF 7F, the largest",
            Read(bytes.clone(), 0),
        )
        .by_hand(whole),
        case("what judging needs of it", Body(Read(bytes, 0))).by_hand(format!("{body} next 173")),
    ]
}

fn refused(name: impl Into<String>, bytes: Vec<u8>, at: usize, number: u32) -> Case {
    case(name, Read(bytes, at)).by_hand(format!("refused {number} 0"))
}

fn cut() -> Vec<Case> {
    let ends: [(&str, Block, &[usize]); 3] = [
        ("the shortest", shortest(), &[0, 31, 32, 33, 98, 161]),
        (
            "one order",
            plain(),
            &[1, 33, 34, 35, 36, 37, 100, 101, 164],
        ),
        ("the longest", longest(), &[37, 121, 122, 187, 250]),
    ];
    let mut cases = Vec::new();
    for (name, block, ends) in ends {
        let bytes = block.bytes();
        for &end in ends {
            let name = format!("{name}, cut to {end} bytes of {}", bytes.len());
            cases.push(refused(name, bytes[..end].to_vec(), 0, 3));
        }
    }
    for at in [1, 164, 165, 166, usize::MAX - 31, usize::MAX] {
        let name = format!("one order, read from place {at}");
        cases.push(refused(name, plain().bytes(), at, 3));
    }
    cases
}

/// The faults of one block that meet 4 or 5, in a block of one order.
fn edited() -> Vec<Case> {
    EDITS
        .iter()
        .filter(|edit| edit.number <= 5)
        .map(|edit| {
            let mut bytes = plain().bytes();
            (edit.change)(&mut bytes);
            refused(edit.name, bytes, 0, edit.number)
        })
        .collect()
}

/// What stands behind a link of zeros, the refusal, and why.
#[rustfmt::skip]
const FIRST_FAULTS: [(&str, u32, &[u8]); 24] = [
    ("a count of 9 at the slice's end", 5, &[9]),
    ("a count of 80 00 at the slice's end", 4, &[0x80, 0x00]),
    ("a count of 80: cut, although it began badly", 3, &[0x80]),
    ("a count of four high bits: cut", 3, &[0x80, 0x80, 0x80, 0x80]),
    ("a count of five high bits: too large", 4, &[0xFF, 0xFF, 0xFF, 0xFF, 0xFF]),
    ("a count of 265, which is neither 9 nor 1", 5, &[0x89, 0x02]),
    ("a count of 256, which is not 0", 5, &[0x80, 0x02]),
    ("C0 00 as a display: 4, not 5", 4, &[1, 0xC0, 0x00]),
    ("a display of 64, then a cut", 5, &[1, 64]),
    ("a display of 64, then a number badly written", 5, &[1, 64, 0x80, 0x00]),
    ("a display badly written, then a cut", 4, &[1, 0x80, 0x00, 0x80]),
    ("a cut in the expected release", 3, &[1, 2, 0x80]),
    ("a cut in the new release", 3, &[1, 2, 40, 0xFF, 0xFF]),
    ("a new release badly written, then slot 0", 4, &[1, 2, 0, 0x81, 0x00, 0]),
    ("slot 0, then a cut", 5, &[0, 0]),
    ("slot 80 00: 4, not 5", 4, &[0, 0x80, 0x00]),
    ("the second order's display before its other numbers", 5, &[2, 2, 40, 41, 64, 0x80, 0x00, 41]),
    ("a count of 4,294,967,296: 5, not 4, and not 0", 5, &[0x80, 0x80, 0x80, 0x80, 0x10]),
    ("a display of 4,294,967,298", 5, &[1, 0x82, 0x80, 0x80, 0x80, 0x10]),
    ("a display of 34,359,738,367", 5, &[1, 0xFF, 0xFF, 0xFF, 0xFF, 0x7F]),
    ("a slot of 4,294,967,297", 5, &[0, 0x81, 0x80, 0x80, 0x80, 0x10]),
    ("an expected release of FF FF FF FF 00: not shortest", 4, &[1, 2, 0xFF, 0xFF, 0xFF, 0xFF, 0x00]),
    ("an expected release of five high bits, at the slice's end", 4, &[1, 2, 0x80, 0x80, 0x80, 0x80, 0x80]),
    ("the largest release expected, then a cut", 3, &[1, 2, 0xFF, 0xFF, 0xFF, 0xFF, 0x7F]),
];

fn first_faults() -> Vec<Case> {
    FIRST_FAULTS
        .iter()
        .map(|(name, number, rest)| refused(*name, [&[0; 32], *rest].concat(), 0, *number))
        .collect()
}

fn bodies() -> Vec<Case> {
    let of = |name: &str, bytes: Vec<u8>, at: usize| case(name, Body(Read(bytes, at)));
    let after_link = |rest: &[u8]| [&[0; 32], rest].concat();
    let unlike = [&[0xAB; 7], &mixed().bytes()[..], &[0xCD; 5]].concat();
    vec![
        of("the shortest", shortest().bytes(), 0).by_hand("orders 0 slot 1 next 162"),
        of("one order", plain().bytes(), 0).by_hand("orders 1 2 40 41 slot 9 next 165"),
        of("the longest", longest().bytes(), 0),
        of("at a place, and followed by others", unlike, 7),
        of("no bytes", vec![], 0).by_hand("refused 3 0"),
        of("the last byte missing", plain().bytes()[..164].to_vec(), 0).by_hand("refused 3 0"),
        of("C0 00 as a display", after_link(&[1, 0xC0, 0]), 0).by_hand("refused 4 0"),
        of("a display of 64", after_link(&[1, 64]), 0).by_hand("refused 5 0"),
        of("slot 0", after_link(&[0, 0]), 0).by_hand("refused 5 0"),
        of("place 18446744073709551615", plain().bytes(), usize::MAX).by_hand("refused 3 0"),
    ]
}

pub fn sections() -> Vec<Section> {
    let section = |title, cases| Section { title, cases };
    vec![
        section("Blocks: read from a place, whatever follows them", read()),
        section("Blocks: releases of 35 bits", of_35_bits()),
        section("Blocks: cut", cut()),
        section(
            "Blocks: one number badly written or out of its range",
            edited(),
        ),
        section(
            "Blocks: 3, 4 and 5 in byte order, each judged at once",
            first_faults(),
        ),
        section("Blocks: what judging one needs of it", bodies()),
    ]
}
