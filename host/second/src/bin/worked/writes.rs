//! Blocks, their fronts and slot texts written into lent buffers.
use second::block::{self, Block};
use second::number::LARGEST;
use second::order::{Order, Slot};
use second::samples::{order, FILLER};
use second::{lent, Refusal};

use crate::blocks::{longest, mixed, plain, shortest};
use crate::case::{bytes_text, case, refused, Case, Field, Op, Section};

/// What is written: a block of which only the first `count` listed orders are looked at.
#[derive(Clone)]
pub struct Parts {
    pub count: u32,
    pub block: Block,
}

impl Parts {
    fn of(block: Block) -> Parts {
        Parts {
            count: block.orders.len() as u32,
            block,
        }
    }

    /// The block that these parts make; an order that is not listed is of zeros.
    fn made(&self) -> Block {
        let mut block = self.block.clone();
        block.orders.resize(self.count as usize, Order::default());
        block
    }

    fn order_fields(&self) -> impl Iterator<Item = Field> + '_ {
        let listed = self.block.orders.iter();
        let numbers = listed.flat_map(|order| {
            [
                order.display.into(),
                order.expected.into(),
                order.new.into(),
            ]
        });
        [self.count.into()].into_iter().chain(numbers)
    }
}

/// What is printed of a buffer after a call: the place after what was written or the refusal, and every byte.
fn written(answer: Result<usize, Refusal>, at: usize, buffer: &[u8]) -> String {
    let answer = match answer {
        Ok(length) => format!("next {}", at + length),
        Err(refusal) => refused(refusal),
    };
    format!("{answer} {}", bytes_text(buffer))
}

/// write BUFFER AT LINK SLOT SLOT-SIGNATURE BLOCK-SIGNATURE COUNT DISPLAY EXPECTED NEW ..
pub struct Write {
    pub buffer: Vec<u8>,
    pub at: usize,
    pub parts: Parts,
}

impl Op for Write {
    fn word(&self) -> &'static str {
        "write"
    }

    fn fields(&self) -> Vec<Field> {
        let block = &self.parts.block;
        let mut fields = vec![
            self.buffer[..].into(),
            self.at.into(),
            block.link[..].into(),
            block.slot.0.into(),
            block.slot_signature[..].into(),
            block.block_signature[..].into(),
        ];
        fields.extend(self.parts.order_fields());
        fields
    }

    fn answer(&self) -> String {
        let mut buffer = self.buffer.clone();
        let answer = block::write(&self.parts.made(), &mut buffer, self.at);
        written(answer, self.at, &buffer)
    }
}

/// front BUFFER AT LINK SLOT SLOT-SIGNATURE COUNT DISPLAY EXPECTED NEW ..
pub struct Front(pub Write);

impl Op for Front {
    fn word(&self) -> &'static str {
        "front"
    }

    fn fields(&self) -> Vec<Field> {
        let mut fields = self.0.fields();
        fields.remove(5);
        fields
    }

    fn answer(&self) -> String {
        let block = self.0.parts.made();
        let mut buffer = self.0.buffer.clone();
        let answer =
            length(&block).and_then(|_| lent::put(&block.front_bytes(), &mut buffer, self.0.at));
        written(answer, self.0.at, &buffer)
    }
}

/// The length of a block, or 5: writing it where there is room for any.
fn length(block: &Block) -> Result<usize, Refusal> {
    block::write(block, &mut [0; 10_000], 0)
}

/// length SLOT COUNT DISPLAY EXPECTED NEW ..
pub struct Length(pub Parts);

impl Op for Length {
    fn word(&self) -> &'static str {
        "length"
    }

    fn fields(&self) -> Vec<Field> {
        let slot = Field::from(self.0.block.slot.0);
        [slot].into_iter().chain(self.0.order_fields()).collect()
    }

    fn answer(&self) -> String {
        format!("length {}", length(&self.0.made()).unwrap_or(0))
    }
}

/// slot-text SLOT BUFFER
pub struct SlotText(pub u32, pub Vec<u8>);

impl Op for SlotText {
    fn word(&self) -> &'static str {
        "slot-text"
    }

    fn fields(&self) -> Vec<Field> {
        vec![self.0.into(), self.1[..].into()]
    }

    fn answer(&self) -> String {
        let mut buffer = self.1.clone();
        let answer = block::slot_text(Slot(self.0), &mut buffer);
        written(answer, 0, &buffer)
    }
}

/// A buffer that nobody has written to.
fn lent_buffer(length: usize) -> Vec<u8> {
    vec![FILLER; length]
}

/// A buffer that a call left as it came.
fn untouched(length: usize) -> String {
    bytes_text(&lent_buffer(length))
}

/// A name, the parts, the buffer's length and the place.
type Row = (&'static str, Parts, usize, usize);

fn write((name, parts, length, at): Row) -> Case {
    let buffer = lent_buffer(length);
    case(name, Write { buffer, at, parts })
}

fn front((name, parts, length, at): Row) -> Case {
    let buffer = lent_buffer(length);
    case(name, Front(Write { buffer, at, parts }))
}

/// Parts of which the second order names display 64, at this count.
fn second_bad(count: u32) -> Parts {
    let mut block = plain();
    block.orders.push(order(64, 0, 1));
    Parts { count, block }
}

/// Parts of which both releases of the second order are above the largest.
fn second_large(count: u32) -> Parts {
    let mut parts = second_bad(count);
    parts.block.orders[1] = order(2, LARGEST + 1, LARGEST + 1);
    parts
}

fn at_slot(slot: u32) -> Parts {
    let mut block = plain();
    block.slot = Slot(slot);
    Parts::of(block)
}

fn with_order(order: Order) -> Parts {
    let mut block = plain();
    block.orders = vec![order];
    Parts::of(block)
}

/// The parts that are refused with 5.
fn out_of_range() -> Vec<(&'static str, Parts)> {
    let counted = |count| Parts {
        count,
        ..Parts::of(plain())
    };
    vec![
        ("a count of 9", counted(9)),
        ("a count of 257", counted(257)),
        ("a count of 65,537", counted(65_537)),
        ("display 64", with_order(order(64, 0, 1))),
        ("display 256", with_order(order(256, 0, 1))),
        ("display 4,294,967,295", with_order(order(u32::MAX, 0, 1))),
        ("display 64 in the second of two orders", second_bad(2)),
        ("slot 0", at_slot(0)),
        ("slot 257", at_slot(257)),
        ("slot 65,537", at_slot(65_537)),
        (
            "expected 34,359,738,368",
            with_order(order(2, LARGEST + 1, 1)),
        ),
        ("new 34,359,738,368", with_order(order(2, 0, LARGEST + 1))),
        ("new 2^64 - 1", with_order(order(2, 0, u64::MAX))),
        (
            "new 34,359,738,368 in the second of two orders",
            second_large(2),
        ),
    ]
}

/// The bytes of the block of one order, written out by hand.
const PLAIN_FRONT: &str = "00*32+01022829+09*65";
const PLAIN: &str = "00*32+01022829+09*65+f6*64";

fn writes() -> Vec<Case> {
    let mut cases = whole_buffers();
    cases.extend(bytes_that_stay());
    cases.extend(parts_not_judged());
    cases
}

fn whole_buffers() -> Vec<Case> {
    let one = Parts::of(plain());
    vec![
        write((
            "the shortest, exactly fitting",
            Parts::of(shortest()),
            162,
            0,
        ))
        .by_hand("next 162 00*33+01*65+fe*64"),
        write(("one order, exactly fitting", one, 165, 0)).by_hand(format!("next 165 {PLAIN}")),
        write(("the longest, exactly fitting", Parts::of(longest()), 251, 0)),
        write(("every part unlike the others", Parts::of(mixed()), 251, 0)),
        write((
            "from 4,294,967,296 to the largest release",
            with_order(order(2, 1 << 32, LARGEST)),
            173,
            0,
        ))
        .by_hand("next 173 00*32+0102+80*4+10+ff*4+7f+09*65+f6*64"),
    ]
}

fn bytes_that_stay() -> Vec<Case> {
    let one = || Parts::of(plain());
    vec![
        write((
            "inside a buffer: the bytes before and after stay",
            one(),
            200,
            7,
        ))
        .by_hand(format!("next 172 ee*7+{PLAIN}+ee*28")),
        write(("at a place, exactly fitting", one(), 200, 35))
            .by_hand(format!("next 200 ee*35+{PLAIN}")),
    ]
}

/// Orders past the count, and releases in any order.
fn parts_not_judged() -> Vec<Case> {
    let none = Parts {
        count: 0,
        ..Parts::of(plain())
    };
    let not_above = with_order(order(2, 40, 39));
    vec![
        write((
            "a count of 0: the listed order is not looked at",
            none,
            170,
            0,
        ))
        .by_hand("next 162 00*33+09*65+f6*64+ee*8"),
        write((
            "an order of display 64 behind the count",
            second_bad(1),
            170,
            0,
        ))
        .by_hand(format!("next 165 {PLAIN}+ee*5")),
        write((
            "releases of 34,359,738,368 behind the count",
            second_large(1),
            170,
            0,
        ))
        .by_hand(format!("next 165 {PLAIN}+ee*5")),
        write((
            "a new release not above the expected one",
            not_above,
            165,
            0,
        )),
        write(("slot 256", at_slot(256), 166, 0)),
    ]
}

fn fronts() -> Vec<Case> {
    let one = || Parts::of(plain());
    vec![
        front((
            "the shortest, exactly fitting",
            Parts::of(shortest()),
            98,
            0,
        ))
        .by_hand("next 98 00*33+01*65"),
        front(("one order, exactly fitting", one(), 101, 0))
            .by_hand(format!("next 101 {PLAIN_FRONT}")),
        front(("the longest, exactly fitting", Parts::of(longest()), 187, 0)),
        front(("every part unlike the others", Parts::of(mixed()), 251, 0)),
        front((
            "inside a buffer: the bytes before and after stay",
            one(),
            120,
            7,
        ))
        .by_hand(format!("next 108 ee*7+{PLAIN_FRONT}+ee*12")),
        front((
            "an order of display 64 behind the count",
            second_bad(1),
            101,
            0,
        ))
        .by_hand(format!("next 101 {PLAIN_FRONT}")),
        front((
            "releases of 34,359,738,368 behind the count",
            second_large(1),
            101,
            0,
        ))
        .by_hand(format!("next 101 {PLAIN_FRONT}")),
    ]
}

/// Refusals 5, also where there is no room, and 15: the buffer is as it came.
fn refusals(whole: usize, call: fn(Row) -> Case) -> Vec<Case> {
    let mut cases = Vec::new();
    for (name, parts) in out_of_range() {
        for length in [0, 300] {
            let mut case = call((name, parts.clone(), length, 0));
            case.name = format!("{name}, a buffer of {length} bytes");
            cases.push(case.by_hand(format!("refused 5 0 {}", untouched(length))));
        }
    }
    for (length, at) in [
        (0, 0),
        (whole - 1, 0),
        (whole, 1),
        (whole, whole),
        (whole, whole + 1),
        (whole, usize::MAX),
        (300, 300 - whole + 1),
    ] {
        let mut case = call(("", Parts::of(plain()), length, at));
        case.name = format!("{whole} bytes to write, a buffer of {length}, place {at}");
        cases.push(case.by_hand(format!("refused 15 0 {}", untouched(length))));
    }
    cases
}

fn lengths() -> Vec<Case> {
    let length = |name: &str, parts: Parts, length: usize| {
        case(name, Length(parts)).by_hand(format!("length {length}"))
    };
    let mut cases = vec![
        length("the shortest", Parts::of(shortest()), 162),
        length("one order", Parts::of(plain()), 165),
        length("the longest", Parts::of(longest()), 251),
        length("slot 127", at_slot(127), 165),
        length("slot 128", at_slot(128), 166),
        length(
            "an order of display 64 behind the count",
            second_bad(1),
            165,
        ),
        length(
            "releases of 34,359,738,368 behind the count",
            second_large(1),
            165,
        ),
        length(
            "from 4,294,967,296 to the largest release",
            with_order(order(2, 1 << 32, LARGEST)),
            173,
        ),
    ];
    for (name, parts) in out_of_range() {
        cases.push(length(name, parts, 0));
    }
    cases
}

/// The letters and the slot as a number.
const TEXTS: [(u32, &str); 4] = [
    (1, "736c6f7401"),
    (127, "736c6f747f"),
    (128, "736c6f748001"),
    (256, "736c6f748002"),
];

fn slot_texts() -> Vec<Case> {
    let mut cases = Vec::new();
    for (slot, text) in TEXTS {
        let size = text.len() / 2;
        let named = |length: usize| {
            case(
                format!("slot {slot}, a buffer of {length} bytes"),
                SlotText(slot, lent_buffer(length)),
            )
        };
        cases.push(named(size).by_hand(format!("next {size} {text}")));
        cases.push(named(12).by_hand(format!("next {size} {text}+{}", untouched(12 - size))));
        cases.push(named(size - 1).by_hand(format!("refused 15 0 {}", untouched(size - 1))));
    }
    for slot in [0, 257, 65_792, u32::MAX] {
        for length in [0, 12] {
            let name = format!("slot {slot}, a buffer of {length} bytes");
            let text = SlotText(slot, lent_buffer(length));
            cases.push(case(name, text).by_hand(format!("refused 2 0 {}", untouched(length))));
        }
    }
    let empty = SlotText(1, vec![]);
    cases.push(case("slot 1, a buffer of 0 bytes", empty).by_hand("refused 15 0 -"));
    cases
}

pub fn sections() -> Vec<Section> {
    let section = |title, cases| Section { title, cases };
    vec![
        section("Writing a block: bytes past what it writes stay", writes()),
        section("Writing a block: 5, then 15", refusals(165, write)),
        section("Writing a block without its last 64 bytes", fronts()),
        section(
            "Writing a block without its last 64 bytes: 5, then 15",
            refusals(101, front),
        ),
        section("The length of a block, 0 if there is none", lengths()),
        section("Slot texts: 2, then 15", slot_texts()),
    ]
}
