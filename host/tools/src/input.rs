//! What the report program reads: the genesis length as a number, the genesis, now as a number, and the held chain.
use ledger::{blocks, read_number, write_number};
use ledger::{BlockCount, Held, Kind, Refusal, Slot, GENESIS_BYTES, NUMBER_BYTES};

use crate::{genesis, Answer};

/// The input for these. A bad chain is put in as it is: the program says what it thinks of it.
pub fn make(table: &[u8], now: &str, chain: &[u8]) -> Answer {
    genesis::show(table)?;
    let now = genesis::number(now)?;
    Ok([&bytes_of(table.len() as u64), table, &bytes_of(now), chain].concat())
}

fn bytes_of(value: u64) -> Vec<u8> {
    let mut out = [0; NUMBER_BYTES];
    let length = write_number(value, 0, &mut out).expect("a number that can be written");
    out[..length].to_vec()
}

/// An input in words, as far as it can be read, and what the report refuses.
pub fn show(input: &[u8]) -> Result<String, String> {
    let (said, at) = part("the genesis length", read_number(input, 0))?;
    let length = usize::try_from(said).ok();
    let length = length.filter(|length| *length <= GENESIS_BYTES);
    let length = length.ok_or(format!(
        "the genesis length is {said}: a genesis has at most {GENESIS_BYTES} bytes"
    ))?;
    let rest = &input[at..];
    let (table, rest) = rest.split_at_checked(length).ok_or(format!(
        "the genesis is cut: {} of its {length} bytes are there",
        rest.len()
    ))?;
    let mut text = genesis::show(table)?;
    let (now, at) = part("the slot", read_number(rest, 0))?;
    text += &format!("now {now}\n");
    let chain = &rest[at..];
    text += &shown(chain);
    if let Err(refused) = reported(table, now, chain) {
        text += &format!("{refused}\n");
    }
    Ok(text)
}

/// Whether there is a report. A slot that 32 bits do not hold is no slot, as 257 is none.
fn reported(table: &[u8], now: u64, chain: &[u8]) -> Result<(), Refusal> {
    let now = u32::try_from(now).map_err(|_| Refusal {
        kind: Kind::BadClock,
        place: BlockCount(0),
    })?;
    let held = Held::stored(chain, chain.len());
    held.report(table, Slot(now)).map(|_| ())
}

fn part<T>(name: &str, read: Result<T, Refusal>) -> Result<T, String> {
    read.map_err(|refused| format!("{name}: {}", refused.kind))
}

/// Each block that can be read.
fn shown(chain: &[u8]) -> String {
    let mut text = String::new();
    for (place, (block, bytes)) in (1..).zip(blocks(chain).map_while(Result::ok)) {
        let slot = block.front.slot.0;
        text += &format!("block {place} of slot {slot}, {} bytes\n", bytes.len());
        for order in block.front.orders.as_slice() {
            text += &format!(
                "    display {} from {} to {}\n",
                order.display, order.expected, order.new
            );
        }
    }
    text
}

#[cfg(test)]
mod tests {
    use super::*;

    /// The sample of `docs/STATION.md`.
    fn sample() -> Vec<u8> {
        [&[0x63, 1, 0, 1, 7][..], &[0; 63 + 32], &[1]].concat()
    }

    const SHOWN: &str = "n 1\nt 0\nu 1  # of no effect\nrelease 0 7\n\
        key 1 0000000000000000000000000000000000000000000000000000000000000000\n\
        # settled: slot + 1 < now\n";

    #[test]
    fn made() {
        let table = &sample()[1..100];
        assert_eq!(make(table, "1", &[]), Ok(sample()));
        let later = [&sample()[..100], &[0x80, 2, 9, 9]].concat();
        assert_eq!(make(table, "256", &[9, 9]), Ok(later));
        assert!(make(&table[1..], "1", &[]).is_err());
        assert!(make(table, "-1", &[]).is_err());
    }

    #[test]
    fn shown_without_blocks() {
        assert_eq!(show(&sample()), Ok(format!("{SHOWN}now 1\n")));
    }

    /// The block of `docs/STATION.md`, whose link is not the genesis' digest.
    #[test]
    fn shown_with_a_block_that_is_refused() {
        let block = [&[5; 32][..], &[1, 2, 40, 41, 2], &[0; 128]].concat();
        let input = [&sample()[..100], &[3], &block, &[7]].concat();
        let text = show(&input).unwrap();
        let behind = "now 3\nblock 1 of slot 2, 165 bytes\n    display 2 from 40 to 41\n\
            refused 17 1: the held chain is bad: put its length to 0 and take the next whole chain\n";
        assert_eq!(text, format!("{SHOWN}{behind}"));
    }

    /// 256, 257, and two that are 1 in their lowest 32 bits or all ones.
    #[test]
    fn slots() {
        let refused = "refused 2 0: the slot is not 1 to 256\n";
        for (now, told) in [
            ("256", ""),
            ("257", refused),
            ("4294967297", refused),
            ("34359738367", refused),
        ] {
            let input = make(&sample()[1..100], now, &[]).unwrap();
            assert_eq!(show(&input), Ok(format!("{SHOWN}now {now}\n{told}")));
        }
        assert!(make(&sample()[1..100], "34359738368", &[]).is_err());
    }

    #[test]
    fn cut() {
        let sample = sample();
        for (input, wrong) in [
            (
                &[][..],
                "the genesis length: a block, a number or a manifest is cut",
            ),
            (
                &[0xA4, 0x0A],
                "the genesis length is 1316: a genesis has at most 1315 bytes",
            ),
            (
                &sample[..99],
                "the genesis is cut: 98 of its 99 bytes are there",
            ),
            (&[0], "a bad genesis: n is cut"),
            (
                &sample[..100],
                "the slot: a block, a number or a manifest is cut",
            ),
        ] {
            assert_eq!(show(input), Err(wrong.into()));
        }
    }
}
