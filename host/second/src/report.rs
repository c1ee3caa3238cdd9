//! The settled report and the report program (01, "Report" and "Worked by hand").
use super::chain;
use super::genesis::{self, Opening};
use super::order::{BlockCount, Releases, Slot};
use super::{lent, refusal, Refusal};

/// "The held and settled block counts, the settled bytes' length, and the releases after the settled blocks."
#[derive(Debug, Clone, PartialEq, Eq)]
pub struct Report {
    pub held: BlockCount,
    pub settled: BlockCount,
    pub settled_length: usize,
    pub releases: Releases,
}

/// Report on the held chain at the front of a buffer: 1, 2, 17.
pub fn report(
    genesis: &[u8],
    now: Slot,
    held: &[u8],
    held_length: usize,
) -> Result<Report, Refusal> {
    let opening = Opening::new(genesis, now)?;
    let summary = chain::summary(&opening, held, held_length)?;
    Ok(Report {
        held: summary.whole.count,
        settled: summary.settled.count,
        settled_length: summary.settled.length,
        releases: summary.settled.releases,
    })
}

/// The report program: standard input to standard output. "A refusal prints only `refused`, its number and its place."
pub fn station(input: &[u8]) -> String {
    match reported(input) {
        Ok((now, report)) => lines(now, &report),
        Err(Refusal { number, place }) => format!("refused {number} {place}\n"),
    }
}

/// "Reads the genesis length as a number, the genesis, now as a number, and the held chain to the end."
fn reported(input: &[u8]) -> Result<(Slot, Report), Refusal> {
    let mut rest = input;
    let genesis = take_genesis(&mut rest)?;
    let now = take_now(&mut rest)?;
    let report = report(genesis, now, rest, rest.len())?;
    Ok((now, report))
}

/// Takes now, or 2, also if it is above every slot that 32 bits hold.
fn take_now(rest: &mut &[u8]) -> Result<Slot, Refusal> {
    let now = lent::number(rest).map_err(|_| refusal(2))?;
    u32::try_from(now).map(Slot).map_err(|_| refusal(2))
}

/// Takes the genesis length and the genesis, a good one, or 1.
fn take_genesis<'a>(rest: &mut &'a [u8]) -> Result<&'a [u8], Refusal> {
    let length = lent::number(rest).map_err(|_| refusal(1))?;
    let length = usize::try_from(length).map_err(|_| refusal(1))?;
    if length > genesis::LONGEST {
        return Err(refusal(1));
    }
    let (genesis, after) = rest.split_at_checked(length).ok_or(refusal(1))?;
    genesis::read(genesis)?;
    *rest = after;
    Ok(genesis)
}

/// "First line: now, held blocks, settled blocks. Then one line for each display whose settled release is not 0, in rising order: display,
/// release."
fn lines(now: Slot, report: &Report) -> String {
    let mut lines = format!("{} {} {}\n", now.0, report.held.0, report.settled.0);
    for (display, release) in report.releases.iter().enumerate() {
        if *release != 0 {
            lines += &format!("{display} {release}\n");
        }
    }
    lines
}

#[cfg(test)]
mod tests {
    use super::*;
    use crate::number::{self, LARGEST};
    use crate::samples::{self, Case, BAD_NOWS, BLOCK};

    fn call(case: &mut Case) -> Option<Refusal> {
        case.report(report).err()
    }

    /// 01's worked examples: n = 6, t = 1, now 10.
    #[test]
    fn stamp_5_is_settled_and_stamp_6_is_not() {
        let genesis = samples::table();
        for (stamp, settled) in [(5, 1), (6, 0)] {
            let blocks = [samples::block(stamp, &[samples::order(2, 40, 41)])];
            let held = samples::chain(&genesis, &blocks);
            let report = report(&genesis, Slot(10), &held, held.len()).unwrap();
            assert_eq!(report.held, BlockCount(1));
            assert_eq!(report.settled, BlockCount(settled));
            assert_eq!(report.settled_length, BLOCK * settled as usize);
            assert_eq!(report.releases[2], 40 + u64::from(settled));
        }
    }

    #[test]
    fn settled_blocks_are_a_prefix() {
        let genesis = samples::table();
        let held = samples::good_chain(&genesis);
        // stamps 1, 3, 4, 6, 9 and depth 4
        for (now, settled) in [(9, 3), (10, 3), (11, 4), (13, 4), (14, 5), (256, 5)] {
            let report = report(&genesis, Slot(now), &held, held.len()).unwrap();
            let mut releases = samples::genesis(6, 1, 5).releases;
            releases[2] += u64::from(settled);
            let expected = Report {
                held: BlockCount(5),
                settled: BlockCount(settled),
                settled_length: BLOCK * settled as usize,
                releases,
            };
            assert_eq!(report, expected, "now {now}");
        }
    }

    #[test]
    fn nothing_settled() {
        let genesis = samples::table();
        for (now, stamps) in [(1, &[][..]), (1, &[1]), (256, &[]), (256, &[252, 256])] {
            let held = samples::chain(&genesis, &samples::empty_blocks(stamps));
            let answer = report(&genesis, Slot(now), &held, held.len());
            let expected = Report {
                held: BlockCount(stamps.len() as u32),
                settled: BlockCount(0),
                settled_length: 0,
                releases: samples::genesis(6, 1, 5).releases,
            };
            assert_eq!(answer, Ok(expected));
        }
    }

    #[test]
    fn bad_openings() {
        samples::refuses_bad_openings(call);
    }

    #[test]
    fn bad_held_chains() {
        samples::refuses_bad_held(call);
    }

    #[test]
    fn the_earliest_of_several_faults() {
        let mut faults = samples::issuing_faults();
        faults.truncate(3);
        samples::refuses_in_order(&faults, call);
    }

    /// The program's input.
    fn input(genesis: &[u8], now: u32, held: &[u8]) -> Vec<u8> {
        let length = number::bytes(genesis.len() as u64);
        [&length, genesis, &number::bytes(now.into()), held].concat()
    }

    /// 01's worked example, byte for byte.
    #[test]
    fn the_worked_input() {
        let mut worked = vec![99, 1, 0, 1, 7];
        worked.extend([0; 63]);
        worked.extend([0; 32]);
        worked.push(1);
        assert_eq!(worked, input(&samples::worked_genesis().bytes(), 1, &[]));
        assert_eq!(station(&worked), "1 0 0\n0 7\n");
    }

    #[test]
    fn one_line_for_each_display_not_at_0() {
        let mut table = samples::genesis(1, 0, 1);
        table.releases[63] = LARGEST;
        table.releases[62] = 1 << 32;
        table.releases[10] = 1;
        let genesis = table.bytes();
        let held = samples::good_chain(&genesis);
        let output = station(&input(&genesis, 9, &held));
        assert_eq!(output, "9 5 4\n2 44\n10 1\n62 4294967296\n63 34359738367\n");
        table.releases = [0; 64];
        assert_eq!(station(&input(&table.bytes(), 256, &[])), "256 0 0\n");
    }

    #[test]
    fn input_cut_before_now_ends() {
        let whole = input(&samples::table(), 200, &[]);
        for end in 0..whole.len() - 2 {
            assert_eq!(station(&whole[..end]), "refused 1 0\n", "{end} bytes");
        }
        for end in [whole.len() - 2, whole.len() - 1] {
            assert_eq!(station(&whole[..end]), "refused 2 0\n", "{end} bytes");
        }
        assert_eq!(station(&whole), "200 0 0\n2 40\n");
    }

    #[test]
    fn the_genesis_length() {
        let genesis = samples::table();
        for length in [
            &[][..],
            &[0x80],
            &[0x80, 0x00],
            &[0xFF; 5],
            &[0xFF, 0xFF, 0xFF, 0xFF, 0x10],
            &[0xFF, 0xFF, 0xFF, 0xFF, 0x0F],
            &number::bytes(0),
            &number::bytes(1_316),
            &number::bytes(genesis.len() as u64 - 1),
            &number::bytes(genesis.len() as u64 + 1),
            &number::bytes(genesis.len() as u64 + (1 << 32)),
        ] {
            let input = [length, &genesis, &[1; 2_000]].concat();
            assert_eq!(station(&input), "refused 1 0\n", "{length:02X?}");
        }
    }

    #[test]
    fn the_longest_genesis() {
        let mut table = samples::genesis(31, 6, 64);
        table.releases = [LARGEST; 64];
        let output = station(&input(&table.bytes(), 256, &[]));
        assert_eq!(output.lines().count(), 65);
        assert!(output.starts_with("256 0 0\n0 34359738367\n1 34359738367\n"));
    }

    #[test]
    fn a_bad_genesis_before_a_bad_now() {
        for (fault, genesis) in samples::bad_geneses() {
            for now in [&[][..], &[0x80, 0x00], &[0], &[1]] {
                let length = number::bytes(genesis.len() as u64);
                let input = [&length, &genesis[..], now].concat();
                assert_eq!(station(&input), "refused 1 0\n", "{fault}");
            }
        }
    }

    #[test]
    fn now_cut_badly_written_or_out_of_range() {
        let genesis = samples::table();
        let start = [&number::bytes(genesis.len() as u64), &genesis[..]].concat();
        let long = vec![1; chain::LONGEST + 1];
        for now in [
            &[][..],
            &[0x80],
            &[0x81, 0x00],
            &[0xFF; 5],
            &[0xFF, 0xFF, 0xFF, 0xFF, 0x10],
            &number::bytes((1 << 32) + 20),
            &number::bytes(LARGEST),
        ] {
            assert_eq!(station(&[&start, now].concat()), "refused 2 0\n");
        }
        for now in BAD_NOWS {
            assert_eq!(station(&input(&genesis, now.0, &[])), "refused 2 0\n");
            assert_eq!(station(&input(&genesis, now.0, &long)), "refused 2 0\n");
        }
    }

    #[test]
    fn a_bad_chain_in_the_input() {
        let genesis = samples::table();
        for (fault, held, refused) in samples::bad_chains(&genesis) {
            let output = format!("refused 17 {}\n", refused.place);
            assert_eq!(station(&input(&genesis, 20, &held)), output, "{fault}");
        }
        let mut long = samples::good_chain(&genesis);
        long.resize(chain::LONGEST, 0);
        assert_eq!(station(&input(&genesis, 20, &long)), "refused 17 6\n");
        long.push(0);
        assert_eq!(station(&input(&genesis, 20, &long)), "refused 17 0\n");
    }

    #[test]
    fn the_longest_chain() {
        let (genesis, held) = samples::longest_chain(256);
        let output = station(&input(&genesis, 256, &held));
        let release = samples::LONG_START + 254;
        assert!(output.starts_with(&format!("256 256 254\n0 {release}\n")));
        assert_eq!(station(&input(&genesis, 255, &held)), "refused 17 256\n");
    }
}
