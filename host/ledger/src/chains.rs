//! The calls on chains that change nothing.
use crate::{raw, told, BlockCount, Refusal, Releases, Slot};

/// A chain that was checked.
#[derive(Debug, Clone, PartialEq, Eq)]
pub struct Checked {
    pub count: BlockCount,
    /// After the last block.
    pub releases: Releases,
}

/// Checks a delivered chain at slot now, with a verdict byte for each block: 1, 2, 16, then its blocks one by one: 3, 4, 5 in byte order, 6, 7, 8,
/// 9, 10. A verdict is [`GOOD_VERDICT`](crate::GOOD_VERDICT), or bad; a missing one is bad, and spare ones are ignored.
pub fn check(genesis: &[u8], now: Slot, chain: &[u8], verdicts: &[u8]) -> Result<Checked, Refusal> {
    let answer = raw::ledger_check(genesis, now, chain, verdicts);
    let checked = Checked {
        count: answer.count,
        releases: answer.releases,
    };
    told(answer.refusal, answer.place, checked)
}

/// Shows the delivered chain exactly if it would be adopted, else the held one with the refusal: 1, 2, 17, 16, the delivered blocks as in
/// [`check`], 11.
pub fn choose<'a>(
    genesis: &[u8],
    now: Slot,
    held: &'a [u8],
    delivered: &'a [u8],
    verdicts: &[u8],
) -> (&'a [u8], Option<Refusal>) {
    let answer = raw::ledger_choose(genesis, now, held, delivered, verdicts);
    let shown = if answer.delivered { delivered } else { held };
    (shown, told(answer.refusal, answer.place, ()).err())
}
