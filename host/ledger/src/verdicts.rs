//! Whether signatures verify. The host brings the signature scheme: a function of a key, a text and a signature, the same on every controller.
use crate::{
    blocks, choose, key, slot_text, Block, Genesis, Held, Refusal, Slot, BLOCK_LETTERS,
    BLOCK_TEXT_BYTES, GOOD_VERDICT, KEY_BYTES, SIGNATURE_BYTES, SLOTS,
};

impl<B: AsRef<[u8]>> Held<B> {
    /// Writes the verdicts on a delivered chain that [`adopt`](Held::adopt) is given with it, one for each block.
    ///
    /// A chain that would be refused even if all its signatures were good is refused here, and nothing is verified. Nor are the blocks that the
    /// held chain begins with too, nor those behind the first bad one. So the held chain must be one whose signatures verify: adopted with such
    /// verdicts, issued, or stored and found so by [`is_signed`](Held::is_signed).
    pub fn verdicts(
        &self,
        genesis: &[u8],
        now: Slot,
        delivered: &[u8],
        mut verify: impl FnMut(&[u8; KEY_BYTES], &[u8], &[u8; SIGNATURE_BYTES]) -> bool,
        verdicts: &mut [u8; SLOTS],
    ) -> Result<(), Refusal> {
        verdicts.fill(0);
        let good = [GOOD_VERDICT; SLOTS];
        if let (_, Some(refused)) = choose(genesis, now, self.chain(), delivered, &good) {
            return Err(refused);
        }
        let table = Genesis::read(genesis)?;
        let mut known = common_front(self.chain(), delivered);
        for (verdict, step) in verdicts.iter_mut().zip(blocks(delivered)) {
            let (block, bytes) = step?;
            let is_held = bytes.len() <= known;
            known = known.saturating_sub(bytes.len());
            if !is_held && !verifies(genesis, &table, &block, bytes, &mut verify) {
                break;
            }
            *verdict = GOOD_VERDICT;
        }
        Ok(())
    }

    /// Whether all signatures of the held chain verify: to be asked of a stored chain before it is used. No link covers the last block, so
    /// damage there shows nowhere else.
    pub fn is_signed(
        &self,
        genesis: &[u8],
        mut verify: impl FnMut(&[u8; KEY_BYTES], &[u8], &[u8; SIGNATURE_BYTES]) -> bool,
    ) -> bool {
        let Ok(table) = Genesis::read(genesis) else {
            return false;
        };
        blocks(self.chain()).all(|step| {
            step.is_ok_and(|(block, bytes)| verifies(genesis, &table, &block, bytes, &mut verify))
        })
    }
}

/// How many bytes two chains begin with alike. Blocks that end within them are the same blocks, since bytes are read in one way only.
fn common_front(one: &[u8], other: &[u8]) -> usize {
    one.iter().zip(other).take_while(|(a, b)| a == b).count()
}

/// Whether both signatures of a block, read from these bytes, verify under the key of the controller whose turn its slot is.
fn verifies(
    genesis: &[u8],
    table: &Genesis,
    block: &Block,
    bytes: &[u8],
    verify: &mut impl FnMut(&[u8; KEY_BYTES], &[u8], &[u8; SIGNATURE_BYTES]) -> bool,
) -> bool {
    let slot = block.front.slot;
    let Ok(key) = key(genesis, table.turn(slot)) else {
        return false;
    };
    let mut out = [0; BLOCK_TEXT_BYTES];
    slot_text(slot, &mut out).is_ok_and(|text| verify(key, text, &block.front.slot_signature))
        && block_text(bytes, &mut out).is_some_and(|text| verify(key, text, &block.block_signature))
}

/// `block` and a block's bytes without the last 64.
fn block_text<'o>(bytes: &[u8], out: &'o mut [u8; BLOCK_TEXT_BYTES]) -> Option<&'o [u8]> {
    let (front, _) = bytes.split_last_chunk::<SIGNATURE_BYTES>()?;
    let length = BLOCK_LETTERS.len() + front.len();
    let text = out.get_mut(..length)?;
    let (letters, rest) = text.split_at_mut(BLOCK_LETTERS.len());
    letters.copy_from_slice(&BLOCK_LETTERS);
    rest.copy_from_slice(front);
    Some(text)
}
