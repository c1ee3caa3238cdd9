//! The wrapper's verdicts, made by a host's own verification, and what of a stored chain only the signatures show. n = 6 and t = 1; the blocks
//! have no orders, and 162 bytes each.
use ledger::{BlockCount, Held, Kind, Refusal, Slot, SLOTS};
use second::order;
use trials::both::BOTH;
use trials::run::{Controller, Station};

fn station() -> Station {
    Station::new(6, 1, vec![])
}

/// A signed block in each slot to this one.
fn chain(station: &Station, slots: u32) -> Vec<u8> {
    let mut one = Controller::new(0);
    for now in (1..=slots).map(order::Slot) {
        one.number = station.genesis.turn(now);
        one.issue(station, &BOTH, now).unwrap();
    }
    one.chain().to_vec()
}

/// The verdicts on what is delivered at slot 20 to one who holds this chain, and how many signatures were verified for them.
fn judged(held: &[u8], delivered: &[u8]) -> (Result<[u8; SLOTS], Refusal>, u32) {
    let station = station();
    let mut verified = 0;
    let mut verdicts = [7; SLOTS];
    let answer = Held::stored(held, held.len()).verdicts(
        &station.bytes,
        Slot(20),
        delivered,
        |key, text, signature| {
            verified += 1;
            station.verify(key, text, signature)
        },
        &mut verdicts,
    );
    (answer.map(|()| verdicts), verified)
}

/// So many good verdicts, and bad ones behind them.
fn good(count: usize) -> [u8; SLOTS] {
    let mut verdicts = [0; SLOTS];
    verdicts[..count].fill(3);
    verdicts
}

fn refused<T>(kind: Kind, place: u32) -> Result<T, Refusal> {
    Err(Refusal {
        kind,
        place: BlockCount(place),
    })
}

/// Both signatures of each block, but for those of the blocks that are held.
#[test]
fn only_new_blocks_are_verified() {
    let chain = chain(&station(), 9);
    for held in 0..9 {
        let verified = 2 * (9 - held as u32);
        assert_eq!(
            judged(&chain[..held * 162], &chain),
            (Ok(good(9)), verified)
        );
    }
}

/// The held chain differs in its third block: the two before it are known, and no later one is.
#[test]
fn behind_a_fork_every_block_is_verified() {
    let station = station();
    let delivered = chain(&station, 9);
    let mut other = Controller::new(4);
    other.held[..324].copy_from_slice(&delivered[..324]);
    other.length = 324;
    other.issue(&station, &BOTH, order::Slot(4)).unwrap();
    assert_eq!(judged(other.chain(), &delivered), (Ok(good(9)), 14));
}

/// What would be refused with good signatures is refused, and nothing is verified.
#[test]
fn nothing_is_verified_in_vain() {
    let chain = chain(&station(), 9);
    assert_eq!(judged(&chain, &chain), (refused(Kind::NotLonger, 0), 0));
    assert_eq!(judged(&[], &chain[..500]), (refused(Kind::Cut, 4), 0));
    let mut unlinked = chain.clone();
    unlinked[3 * 162] ^= 1;
    assert_eq!(judged(&[], &unlinked), (refused(Kind::BadLink, 4), 0));
    assert_eq!(judged(&unlinked, &chain), (refused(Kind::BadHeld, 4), 0));
}

/// The last block, so that no link is wrong. Its slot signature stands at 34, its block signature at 98.
#[test]
fn bad_signatures() {
    let chain = chain(&station(), 3);
    for (byte, verified) in [(34, 5), (97, 5), (98, 6), (161, 6)] {
        let mut bad = chain.clone();
        bad[2 * 162 + byte] ^= 1;
        assert_eq!(judged(&[], &bad), (Ok(good(2)), verified), "{byte}");
    }
}

/// Behind the first bad block nothing is verified, and adoption refuses there.
#[test]
fn the_first_bad_block_is_the_last_that_is_verified() {
    let station = station();
    let mut controllers = [1, 2, 3].map(Controller::new);
    let mut chain = Vec::new();
    for (one, signer) in controllers.iter_mut().zip([1, 2, 3]) {
        one.held[..chain.len()].copy_from_slice(&chain);
        one.length = chain.len();
        one.issue(&station, &BOTH, order::Slot(signer)).unwrap();
        if signer == 2 {
            one.held[one.length - 1] ^= 1;
        }
        chain = one.chain().to_vec();
    }
    let (verdicts, verified) = judged(&[], &chain);
    assert_eq!((verdicts, verified), (Ok(good(1)), 4));
    let mut held = Held::new(vec![0; chain.len()]);
    let adopted = held.adopt(&station.bytes, Slot(20), &chain, &good(1));
    assert_eq!(adopted, refused(Kind::BadVerdict, 2));
}

/// Damage of any byte of a stored chain shows in the signatures. In the last block's slot and signatures it shows nowhere else: the slot may be
/// another one that fits, and no link covers the block.
#[test]
fn damage_that_only_signatures_show() {
    let station = station();
    let chain = chain(&station, 3);
    let is_signed = |held: &Held<Vec<u8>>| {
        held.is_signed(&station.bytes, |key, text, signature| {
            station.verify(key, text, signature)
        })
    };
    assert!(is_signed(&Held::stored(chain.clone(), chain.len())));
    for byte in 0..chain.len() {
        let mut damaged = chain.clone();
        damaged[byte] ^= 4;
        let held = Held::stored(damaged, chain.len());
        assert!(!is_signed(&held), "{byte}");
        let unseen = held.report(&station.bytes, Slot(20)).is_ok();
        assert_eq!(unseen, byte >= 2 * 162 + 33, "{byte}");
    }
}
