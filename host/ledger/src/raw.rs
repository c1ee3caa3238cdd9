//! The calls as the archive exports them: what `include/ledger.h` declares, with a slice in the place of a pointer and a length. All of the
//! crate's unsafe code is here. Nothing but tests checks these declarations against the library's source.
//!
//! An answer begins with the refusal's number, 0 where there is none, and its place. Beside a refusal stand zeros, but for what the host keeps, which
//! is as it came: the pool, the held chain's length, and the place that a walk has reached.
use crate::{
    Block, BlockCount, Genesis, Order, Pool, Release, Releases, Signature, Slot, DIGEST_BYTES,
};

#[repr(C)]
#[derive(Debug, PartialEq, Eq)]
pub struct NumberAnswer {
    pub refusal: u32,
    pub place: BlockCount,
    pub value: u64,
    pub next: usize,
}

#[repr(C)]
#[derive(Debug, PartialEq, Eq)]
pub struct WriteAnswer {
    pub refusal: u32,
    pub place: BlockCount,
    pub next: usize,
}

#[repr(C)]
#[derive(Debug, PartialEq, Eq)]
pub struct DigestAnswer {
    pub refusal: u32,
    pub place: BlockCount,
    pub digest: [u8; DIGEST_BYTES],
}

#[repr(C)]
#[derive(Debug, PartialEq, Eq)]
pub struct GenesisAnswer {
    pub refusal: u32,
    pub place: BlockCount,
    pub table: Genesis,
}

#[repr(C)]
#[derive(Debug, PartialEq, Eq)]
pub struct KeyAnswer {
    pub refusal: u32,
    pub place: BlockCount,
    pub at: usize,
}

#[repr(C)]
#[derive(Debug, PartialEq, Eq)]
pub struct BlockAnswer {
    pub refusal: u32,
    pub place: BlockCount,
    pub next: usize,
    pub block: Block,
}

#[repr(C)]
#[derive(Debug, PartialEq, Eq)]
pub struct StepAnswer {
    pub refusal: u32,
    pub place: BlockCount,
    pub end: bool,
    pub next: usize,
    pub block: Block,
}

#[repr(C)]
#[derive(Debug, PartialEq, Eq)]
pub struct CheckAnswer {
    pub refusal: u32,
    pub place: BlockCount,
    pub count: BlockCount,
    pub releases: Releases,
}

#[repr(C)]
#[derive(Debug, PartialEq, Eq)]
pub struct ChooseAnswer {
    pub refusal: u32,
    pub place: BlockCount,
    pub delivered: bool,
}

#[repr(C)]
#[derive(Debug, PartialEq, Eq)]
pub struct AdoptAnswer {
    pub refusal: u32,
    pub place: BlockCount,
    pub length: usize,
    pub count: BlockCount,
}

#[repr(C)]
#[derive(Debug, PartialEq, Eq)]
pub struct PoolAnswer {
    pub refusal: u32,
    pub place: BlockCount,
    pub pool: Pool,
}

#[repr(C)]
#[derive(Debug, PartialEq, Eq)]
pub struct IssueAnswer {
    pub refusal: u32,
    pub place: BlockCount,
    pub length: usize,
}

#[repr(C)]
#[derive(Debug, PartialEq, Eq)]
pub struct ReportAnswer {
    pub refusal: u32,
    pub place: BlockCount,
    pub held: BlockCount,
    pub settled: BlockCount,
    pub settled_length: usize,
    pub releases: Releases,
}

#[repr(C)]
#[derive(Debug, PartialEq, Eq)]
pub struct ManifestAnswer {
    pub refusal: u32,
    pub place: BlockCount,
}

/// Sizes and offsets on System V x86-64, the same numbers that the header asserts.
mod layout {
    use core::mem::{offset_of, size_of};

    use super::*;
    use crate::{Entry, Front, Orders};

    macro_rules! laid_out {
        ($($kind:ident $size:literal { $($field:tt $at:literal)* })*) => {
            $(const _: () = {
                assert!(size_of::<$kind>() == $size);
                $(assert!(offset_of!($kind, $field) == $at);)*
            };)*
        };
    }

    laid_out! {
        Slot 4 { 0 0 }
        BlockCount 4 { 0 0 }
        Order 24 { display 0 expected 8 new 16 }
        Orders 200 { count 0 list 8 }
        Front 304 { link 0 orders 32 slot 232 slot_signature 236 }
        Block 368 { front 0 block_signature 304 }
        Entry 32 { order 0 slot 24 depot 28 }
        Pool 2056 { count 0 entries 8 }
        Signature 64 { 0 0 }
        Genesis 536 { n 0 t 4 u 8 releases 16 keys_at 528 }
        NumberAnswer 24 { refusal 0 place 4 value 8 next 16 }
        WriteAnswer 16 { refusal 0 place 4 next 8 }
        DigestAnswer 40 { refusal 0 place 4 digest 8 }
        GenesisAnswer 544 { refusal 0 place 4 table 8 }
        KeyAnswer 16 { refusal 0 place 4 at 8 }
        BlockAnswer 384 { refusal 0 place 4 next 8 block 16 }
        StepAnswer 392 { refusal 0 place 4 end 8 next 16 block 24 }
        CheckAnswer 528 { refusal 0 place 4 count 8 releases 16 }
        ChooseAnswer 12 { refusal 0 place 4 delivered 8 }
        AdoptAnswer 24 { refusal 0 place 4 length 8 count 16 }
        PoolAnswer 2064 { refusal 0 place 4 pool 8 }
        IssueAnswer 16 { refusal 0 place 4 length 8 }
        ReportAnswer 536 { refusal 0 place 4 held 8 settled 12 settled_length 16 releases 24 }
        ManifestAnswer 8 { refusal 0 place 4 }
    }
}

/// Declares each exported function, with a safe call of the same name that takes slices. A slice is handed on as its pointer, `lent` or
/// `lent_mut`, and its length. The borrows keep a buffer that a call writes apart from its other slices, and no call keeps a pointer.
///
/// Parameter by parameter, the lists in brackets grow: what the safe call takes, what is declared, and what is handed on.
macro_rules! exported {
    ($(fn $name:ident($($parameters:tt)*) -> $answer:ty;)*) => {
        $(exported!($name $answer, [] [] [] $($parameters)*,);)*
    };
    ($name:ident $answer:ty, [$($taken:tt)*] [$($declared:tt)*] [$($given:tt)*] $slice:ident: &[u8], $($more:tt)*) => {
        exported!($name $answer,
            [$($taken)* $slice: &[u8],]
            [$($declared)* *const u8, usize,]
            [$($given)* lent($slice), $slice.len(),]
            $($more)*);
    };
    ($name:ident $answer:ty, [$($taken:tt)*] [$($declared:tt)*] [$($given:tt)*] $slice:ident: &mut [u8], $($more:tt)*) => {
        exported!($name $answer,
            [$($taken)* $slice: &mut [u8],]
            [$($declared)* *mut u8, usize,]
            [$($given)* lent_mut($slice), $slice.len(),]
            $($more)*);
    };
    ($name:ident $answer:ty, [$($taken:tt)*] [$($declared:tt)*] [$($given:tt)*] $value:ident: $kind:ty, $($more:tt)*) => {
        exported!($name $answer, [$($taken)* $value: $kind,] [$($declared)* $kind,] [$($given)* $value,] $($more)*);
    };
    ($name:ident $answer:ty, [$($taken:tt)*] [$($declared:ty,)*] [$($given:expr,)*]) => {
        #[allow(clippy::too_many_arguments)]
        pub fn $name($($taken)*) -> $answer {
            extern "C" {
                fn $name($(_: $declared),*) -> $answer;
            }
            unsafe { $name($($given),*) }
        }
    };
}

/// Declares every call, by the `lent` and `lent_mut` that stand beside it.
#[rustfmt::skip]
macro_rules! calls {
    () => { exported! {
        fn ledger_read_number(bytes: &[u8], at: usize) -> NumberAnswer;
        fn ledger_write_number(value: u64, at: usize, out: &mut [u8]) -> WriteAnswer;
        fn ledger_digest(message: &[u8]) -> DigestAnswer;
        fn ledger_read_genesis(bytes: &[u8]) -> GenesisAnswer;
        fn ledger_find_key(bytes: &[u8], controller: u32) -> KeyAnswer;
        fn ledger_turn(table: Genesis, slot: Slot) -> u32;
        fn ledger_depth(table: Genesis) -> u64;
        fn ledger_read_block(bytes: &[u8], at: usize) -> BlockAnswer;
        fn ledger_write_block(block: Block, at: usize, out: &mut [u8]) -> WriteAnswer;
        fn ledger_slot_text(slot: Slot, out: &mut [u8]) -> WriteAnswer;
        fn ledger_walk_step(chain: &[u8], at: usize) -> StepAnswer;
        fn ledger_check(genesis: &[u8], clock: Slot, chain: &[u8], verdicts: &[u8]) -> CheckAnswer;
        fn ledger_choose(genesis: &[u8], clock: Slot, held: &[u8], delivered: &[u8], verdicts: &[u8]) -> ChooseAnswer;
        fn ledger_adopt(genesis: &[u8], clock: Slot, held: &mut [u8], length: usize, delivered: &[u8], verdicts: &[u8]) -> AdoptAnswer;
        fn ledger_drop_entries(genesis: &[u8], clock: Slot, held: &[u8], length: usize, pool: Pool) -> PoolAnswer;
        fn ledger_add_order(genesis: &[u8], clock: Slot, held: &[u8], length: usize, pool: Pool, order: Order, depot: u32) -> PoolAnswer;
        fn ledger_draft(genesis: &[u8], clock: Slot, held: &[u8], length: usize, pool: Pool, controller: u32, slot_signature: Signature,
                        out: &mut [u8]) -> IssueAnswer;
        fn ledger_block_text(genesis: &[u8], clock: Slot, held: &[u8], length: usize, pool: Pool, controller: u32, slot_signature: Signature,
                             out: &mut [u8]) -> IssueAnswer;
        fn ledger_append(genesis: &[u8], clock: Slot, held: &mut [u8], length: usize, pool: Pool, controller: u32, slot_signature: Signature,
                         block_signature: Signature) -> IssueAnswer;
        fn ledger_report(genesis: &[u8], clock: Slot, held: &[u8], length: usize) -> ReportAnswer;
        fn ledger_check_manifest(image: &[u8], manifest: &[u8], key: &[u8], settled_release: Release) -> ManifestAnswer;
    } };
}

calls!();

fn lent(slice: &[u8]) -> *const u8 {
    slice.as_ptr()
}

fn lent_mut(slice: &mut [u8]) -> *mut u8 {
    slice.as_mut_ptr()
}

#[cfg(test)]
mod tests {
    use core::ptr;
    use std::vec::Vec;

    use super::*;
    use crate::{Front, Orders};

    /// The same calls, but a slice of no bytes is handed on as NULL. Two of them take no slice.
    #[allow(dead_code)]
    mod nulls {
        use super::*;

        fn lent(slice: &[u8]) -> *const u8 {
            if slice.is_empty() {
                return ptr::null();
            }
            slice.as_ptr()
        }

        fn lent_mut(slice: &mut [u8]) -> *mut u8 {
            if slice.is_empty() {
                return ptr::null_mut();
            }
            slice.as_mut_ptr()
        }

        calls!();
    }

    /// Sees that a call answers alike where slices of no bytes are NULL.
    macro_rules! same {
        ($call:ident($($given:expr),*)) => {
            assert_eq!($call($($given),*), nulls::$call($($given),*), stringify!($call))
        };
    }

    /// n = 1, t = 0, u = 1, every release 0, and a key of zeros.
    const GENESIS: [u8; 99] = {
        let mut bytes = [0; 99];
        bytes[0] = 1;
        bytes[2] = 1;
        bytes
    };

    /// The first block behind that genesis, of slot 1.
    fn block() -> Block {
        Block {
            front: Front {
                link: ledger_digest(&GENESIS).digest,
                orders: Orders::default(),
                slot: Slot(1),
                slot_signature: [5; 64],
            },
            block_signature: [6; 64],
        }
    }

    fn chain() -> Vec<u8> {
        let mut chain = Vec::from([0; 162]);
        assert_eq!(ledger_write_block(block(), 0, &mut chain).next, 162);
        chain
    }

    /// Every choice of these slices with some of them empty, none and all too.
    fn emptied<const N: usize>(slices: [&[u8]; N]) -> impl Iterator<Item = [&[u8]; N]> {
        (0..1 << N).map(move |choice: u32| {
            core::array::from_fn(|i| if choice >> i & 1 == 1 { &[] } else { slices[i] })
        })
    }

    const ORDER: Order = Order {
        display: 3,
        expected: 0,
        new: 1,
    };

    #[test]
    fn null_for_numbers_digests_tables_and_blocks() {
        for bytes in [&[][..], &GENESIS] {
            same!(ledger_read_number(bytes, 0));
            same!(ledger_digest(bytes));
            same!(ledger_read_genesis(bytes));
            same!(ledger_find_key(bytes, 1));
            same!(ledger_write_number(7, 0, &mut bytes.to_vec()));
            same!(ledger_slot_text(Slot(7), &mut bytes.to_vec()));
        }
        for bytes in [&[][..], &chain()] {
            same!(ledger_read_block(bytes, 0));
            same!(ledger_walk_step(bytes, 0));
            same!(ledger_write_block(block(), 0, &mut bytes.to_vec()));
        }
        assert!(nulls::ledger_walk_step(&[], 0).end);
    }

    #[test]
    fn null_for_chains() {
        let (chain, now) = (chain(), Slot(2));
        for [genesis, held, delivered, verdicts] in emptied([&GENESIS, &chain, &chain, &[3]]) {
            let length = held.len();
            same!(ledger_check(genesis, now, delivered, verdicts));
            same!(ledger_choose(genesis, now, held, delivered, verdicts));
            same!(ledger_adopt(
                genesis,
                now,
                &mut held.to_vec(),
                length,
                delivered,
                verdicts
            ));
            same!(ledger_report(genesis, now, held, length));
        }
        assert_eq!(nulls::ledger_check(&GENESIS, now, &[], &[]).refusal, 0);
        assert!(nulls::ledger_choose(&GENESIS, now, &[], &chain, &[3]).delivered);
        assert_eq!(nulls::ledger_report(&GENESIS, now, &[], 0).refusal, 0);
    }

    #[test]
    fn null_for_pools_and_issuing() {
        let (chain, now, pool) = (chain(), Slot(2), Pool::EMPTY);
        let (one, other) = (Signature([7; 64]), Signature([8; 64]));
        for [genesis, held, out] in emptied([&GENESIS, &chain, &[0; 192]]) {
            let (at, held_mut, out) = (held.len(), &mut held.to_vec(), &mut out.to_vec());
            same!(ledger_drop_entries(genesis, now, held, at, pool));
            same!(ledger_add_order(genesis, now, held, at, pool, ORDER, 3));
            same!(ledger_draft(genesis, now, held, at, pool, 1, one, out));
            same!(ledger_block_text(genesis, now, held, at, pool, 1, one, out));
            same!(ledger_append(
                genesis, now, held_mut, at, pool, 1, one, other
            ));
        }
        let added = nulls::ledger_add_order(&GENESIS, now, &[], 0, pool, ORDER, 3);
        assert_eq!(added.refusal, 0);
        let drafted = nulls::ledger_draft(&GENESIS, now, &[], 0, pool, 1, one, &mut [0; 192]);
        assert_eq!((drafted.refusal, drafted.length), (0, 98));
    }

    /// A number, a digest and a signature of zeros, whose type codes are not 4 and 5; without it the signature is too short.
    #[test]
    fn null_for_manifests() {
        for [image, manifest, key] in emptied([&[1], &[0; 1_325], &[0; 56]]) {
            same!(ledger_check_manifest(image, manifest, key, 0));
        }
        let check = |manifest: &[u8]| nulls::ledger_check_manifest(&[], manifest, &[], 0).refusal;
        assert_eq!([check(&[]), check(&[0; 33])], [3, 23]);
    }
}
