//! Why a call refuses.
use core::error::Error;
use core::fmt::{self, Display, Formatter};

use crate::BlockCount;

/// A refusal: why, and where.
#[derive(Debug, Clone, Copy, PartialEq, Eq, Hash)]
pub struct Refusal {
    pub kind: Kind,
    /// The failing block, counted from 1: for 3 to 10 in a delivered chain, and for 17 in the held one. Else 0.
    pub place: BlockCount,
}

impl Refusal {
    pub const fn number(&self) -> u32 {
        self.kind.number()
    }
}

/// "refused 17 2: the held chain is bad": number and place first, as the report program writes them.
impl Display for Refusal {
    fn fmt(&self, f: &mut Formatter) -> fmt::Result {
        let Refusal { kind, place } = self;
        write!(f, "refused {} {}: {kind}", kind.number(), place.0)
    }
}

impl Error for Refusal {}

/// Writes the enum, and what each kind is by number, name and words.
macro_rules! kinds {
    ($($number:literal $kind:ident $name:literal $words:literal)*) => {
        /// Why a call refuses: its number, under the name of `include/ledger.h`.
        #[derive(Debug, Clone, Copy, PartialEq, Eq, Hash)]
        pub enum Kind {
            $(#[doc = $words] $kind,)*
            /// A number that no call of this version answers.
            Unknown(u32),
        }

        impl Kind {
            /// Every kind that there is, by rising numbers.
            pub const ALL: &'static [Kind] = &[$(Kind::$kind),*];

            pub const fn number(self) -> u32 {
                match self {
                    $(Kind::$kind => $number,)*
                    Kind::Unknown(number) => number,
                }
            }

            pub const fn of_number(number: u32) -> Kind {
                match number {
                    $($number => Kind::$kind,)*
                    number => Kind::Unknown(number),
                }
            }

            /// The name of `include/ledger.h`, without `LEDGER_`.
            pub const fn name(self) -> &'static str {
                match self {
                    $(Kind::$kind => $name,)*
                    Kind::Unknown(_) => "UNKNOWN",
                }
            }

            pub const fn words(self) -> &'static str {
                match self {
                    $(Kind::$kind => $words,)*
                    Kind::Unknown(_) => "no refusal of this version",
                }
            }
        }
    };
}

kinds! {
    1 BadGenesis "BAD_GENESIS" "the genesis table breaks a rule"
    2 BadClock "BAD_CLOCK" "the slot is not 1 to 256"
    3 Cut "CUT" "a block, a number or a manifest is cut"
    4 BadNumber "BAD_NUMBER" "a number is badly written: not in its shortest form, or too large"
    5 OutOfRange "OUT_OF_RANGE" "a count, a display, a depot, a release or a slot is out of its range"
    6 BadStamp "BAD_STAMP" "a block's slot is not above the one before it; to be issued: the held chain already has a block of this slot"
    7 LateStamp "LATE_STAMP" "a delivered block's slot is not below the clock's"
    8 BadVerdict "BAD_VERDICT" "a block's signatures do not verify, or nobody said whether they do"
    9 BadLink "BAD_LINK" "a block does not belong behind the one before it"
    10 BadOrder "BAD_ORDER" "a block has an order that is not valid there"
    11 NotLonger "NOT_LONGER" "the delivered chain does not have more blocks than the held one"
    12 WrongController "WRONG_CONTROLLER" "the controller is unknown, or it is not its turn"
    13 PoolFull "POOL_FULL" "the order pool is full"
    14 BadOffer "BAD_OFFER" "the order is not valid where it would stand"
    15 ShortBuffer "SHORT_BUFFER" "the lent buffer is too short"
    16 TooLong "TOO_LONG" "a delivered chain has more than 64,256 bytes, or what is to be digested more than 65,536"
    17 BadHeld "BAD_HELD" "the held chain is bad: put its length to 0 and take the next whole chain"
    18 BadPool "BAD_POOL" "the order pool is bad: empty it"
    20 DepotFull "DEPOT_FULL" "the depot has 16 entries in the order pool"
    23 BadForm "BAD_FORM" "a manifest's signature, or the key, has a wrong length or is of another type"
    24 BadSignature "BAD_SIGNATURE" "a manifest's signature does not verify under the key"
    25 WrongImage "WRONG_IMAGE" "the image is not the one that the manifest is for"
    26 WrongRelease "WRONG_RELEASE" "the manifest's release is not the settled one"
}

impl Display for Kind {
    fn fmt(&self, f: &mut Formatter) -> fmt::Result {
        f.write_str(self.words())
    }
}

#[cfg(test)]
mod tests {
    use super::*;
    use std::collections::BTreeSet;
    use std::string::ToString;

    #[test]
    fn numbers_there_and_back() {
        let numbers: std::vec::Vec<u32> = Kind::ALL.iter().map(|kind| kind.number()).collect();
        let known: std::vec::Vec<u32> = (1..=18).chain([20]).chain(23..=26).collect();
        assert_eq!(numbers, known);
        for kind in Kind::ALL {
            assert_eq!(Kind::of_number(kind.number()), *kind);
        }
        for number in [0, 19, 21, 22, 27, u32::MAX] {
            assert_eq!(Kind::of_number(number), Kind::Unknown(number));
            assert_eq!(Kind::Unknown(number).number(), number);
        }
    }

    #[test]
    fn no_two_have_one_name_or_the_same_words() {
        for text in [Kind::name as fn(Kind) -> &'static str, Kind::words] {
            let texts: BTreeSet<&str> = Kind::ALL.iter().map(|kind| text(*kind)).collect();
            assert_eq!(texts.len(), Kind::ALL.len());
        }
    }

    #[test]
    fn in_words() {
        let refused = Refusal {
            kind: Kind::BadLink,
            place: BlockCount(4),
        };
        let error: &dyn Error = &refused;
        assert_eq!(
            error.to_string(),
            "refused 9 4: a block does not belong behind the one before it"
        );
    }
}
