//! Slots, block counts, and orders over the releases of the 64 displays (01, "Orders, blocks, chains").
use std::ops::RangeInclusive;

use super::number::LARGEST;

/// A slot: a stamp or a clock reading. "A slot stamp and a block count are kept apart throughout."
#[derive(Debug, Clone, Copy, Default, PartialEq, Eq, PartialOrd, Ord)]
pub struct Slot(pub u32);

/// A number of blocks, never a slot.
#[derive(Debug, Clone, Copy, Default, PartialEq, Eq, PartialOrd, Ord)]
pub struct BlockCount(pub u32);

/// "An order names a display (0 to 63), the release it expects there and the new release."
#[derive(Debug, Clone, Copy, Default, PartialEq, Eq)]
pub struct Order {
    pub display: u32,
    pub expected: Release,
    pub new: Release,
}

/// A release. One that is handed in may be above the largest number; what was read is not.
pub type Release = u64;

/// A state: the release of each display.
pub type Releases = [Release; 64];

/// The displays that an order can name.
pub const DISPLAYS: RangeInclusive<u32> = 0..=63;

/// The releases that can be written.
pub const RELEASES: RangeInclusive<Release> = 0..=LARGEST;

/// The slots there are, for a stamp and for now.
pub const SLOTS: RangeInclusive<u32> = 1..=256;

impl Order {
    /// Whether the display and both releases are in their ranges, so that the order can be written.
    pub fn in_range(&self) -> bool {
        DISPLAYS.contains(&self.display)
            && RELEASES.contains(&self.expected)
            && RELEASES.contains(&self.new)
    }
}

/// "Valid at a state exactly if the display's release equals the expected one and the new one is greater."
pub fn valid(order: &Order, releases: &Releases) -> bool {
    releases.get(order.display as usize) == Some(&order.expected) && order.new > order.expected
}

/// "A valid order puts the new release there; no other display changes." Says whether it was valid; if not, nothing changes.
pub fn apply(order: &Order, releases: &mut Releases) -> bool {
    let valid = valid(order, releases);
    if valid {
        releases[order.display as usize] = order.new;
    }
    valid
}

#[cfg(test)]
mod tests {
    use super::*;
    use crate::samples::order;

    /// Display 2 at release 40, the others at their own number.
    fn releases() -> Releases {
        let mut releases = std::array::from_fn(|display| display as Release);
        releases[2] = 40;
        releases
    }

    /// 01's worked example.
    #[test]
    fn display_2_at_release_40() {
        assert!(valid(&order(2, 40, 41), &releases()));
        assert!(!valid(&order(2, 40, 40), &releases()));
        assert!(!valid(&order(2, 40, 39), &releases()));
        assert!(!valid(&order(2, 39, 41), &releases()));
        assert!(!valid(&order(3, 40, 41), &releases()));
    }

    #[test]
    fn only_the_named_display_changes() {
        for display in DISPLAYS {
            let mut after = releases();
            let expected = after[display as usize];
            assert!(apply(&order(display, expected, LARGEST), &mut after));
            assert_eq!(after[display as usize], LARGEST);
            after[display as usize] = expected;
            assert_eq!(after, releases());
        }
    }

    #[test]
    fn an_order_that_is_not_valid_changes_nothing() {
        for bad in [
            order(2, 40, 40),
            order(2, 41, 42),
            order(64, 0, 1),
            order(66, 40, 41),
            order(258, 40, 41),
            order(u32::MAX, 0, 1),
        ] {
            let mut after = releases();
            assert!(!apply(&bad, &mut after));
            assert_eq!(after, releases());
        }
    }

    #[test]
    fn largest_releases() {
        let mut releases = [LARGEST - 1; 64];
        assert!(apply(&order(0, LARGEST - 1, LARGEST), &mut releases));
        assert!(!apply(&order(0, LARGEST, LARGEST), &mut releases));
        assert!(!apply(&order(0, LARGEST, 0), &mut releases));
    }

    /// Releases that are alike in their lowest 32 bits are not the same.
    #[test]
    fn releases_above_32_bits() {
        let above = 1 << 32;
        let mut releases = [above + 7; 64];
        assert!(!apply(&order(0, 7, 8), &mut releases));
        assert!(!apply(&order(0, above + 7, 8), &mut releases));
        assert!(!apply(&order(0, above + 7, above + 7), &mut releases));
        assert!(apply(&order(0, above + 7, 2 * above), &mut releases));
        assert_eq!((releases[0], releases[1]), (2 * above, above + 7));
    }

    #[test]
    fn ranges() {
        assert!(order(0, 0, 0).in_range());
        assert!(order(63, LARGEST, LARGEST).in_range());
        for above in [LARGEST + 1, 1 << 36, u64::MAX] {
            assert!(!order(0, above, LARGEST).in_range());
            assert!(!order(0, 0, above).in_range());
        }
        assert!(!order(64, 0, 1).in_range());
    }
}
