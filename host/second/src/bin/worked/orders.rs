//! Orders at one display's release.
use second::number::LARGEST;
use second::order::{self, Order, Release, Releases};
use second::samples;

use crate::case::{case, releases_text, Case, Field, Op, Section};

/// An order for a display that is at a release; every other display is at 0.
pub struct At {
    pub release: Release,
    pub order: Order,
}

impl At {
    fn releases(&self) -> Releases {
        let mut releases = [0; 64];
        if let Some(place) = releases.get_mut(self.order.display as usize) {
            *place = self.release;
        }
        releases
    }

    fn fields(&self) -> Vec<Field> {
        let Order {
            display,
            expected,
            new,
        } = self.order;
        vec![
            display.into(),
            self.release.into(),
            expected.into(),
            new.into(),
        ]
    }
}

/// valid DISPLAY RELEASE EXPECTED NEW
pub struct Valid(pub At);

impl Op for Valid {
    fn word(&self) -> &'static str {
        "valid"
    }

    fn fields(&self) -> Vec<Field> {
        self.0.fields()
    }

    fn answer(&self) -> String {
        verdict(order::valid(&self.0.order, &self.0.releases()))
    }
}

/// take DISPLAY RELEASE EXPECTED NEW
pub struct Take(pub At);

impl Op for Take {
    fn word(&self) -> &'static str {
        "take"
    }

    fn fields(&self) -> Vec<Field> {
        self.0.fields()
    }

    fn answer(&self) -> String {
        let mut releases = self.0.releases();
        let valid = order::apply(&self.0.order, &mut releases);
        verdict(valid) + &releases_text(&releases)
    }
}

fn verdict(valid: bool) -> String {
    if valid { "valid" } else { "not valid" }.into()
}

/// Display, its release, the expected release, the new one, and whether the order is valid.
type Row = (u32, Release, Release, Release, bool);

const WORKED: [Row; 4] = [
    (2, 40, 40, 41, true),
    (2, 40, 40, 40, false),
    (2, 40, 40, 39, false),
    (2, 40, 39, 41, false),
];

/// The first release that 32 bits do not hold.
const ABOVE: Release = 1 << 32;

const EDGES: [Row; 16] = [
    (0, 0, 0, 1, true),
    (63, 0, 0, 1, true),
    (63, 7, 7, LARGEST, true),
    (5, LARGEST - 1, LARGEST - 1, LARGEST, true),
    (5, LARGEST, LARGEST, LARGEST, false),
    (5, LARGEST, LARGEST, 0, false),
    (5, ABOVE - 1, ABOVE - 1, ABOVE, true),
    (5, ABOVE, ABOVE, ABOVE + 1, true),
    (5, ABOVE, ABOVE, 1, false),
    (5, ABOVE + 40, 40, 41, false),
    (5, 0, 0, 0, false),
    (5, 40, 41, 42, false),
    (5, 40, 0, 41, false),
    (64, 0, 0, 1, false),
    (256, 0, 0, 1, false),
    (u32::MAX, 0, 0, 1, false),
];

fn at((display, release, expected, new, _): Row) -> At {
    At {
        release,
        order: samples::order(display, expected, new),
    }
}

fn name((display, release, expected, new, _): Row) -> String {
    format!("display {display} at release {release}: {expected} to {new}")
}

fn judged(row: Row) -> Case {
    case(name(row), Valid(at(row))).by_hand(verdict(row.4))
}

/// The verdict again, and the release where the order leaves it.
fn taken(row: Row) -> Case {
    let (display, release, _, new, valid) = row;
    let after = if valid { new } else { release };
    let left = if after == 0 {
        String::new()
    } else {
        format!(" {display}:{after}")
    };
    case(name(row), Take(at(row))).by_hand(verdict(valid) + &left)
}

pub fn sections() -> Vec<Section> {
    vec![
        Section {
            title: "Orders: display 2 at release 40 (01, \"Worked by hand\")",
            cases: WORKED.map(judged).into(),
        },
        Section {
            title: "Orders: the smallest and largest releases and displays",
            cases: EDGES.map(judged).into(),
        },
        Section {
            title: "Orders: \"a valid order puts the new release there; no other display changes\"",
            cases: WORKED.into_iter().chain(EDGES).map(taken).collect(),
        },
    ]
}
