//! Lines that can't be read, and one that has no newline.
use second::samples;

use crate::case::{case, Case, Field, Op, Section};
use crate::orders::{At, Valid};

/// A line as it stands.
struct Bad(&'static str);

impl Op for Bad {
    fn word(&self) -> &'static str {
        self.0
    }

    fn fields(&self) -> Vec<Field> {
        Vec::new()
    }

    fn answer(&self) -> String {
        "bad line".into()
    }
}

const BAD: [(&str, &str); 7] = [
    ("no such op", "vary 2 40 40 41"),
    ("an op and more letters", "genesisa -"),
    ("no field", "genesis"),
    ("too few fields", "valid 2 40 40"),
    ("an empty field", "valid 2  40 41"),
    ("a space at the end", "depth "),
    ("a character that no field has", "depth 0g"),
];

fn bad((name, line): (&'static str, &'static str)) -> Case {
    case(name, Bad(line))
}

/// The last of all, since only a last line can have no newline.
pub fn sections() -> Vec<Section> {
    let order = samples::order(2, 40, 41);
    let last = Valid(At { release: 40, order });
    vec![
        Section {
            title: "Lines that can't be read",
            cases: BAD.map(bad).into(),
        },
        Section {
            title: "The last line, with no newline",
            cases: vec![case("display 2 at release 40: 40 to 41", last).by_hand("valid")],
        },
    ]
}
