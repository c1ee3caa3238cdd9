//! Writes the cases that the program `worked` is run on (`input`) and what it must print (`output`). The answers are those of the second
//! implementation; where 01 or a reading of it gives an answer by hand, the case holds it, and the two are compared before anything is
//! written.
mod adoptions;
mod blocks;
mod case;
mod chains;
mod choices;
mod faults;
mod held;
mod issues;
mod judging;
mod lines;
mod orders;
mod pools;
mod random;
mod tables;
mod walks;
mod writes;

use std::env;
use std::process::exit;

use case::{input, output, Section};

/// Every case, in the order in which they are run. One line for each file of cases.
fn document() -> Vec<Section> {
    [
        orders::sections(),
        tables::sections(),
        blocks::sections(),
        writes::sections(),
        walks::sections(),
        chains::sections(),
        judging::sections(),
        held::sections(),
        choices::sections(),
        adoptions::sections(),
        pools::sections(),
        issues::sections(),
        lines::sections(),
    ]
    .into_iter()
    .flatten()
    .collect()
}

/// The stored cases, or those of a seed.
fn sections(seed: Option<&str>) -> Option<Vec<Section>> {
    match seed {
        None => Some(document()),
        Some(seed) => seed.parse().ok().map(random::sections),
    }
}

fn text(words: &[&str]) -> Option<String> {
    let (which, seed) = match words {
        [which] => (*which, None),
        [which, seed] => (*which, Some(*seed)),
        _ => return None,
    };
    let sections = sections(seed)?;
    match which {
        "input" => Some(input(&sections)),
        "output" => Some(output(&sections)),
        _ => None,
    }
}

fn main() {
    let words: Vec<String> = env::args().skip(1).collect();
    let words: Vec<&str> = words.iter().map(String::as_str).collect();
    let Some(text) = text(&words) else {
        eprintln!("usage: worked input|output [SEED]");
        exit(2);
    };
    print!("{text}");
}

#[cfg(test)]
mod tests {
    use super::*;
    use std::fs;
    use std::path::Path;

    fn stored(name: &str) -> String {
        let folder = Path::new(env!("CARGO_MANIFEST_DIR")).join("../../crates/worked");
        fs::read_to_string(folder.join(name)).unwrap()
    }

    /// What is stored is what these cases give, and each answer that was worked out by hand is the second implementation's.
    #[test]
    fn stored_files_are_current() {
        let sections = document();
        assert!(stored("stdin") == input(&sections), "write stdin anew");
        assert!(stored("stdout") == output(&sections), "write stdout anew");
    }

    /// The program's room for a line.
    #[test]
    fn lines_fit() {
        assert!(input(&document()).lines().all(|line| line.len() <= 262_144));
    }

    #[test]
    fn no_two_cases_of_a_section_have_one_name() {
        for section in document() {
            let mut names: Vec<&str> = section.cases.iter().map(|case| &case.name[..]).collect();
            names.sort();
            let count = names.len();
            names.dedup();
            assert_eq!(names.len(), count, "{}", section.title);
        }
    }
}
