//! `docs/DEPTHS.md`, the sheet that fitters print (02, f), against the formula, entry by entry.
use second::samples;

const PAGE: &str = include_str!("../../../docs/DEPTHS.md");

/// What the page shows: – "where n is below 3t + 1", and in bold the depths at which nothing settles in a run.
fn shown(n: u32, t: u32) -> String {
    match samples::genesis(n, t, 1).depth() {
        0 => "–".to_string(),
        depth if depth >= 255 => format!("**{depth}**"),
        depth => depth.to_string(),
    }
}

/// The cells of each line of the page's table.
fn lines() -> Vec<Vec<&'static str>> {
    let table = PAGE
        .lines()
        .filter_map(|line| line.strip_prefix('|')?.strip_suffix('|'));
    table
        .map(|line| line.split('|').map(str::trim).collect())
        .collect()
}

/// "A table of 341 entries, n from 1 to 31 by t from 0 to 10", below a line of names and one of dashes.
#[test]
fn the_printed_sheet_is_the_formula() {
    let lines = lines();
    let names: Vec<String> = (0..=10).map(|t| format!("t = {t}")).collect();
    assert_eq!(lines[0][0], "n");
    assert_eq!(lines[0][1..], names);
    assert_eq!(lines.len(), 2 + 31);
    for (n, line) in (1..=31).zip(&lines[2..]) {
        let depths: Vec<String> = (0..=10).map(|t| shown(n, t)).collect();
        assert_eq!(line[0], n.to_string());
        assert_eq!(line[1..], depths, "n = {n}");
    }
}
