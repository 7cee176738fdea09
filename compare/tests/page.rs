//! The page of refusals must list every number that the proved source has, in
//! their order, and every call that it exports.

use std::collections::BTreeSet;

const PAGE: &str = include_str!("../../docs/REFUSALS.md");
const NUMBERS: &str = include_str!("../../crates/sheet/specs/Refusal.antt");
const SOURCE: &str = include_str!("../../crates/panel/src/lib.rt");
const EXAMPLE: &str = include_str!("../../examples/panel.c");

/// The numbers that definitions of the source give its causes.
fn defined() -> Vec<u32> {
    let lines = NUMBERS
        .lines()
        .filter(|line| line.starts_with("number_of "));
    let definitions = lines.filter_map(|line| line.split_once(" = "));
    definitions
        .map(|(_, number)| number.parse().expect("a number"))
        .collect()
}

/// The first cells of the page's rows.
fn cells() -> impl Iterator<Item = &'static str> {
    let rows = PAGE.lines().filter_map(|line| line.strip_prefix("| "));
    rows.filter_map(|row| row.split(" | ").next())
}

#[test]
fn the_page_lists_every_number_in_order() {
    let mut listed: Vec<u32> = cells().filter_map(|cell| cell.parse().ok()).collect();
    assert!(listed.is_sorted(), "{listed:?}");
    listed.dedup();
    assert_eq!(listed, defined());
    assert_eq!(listed, (1..=21).collect::<Vec<_>>());
}

#[test]
fn the_page_gives_the_order_of_every_call() {
    let name = |call: &'static str| call.split('(').next().unwrap_or_default();
    let exported: BTreeSet<_> = SOURCE
        .split("pub extern \"C\" fn ")
        .skip(1)
        .map(name)
        .collect();
    let quoted = cells().filter_map(|cell| cell.split("(`").nth(1)?.strip_suffix("`)"));
    assert_eq!(quoted.collect::<BTreeSet<_>>(), exported);
}

#[test]
fn the_panel_has_a_phrase_for_every_number() {
    for number in defined() {
        assert!(EXAMPLE.contains(&format!("[{number}] = {{")), "{number}");
    }
}
