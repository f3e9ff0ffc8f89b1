//! The names and numbers of `include/lunthegyr.h` against those of this crate.

use crate::cause::{Cause, WHY_NUMBERS};
use crate::{sizes, Refusal, Side};
use std::collections::BTreeMap;

const HEADER: &str = include_str!("../../../include/lunthegyr.h");

/// The names and numbers of one of the header's lists: lines such as `TPL_MARK = 2,`.
fn listed(list: &str) -> BTreeMap<String, u64> {
    let first = format!("enum {list} {{");
    let lines = HEADER.lines().skip_while(|line| *line != first);
    lines
        .take_while(|line| *line != "};")
        .filter_map(named)
        .collect()
}

fn named(line: &str) -> Option<(String, u64)> {
    let (name, rest) = line.trim().strip_prefix("TPL_")?.split_once(" = ")?;
    let number = rest.split(|c: char| !c.is_ascii_digit()).next()?;
    Some((name.to_string(), number.parse().ok()?))
}

/// The header's other constants: lines such as `#define TPL_LEFT 0`.
fn defined() -> BTreeMap<String, u64> {
    HEADER.lines().filter_map(definition).collect()
}

fn definition(line: &str) -> Option<(String, u64)> {
    let mut words = line.strip_prefix("#define TPL_")?.split(' ');
    let name = words.next()?.to_string();
    let number = words
        .next()?
        .parse()
        .expect("a constant of the header is a number");
    Some((name, number))
}

/// A name as C writes it: `LineEnd` is `LINE_END`.
fn in_c(name: &str) -> String {
    let mut written = String::new();
    for letter in name.chars() {
        if letter.is_ascii_uppercase() && !written.is_empty() {
            written.push('_');
        }
        written.push(letter.to_ascii_uppercase());
    }
    written
}

#[test]
fn the_refusals_are_the_headers() {
    let ours = Refusal::ALL
        .iter()
        .map(|refusal| (in_c(&format!("{refusal:?}")), u64::from(refusal.number())));
    assert_eq!(listed("tpl_refusal"), ours.collect());
}

#[test]
fn the_causes_are_the_headers() {
    // Numbers that are a cause of each kind.
    let ours = [[1, 0, 0, 0, 1], [2, 0, 0, 0, 0]].map(|why| {
        let shown = format!("{:?}", Cause::of(why));
        let name = shown.split(' ').next().expect("a name comes first");
        (in_c(name), why[0])
    });
    assert_eq!(listed("tpl_cause"), ours.into());
}

#[test]
fn every_list_of_the_header_is_one_of_these() {
    let named = HEADER.lines().filter_map(named).count();
    let listed = ["tpl_refusal", "tpl_cause"].map(|list| listed(list).len());
    assert_eq!(named, listed.iter().sum());
}

#[test]
fn the_sizes_and_other_constants_are_the_headers() {
    let ours = [
        ("SHEET_MOST", sizes::SHEET_MOST as u64),
        ("LETTERS_MOST", sizes::LETTERS_MOST as u64),
        ("FIELDS_MOST", sizes::FIELDS_MOST as u64),
        ("PAIRS_MOST", sizes::PAIRS_MOST as u64),
        ("RULES_MOST", sizes::RULES_MOST as u64),
        ("SYMBOLS_MOST", sizes::SYMBOLS_MOST as u64),
        ("FIELD_SYMBOL", u64::from(sizes::FIELD_SYMBOL)),
        ("FIELD_PLACES", sizes::FIELD_PLACES as u64),
        ("FIELD_BYTES", sizes::FIELD_BYTES as u64),
        ("FILLING_MOST", sizes::FILLING_MOST as u64),
        ("PAST_LENGTH", u64::from(sizes::PAST_LENGTH)),
        ("TEXT_MOST", sizes::TEXT_MOST as u64),
        ("LINE_MOST", sizes::LINE_MOST as u64),
        ("REPLY_MOST", sizes::REPLY_MOST as u64),
        ("BOOK_MOST", sizes::BOOK_MOST as u64),
        ("TEMPLATES_MOST", sizes::TEMPLATES_MOST as u64),
        ("TEMPLATE_FIELDS_MOST", sizes::TEMPLATE_FIELDS_MOST as u64),
        ("LIST_MOST", sizes::LIST_MOST as u64),
        ("HOURS_MOST", sizes::HOURS_MOST as u64),
        ("WINDOWS_MOST", sizes::WINDOWS_MOST as u64),
        ("WEEK_MINUTES", u64::from(sizes::WEEK_MINUTES)),
        ("LEFT", Side::Left.number()),
        ("RIGHT", Side::Right.number()),
        ("WHY_NUMBERS", WHY_NUMBERS as u64),
        // As `calls::check` and `calls::search` take them.
        ("CLASH", 1),
        ("DOES_NOT_CLASH", 0),
        ("APART", 0),
    ];
    let ours = ours
        .iter()
        .map(|(name, number)| (name.to_string(), *number));
    assert_eq!(defined(), ours.collect());
}
