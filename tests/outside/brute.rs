//! Compares the library with itself: a filling must check as a clash just when the library spells
//! the same text on both sides of each pair and the rules hold; and where it does not, what is said to
//! be first against it must fit the texts that the library spells, or the rules. Every filling of small
//! sheets is tried. The plain reader and the plain speller have no say in the answers.

use crate::engine::{self, Outcome, WHY_BEFORE};
use crate::fillings;
use crate::planted;
use crate::random::Random;
use crate::reader::{Rule, Sheet};
use crate::report::{require, Hex};
use crate::sheets;
use crate::speller::{Filling, Spelling, LEFT, RIGHT};
use crate::tally::Tally;
use crate::whys;

const SHEETS: usize = 3000;
const PLANTED_PERCENT: usize = 70;
const DIFFERING_PERCENT: usize = 60;
const GREATEST_TEXT: usize = 24;

pub fn run(random: &mut Random) {
    let answers = [&["clash"], &whys::KINDS[..]].concat();
    let mut tally = Tally::new("every filling", &answers, 0..0);
    for _ in 0..SHEETS {
        let sheet = small_sheet(random);
        let bytes = sheets::encode(&sheet);
        for filling in fillings::all(&sheet) {
            tally.count(Ok(compare(&sheet, &bytes, &filling)));
        }
    }
    tally.finish();
    println!(
        "outside: the library agrees with itself on all {} fillings of {SHEETS} small sheets",
        tally.total()
    );
}

fn small_sheet(random: &mut Random) -> Sheet {
    let mut sheet = sheets::small(random);
    let filling = fillings::legal(random, &sheet);
    if random.chance(PLANTED_PERCENT) {
        planted::plant(random, &mut sheet, &filling);
        if random.chance(DIFFERING_PERCENT) {
            planted::differ(random, &mut sheet, &filling);
        }
    }
    sheet
}

/// Holds what checking answers to what spelling and the rules say, and names it.
fn compare(sheet: &Sheet, bytes: &[u8], filling: &Filling) -> &'static str {
    let encoded = fillings::encode(filling);
    let pairs = 0..sheet.pairs.len() as u64;
    let both = |pair| [LEFT, RIGHT].map(|side| spell(bytes, pair, side, &encoded));
    let texts: Vec<[Vec<u8>; 2]> = pairs.map(both).collect();
    let holding: Vec<bool> = sheet
        .rules
        .iter()
        .map(|rule| holds(rule, filling))
        .collect();
    let checked = engine::check(bytes, &encoded);
    require(
        fits(&checked, &texts, &holding) && checked.rest_unchanged,
        "checking does not fit what the library spells",
        &[
            ("sheet", &Hex(bytes)),
            ("filling", &Hex(&encoded)),
            ("texts", &format!("{texts:?}")),
            ("rules hold", &format!("{holding:?}")),
            ("checked", &checked),
        ],
    );
    let kind = whys::kind(&checked.lent);
    kind.map_or("clash", |kind| whys::KINDS[kind])
}

/// Does what checking answers fit the texts of each pair, and which rules hold?
fn fits(checked: &Outcome<u64>, texts: &[[Vec<u8>; 2]], holding: &[bool]) -> bool {
    let same = |pairs: &[[Vec<u8>; 2]]| pairs.iter().all(|[left, right]| left == right);
    let hold = |rules: &[bool]| rules.iter().all(|&holds| holds);
    match (checked.status, &checked.lent[..]) {
        (1, untouched) => same(texts) && hold(holding) && untouched == WHY_BEFORE,
        (0, &[1, pair, agreeing, side, length]) => {
            let pair = pair as usize;
            let differing = texts.get(pair);
            differing.map_or(false, |pair| whys::fits(pair, agreeing, side, length))
                && same(&texts[..pair])
        }
        (0, &[2, rule, 0, 0, 0]) => {
            let rule = rule as usize;
            same(texts) && holding.get(rule) == Some(&false) && hold(&holding[..rule])
        }
        _ => false,
    }
}

/// The text that the library spells.
fn spell(sheet: &[u8], pair: u64, side: u64, filling: &[u8]) -> Vec<u8> {
    let asked = Spelling {
        sheet,
        pair,
        side,
        filling,
        room: GREATEST_TEXT,
    };
    let mut spelled = engine::spell(asked);
    require(
        spelled.status >= 0 && spelled.rest_unchanged,
        "the library does not spell a template",
        &[("asked", &asked), ("spelled", &spelled)],
    );
    spelled.lent.truncate(spelled.status as usize);
    spelled.lent
}

fn holds(rule: &Rule, filling: &Filling) -> bool {
    let lengths = filling.iter().map(|text| text.len() as i64);
    let terms = lengths.zip(&rule.coefficients);
    let sum: i64 = terms
        .map(|(length, &coefficient)| length * i64::from(coefficient))
        .sum();
    sum <= i64::from(rule.limit)
}
