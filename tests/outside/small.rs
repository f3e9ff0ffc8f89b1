//! Makes small sheets, of which all fillings can be tried: many clash, many are apart, each for
//! many reasons.

use crate::fillings;
use crate::planted;
use crate::random::Random;
use crate::reader::{Pair, Rule, Sheet, Symbol, MOST_SYMBOLS};
use crate::sheets;
use crate::writer;

const NO_PLACES_PERCENT: usize = 25;
const SPOILED_PERCENT: usize = 35;
const NEW_LIMIT_PERCENT: usize = 25;

/// A small sheet.
pub fn sheet(random: &mut Random) -> Sheet {
    let sheet = plain(random);
    changed(random, sheet)
}

/// A sheet with more fillings than a small one, of which all can still be tried.
pub fn wide(random: &mut Random) -> Sheet {
    let sheet = sheets::of_more_fillings(random);
    changed(random, sheet)
}

/// In most sheets one filling was made to clash, or two to fit some pairs each; then some were
/// spoiled, and some rules came to have another limit.
fn changed(random: &mut Random, mut sheet: Sheet) -> Sheet {
    match random.below(6) {
        0 => {}
        1 | 2 => {
            let full = [(); 2].map(|()| fillings::full(random, &sheet));
            planted::plant_two(random, &mut sheet, &full);
        }
        _ => {
            let filling = fillings::legal(random, &sheet);
            planted::plant(random, &mut sheet, &filling);
        }
    }
    if random.chance(SPOILED_PERCENT) {
        planted::spoil(random, &mut sheet);
    }
    for rule in &mut sheet.rules {
        if random.chance(NEW_LIMIT_PERCENT) {
            rule.limit = near_a_sum(random, rule, &sheet.limits);
        }
    }
    sheet
}

/// A small sheet with a rule that only full fields keep, and in most cases with a full filling that
/// clashes.
pub fn far(random: &mut Random) -> Sheet {
    let mut sheet = plain(random);
    let full = fillings::full(random, &sheet);
    planted::plant(random, &mut sheet, &full);
    if random.chance(SPOILED_PERCENT) {
        planted::spoil(random, &mut sheet);
    }
    planted::only_full(&mut sheet);
    sheet
}

/// A small sheet that parts a text among all fields, so that most clashes have one total.
pub fn split(random: &mut Random) -> Sheet {
    let mut sheet = plain(random);
    let filling = fillings::legal(random, &sheet);
    let text = filling.concat();
    if text.len() <= MOST_SYMBOLS {
        sheet.pairs[0] = Pair {
            left: (0..filling.len() as u8).map(Symbol::Field).collect(),
            right: text.into_iter().map(Symbol::Letter).collect(),
        };
        sheet.pairs.truncate(1);
        sheet.rules.truncate(1);
    }
    sheet
}

/// A small sheet in which lengths can be traded: a rule asks for so much of all fields together, and
/// counts one field more than another. Each field repeats one letter, or is free, or no template has
/// it.
pub fn traded(random: &mut Random) -> Sheet {
    let l = random.within(2, 3);
    let limits: Vec<u8> = (0..random.within(2, 3))
        .map(|_| random.within(1, 5 - l) as u8)
        .collect();
    let mut pairs = Vec::new();
    for field in 0..limits.len() as u8 {
        let field = Symbol::Field(field);
        let letter = Symbol::Letter(random.below(l) as u8);
        let [left, right] = match random.below(3) {
            0 => [vec![letter, field], vec![field, letter]],
            1 => [vec![field], vec![field]],
            _ => [vec![], vec![]],
        };
        pairs.push(Pair { left, right });
    }
    let coefficients: Vec<i8> = limits
        .iter()
        .map(|_| -(random.within(1, 4) as i8))
        .collect();
    let mut rule = Rule {
        coefficients,
        limit: 0,
    };
    let least = *writer::sums(&rule, &limits, limits.len()).start();
    rule.limit = -(random.within(1, least.unsigned_abs() as usize) as i16);
    Sheet {
        letters: (b'a'..).take(l).collect(),
        limits,
        pairs,
        rules: vec![rule],
    }
}

/// A small sheet; few have no place for a letter in any field.
fn plain(random: &mut Random) -> Sheet {
    loop {
        let sheet = if random.chance(50) {
            sheets::of_few_fillings(random)
        } else {
            sheets::small(random)
        };
        let has_places = sheet.limits.iter().any(|&limit| limit > 0);
        if has_places || random.chance(NO_PLACES_PERCENT) {
            return sheet;
        }
    }
}

/// A limit for a rule: one of the sums that there are, or just below the least.
pub fn near_a_sum(random: &mut Random, rule: &Rule, limits: &[u8]) -> i16 {
    let sums = writer::sums(rule, limits, limits.len());
    let (least, greatest) = (*sums.start(), *sums.end());
    let above = random.below((greatest - least + 2) as usize);
    (least - 1) as i16 + above as i16
}
