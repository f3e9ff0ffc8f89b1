//! Sheets to climb on, searched by `tpl_search`, and the steps that only sheets have.

use crate::climb::Climber;
use crate::engine;
use crate::place::Place;
use crate::planted;
use crate::random::Random;
use crate::reader::*;
use crate::sheets;
use crate::shown::Shown;
use crate::small;
use crate::steps::*;

/// Enough for six fields.
const FILLING_BYTES: usize = 54;
const HARD_PERCENT: usize = 15;
const SHUFFLED_PERCENT: usize = 60;

impl Place for Sheet {
    const NAME: &'static str = "sheets";
    const STEPS: &'static [fn(&mut Random, &mut Sheet)] = &[
        change_symbol,
        change_symbol,
        change_symbol,
        insert_symbol,
        insert_symbol,
        delete_symbol,
        delete_symbol,
        swap_symbols,
        swap_symbols,
        swap_sides,
        change_limit,
        change_letters,
        add_field,
        change_pairs,
        copy_side,
        change_coefficient,
        change_rule_limit,
        change_rules,
    ];

    /// A hard sheet, changed a little, or one made by chance, in many of which the right templates are
    /// the left ones in another order.
    fn any(climber: &mut Climber<Sheet>) -> Sheet {
        let random = &mut climber.random;
        if random.chance(HARD_PERCENT) {
            let hard = &climber.hard[random.below(climber.hard.len())];
            return step(random, hard).unwrap_or_else(|| hard.clone());
        }
        let mut sheet = sheets::valid(random);
        if random.chance(SHUFFLED_PERCENT) {
            planted::shuffle(random, &mut sheet);
        }
        for rule in &mut sheet.rules {
            rule.limit = small::near_a_sum(random, rule, &sheet.limits);
        }
        sheet
    }

    fn bytes(&self) -> Vec<u8> {
        sheets::encode(self)
    }

    /// Counts are bytes, so that a sheet that is far too large could be read as another one.
    fn is_accepted(&self) -> bool {
        read(&self.bytes()).map_or(false, |accepted| accepted == *self)
    }

    fn ask(bytes: &[u8]) -> i64 {
        engine::search(bytes, FILLING_BYTES).status
    }

    fn told(answer: i64) -> String {
        let answer = if answer == 1 { "clash" } else { "apart" };
        answer.to_string()
    }

    fn shown(&self) -> String {
        Shown(self).to_string()
    }

    fn letters(&mut self) -> &mut Vec<u8> {
        &mut self.letters
    }

    fn templates(&mut self) -> Vec<&mut Template> {
        let pairs = self.pairs.iter_mut();
        pairs
            .flat_map(|pair| [&mut pair.left, &mut pair.right])
            .collect()
    }

    fn limits(&mut self, _: usize) -> &mut Vec<u8> {
        &mut self.limits
    }
}

fn rule<'a>(random: &mut Random, sheet: &'a mut Sheet) -> Option<&'a mut Rule> {
    let count = sheet.rules.len();
    (count > 0).then(|| &mut sheet.rules[random.below(count)])
}

fn swap_sides(random: &mut Random, sheet: &mut Sheet) {
    let number = random.below(sheet.pairs.len());
    let pair = &mut sheet.pairs[number];
    std::mem::swap(&mut pair.left, &mut pair.right);
}

/// A template becomes a copy of another one.
fn copy_side(random: &mut Random, sheet: &mut Sheet) {
    let [one, other] = [(); 2].map(|()| number(random, sheet));
    let mut templates = sheet.templates();
    *templates[one] = templates[other].clone();
}

fn add_field(random: &mut Random, sheet: &mut Sheet) {
    sheet.limits.push(new_limit(random));
    for rule in &mut sheet.rules {
        rule.coefficients.push(coefficient(random));
    }
}

/// A pair less, or one more: of one symbol on each side, or a copy.
fn change_pairs(random: &mut Random, sheet: &mut Sheet) {
    let number = random.below(sheet.pairs.len());
    match random.below(3) {
        0 => drop(sheet.pairs.remove(number)),
        1 => sheet.pairs.push(sheet.pairs[number].clone()),
        _ => {
            let [left, right] = [(); 2].map(|()| vec![symbol(random, sheet, 0)]);
            sheet.pairs.push(Pair { left, right });
        }
    }
}

fn coefficient(random: &mut Random) -> i8 {
    random.within(0, 2 * GREATEST_COEFFICIENT as usize) as i8 - GREATEST_COEFFICIENT
}

fn change_coefficient(random: &mut Random, sheet: &mut Sheet) {
    let new = coefficient(random);
    if let Some(rule) = rule(random, sheet) {
        if !rule.coefficients.is_empty() {
            let field = random.below(rule.coefficients.len());
            let old = rule.coefficients[field];
            rule.coefficients[field] = random.one_of(&[new, old - 1, old + 1]);
        }
    }
}

fn change_rule_limit(random: &mut Random, sheet: &mut Sheet) {
    let limits = sheet.limits.clone();
    if let Some(rule) = rule(random, sheet) {
        let new = small::near_a_sum(random, rule, &limits);
        let old = rule.limit;
        rule.limit = random.one_of(&[new, old.saturating_sub(1), old.saturating_add(1)]);
    }
}

/// A rule less, or one more: a copy, or any.
fn change_rules(random: &mut Random, sheet: &mut Sheet) {
    let copied = rule(random, sheet).cloned();
    match (random.below(3), copied) {
        (0, Some(_)) => drop(sheet.rules.remove(random.below(sheet.rules.len()))),
        (1, Some(copied)) => sheet.rules.push(copied),
        _ => {
            let coefficients = sheet.limits.iter().map(|_| coefficient(random)).collect();
            let mut rule = Rule {
                coefficients,
                limit: 0,
            };
            rule.limit = small::near_a_sum(random, &rule, &sheet.limits);
            sheet.rules.push(rule);
        }
    }
}
