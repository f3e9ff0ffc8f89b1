//! What is special about a sheet, by name, so that a test that never meets it cannot pass.

use crate::reader::*;
use crate::writer::{self, Cell};

/// A name, and whether it fits a sheet.
pub struct Shape(&'static str, fn(&Sheet) -> bool);

/// Shapes in parts.
pub type Shapes = [&'static [Shape]];

/// What may be special about a sheet of any size, about a small one, and about a large one.
pub const ALL: &Shapes = &[&COMMON, &OF_ANY_SIZE, &LARGE];
pub const OF_SMALL: &Shapes = &[&COMMON, &SMALL, &SHARED];
pub const OF_LARGE: &Shapes = &[&LARGE, &SHARED];

const COMMON: [Shape; 8] = [
    Shape("no fields", |sheet| sheet.limits.is_empty()),
    Shape("no fields, but rules", |sheet| {
        sheet.limits.is_empty() && !sheet.rules.is_empty()
    }),
    Shape("a field of limit 0", |sheet| sheet.limits.contains(&0)),
    Shape("fields, all of limit 0", |sheet| {
        !sheet.limits.is_empty() && sheet.limits.iter().all(|&limit| limit == 0)
    }),
    Shape("a field that no template has", |sheet| {
        (0..sheet.limits.len()).any(|field| is_unused(sheet, field))
    }),
    Shape("an empty template", |sheet| {
        any_pair(sheet, |pair| pair.left.is_empty() || pair.right.is_empty())
    }),
    Shape("two empty templates in a pair", |sheet| {
        any_pair(sheet, |pair| pair.left.is_empty() && pair.right.is_empty())
    }),
    Shape("one place on both sides", |sheet| {
        any_shared_cell(sheet, |cell| matches!(cell, Cell::Place(..)))
    }),
];

const OF_ANY_SIZE: [Shape; 11] = [
    Shape("one letter on both sides", |sheet| {
        any_shared_cell(sheet, |cell| matches!(cell, Cell::Letter(_)))
    }),
    Shape("two templates of width 24", |sheet| {
        let width = |template| width(template, &sheet.limits);
        let mut pairs = sheet.pairs.iter();
        pairs.any(|pair| [width(&pair.left), width(&pair.right)] == [GREATEST_WIDTH; 2])
    }),
    Shape("all four counts at their greatest", |sheet| {
        let greatest = [MOST_LETTERS, MOST_FIELDS, MOST_PAIRS, MOST_RULES];
        sheet.counts() == greatest.map(|count| count as u64)
    }),
    Shape("coefficient -4 for a limit of 8", |sheet| {
        has_coefficient(sheet, -GREATEST_COEFFICIENT)
    }),
    Shape("coefficient 4 for a limit of 8", |sheet| {
        has_coefficient(sheet, GREATEST_COEFFICIENT)
    }),
    Shape("a rule's limit of -32768", |sheet| {
        any_rule_limit(sheet, |limit, _, _| limit == -32768)
    }),
    Shape("a rule's limit of 32767", |sheet| {
        any_rule_limit(sheet, |limit, _, _| limit == 32767)
    }),
    Shape("a rule's limit just below the least sum", |sheet| {
        any_rule_limit(sheet, |limit, least, _| limit == least - 1)
    }),
    Shape("a rule's limit at the least sum", |sheet| {
        any_rule_limit(sheet, |limit, least, _| limit == least)
    }),
    Shape("a rule's limit just below the greatest sum", |sheet| {
        any_rule_limit(sheet, |limit, _, greatest| limit == greatest - 1)
    }),
    Shape("a rule's limit at the greatest sum", |sheet| {
        any_rule_limit(sheet, |limit, _, greatest| limit == greatest)
    }),
];

const SMALL: [Shape; 8] = [
    Shape("a field of limit 3 or more", |sheet| {
        sheet.limits.iter().any(|&limit| limit >= 3)
    }),
    Shape("a field that only a rule has", |sheet| {
        (0..sheet.limits.len()).any(|field| is_only_in_a_rule(sheet, field))
    }),
    Shape("several pairs", |sheet| sheet.pairs.len() > 1),
    Shape("empty templates alone", |sheet| {
        !any_pair(sheet, |pair| {
            !pair.left.is_empty() || !pair.right.is_empty()
        })
    }),
    Shape("no rules", |sheet| sheet.rules.is_empty()),
    Shape("rules", |sheet| !sheet.rules.is_empty()),
    Shape("several rules", |sheet| sheet.rules.len() > 1),
    Shape("a negative coefficient", |sheet| {
        let mut coefficients = sheet.rules.iter().flat_map(|rule| &rule.coefficients);
        coefficients.any(|&coefficient| coefficient < 0)
    }),
];

const SHARED: [Shape; 3] = [
    Shape("a rule that needs a full field", |sheet| {
        any_rule_limit(sheet, |limit, least, _| limit == least && least < 0)
    }),
    Shape("a field twice in a template", |sheet| {
        let twice = |template: &Template, symbol| count(template, symbol) > 1;
        any_pair(sheet, |pair| {
            let mut symbols = fields(sheet);
            symbols.any(|symbol| twice(&pair.left, symbol) || twice(&pair.right, symbol))
        })
    }),
    Shape("a field in several pairs", |sheet| {
        let has = |pair: &&Pair, symbol| count(&pair.left, symbol) + count(&pair.right, symbol) > 0;
        let pairs_with = |symbol| sheet.pairs.iter().filter(|pair| has(pair, symbol)).count();
        fields(sheet).any(|symbol| pairs_with(symbol) > 1)
    }),
];

const LARGE: [Shape; 7] = [
    Shape("eight letters", |sheet| sheet.letters.len() == MOST_LETTERS),
    Shape("six fields", |sheet| sheet.limits.len() == MOST_FIELDS),
    Shape("four pairs", |sheet| sheet.pairs.len() == MOST_PAIRS),
    Shape("four rules", |sheet| sheet.rules.len() == MOST_RULES),
    Shape("a field of limit 8", |sheet| {
        sheet.limits.contains(&GREATEST_LIMIT)
    }),
    Shape("a template of 12 symbols", |sheet| {
        let is_long = |template: &Template| template.len() == MOST_SYMBOLS;
        any_pair(sheet, |pair| is_long(&pair.left) || is_long(&pair.right))
    }),
    Shape("a template of width 24", |sheet| {
        let is_wide = |template: &Template| width(template, &sheet.limits) == GREATEST_WIDTH;
        any_pair(sheet, |pair| is_wide(&pair.left) || is_wide(&pair.right))
    }),
];

/// All names.
pub fn names(shapes: &Shapes) -> Vec<&'static str> {
    shapes
        .iter()
        .copied()
        .flatten()
        .map(|shape| shape.0)
        .collect()
}

/// The names that fit a sheet.
pub fn of(sheet: &Sheet, shapes: &Shapes) -> Vec<&'static str> {
    let fitting = shapes
        .iter()
        .copied()
        .flatten()
        .filter(|shape| shape.1(sheet));
    fitting.map(|shape| shape.0).collect()
}

/// The fields, as templates have them.
fn fields(sheet: &Sheet) -> impl Iterator<Item = Symbol> {
    (0..sheet.limits.len()).map(|field| Symbol::Field(field as u8))
}

/// How often a template has a symbol.
fn count(template: &Template, symbol: Symbol) -> usize {
    template.iter().filter(|&&other| other == symbol).count()
}

fn is_unused(sheet: &Sheet, field: usize) -> bool {
    let symbol = Symbol::Field(field as u8);
    !any_pair(sheet, |pair| {
        pair.left.contains(&symbol) || pair.right.contains(&symbol)
    })
}

/// Can a field's length change a rule's sum, and nothing else?
fn is_only_in_a_rule(sheet: &Sheet, field: usize) -> bool {
    let mut coefficients = sheet.rules.iter().map(|rule| rule.coefficients[field]);
    sheet.limits[field] > 0
        && is_unused(sheet, field)
        && coefficients.any(|coefficient| coefficient != 0)
}

fn any_pair(sheet: &Sheet, test: impl Fn(&Pair) -> bool) -> bool {
    sheet.pairs.iter().any(test)
}

/// Is there a cell that passes the test in both templates of a pair?
fn any_shared_cell(sheet: &Sheet, test: fn(&Cell) -> bool) -> bool {
    any_pair(sheet, |pair| {
        let left = writer::cells(&pair.left, &sheet.limits);
        let right = writer::cells(&pair.right, &sheet.limits);
        left.iter().any(|cell| test(cell) && right.contains(cell))
    })
}

fn has_coefficient(sheet: &Sheet, coefficient: i8) -> bool {
    sheet.rules.iter().any(|rule| {
        let mut terms = rule.coefficients.iter().zip(&sheet.limits);
        terms.any(|term| term == (&coefficient, &GREATEST_LIMIT))
    })
}

/// Is there a rule whose limit, with the least and the greatest sum, passes the test?
fn any_rule_limit(sheet: &Sheet, test: fn(i32, i32, i32) -> bool) -> bool {
    sheet.rules.iter().any(|rule| {
        let sums = writer::sums(rule, &sheet.limits, sheet.limits.len());
        test(i32::from(rule.limit), *sums.start(), *sums.end())
    })
}
