//! A text, its places, and what is said of a place at fault: the file, line and column, the line itself, and a mark under the place.

use crate::form::Part;
use std::fmt;

/// A line and a column, both from 1.
#[derive(Clone, Copy, PartialEq, Debug)]
pub struct Place {
    pub line: usize,
    pub column: usize,
}

/// What is wrong, and where.
#[derive(Debug)]
pub struct Fault {
    pub place: Place,
    pub message: String,
}

/// Where each part of a sheet stands in its text.
pub struct Places {
    pub letters: Vec<Place>,
    pub fields: Vec<Place>,
    pub limits: Vec<Place>,
    pub pairs: Vec<PairPlaces>,
    pub rules: Vec<RulePlaces>,
    /// Where the text ends.
    pub end: Place,
}

pub struct PairPlaces {
    pub start: Place,
    pub left: Vec<Place>,
    pub right: Vec<Place>,
}

pub struct RulePlaces {
    pub start: Place,
    /// What stands there, with one space where there are several.
    pub written: String,
    /// Where a field of this number stands in the rule.
    pub fields: Vec<(usize, Place)>,
}

impl Place {
    /// Where a text ends.
    pub fn end_of(text: &str) -> Place {
        let last = text.lines().last().unwrap_or("");
        Place {
            line: text.lines().count().max(1),
            column: last.chars().count() + 1,
        }
    }
}

impl Places {
    /// The place of a part. Of a count, that of the first that is too many, or the end of the text where there are too few.
    pub fn of(&self, part: Part, most: [usize; 4]) -> Place {
        use crate::form::Side::{Left, Right};
        let [letters, fields, pairs, rules] = most;
        let pair_start = |number: usize| self.pairs.get(number).map(|pair| pair.start);
        let rule_start = |number: usize| self.rules.get(number).map(|rule| rule.start);
        let place = match part {
            Part::Mark | Part::Version => None,
            Part::LetterCount => self.letters.get(letters).copied(),
            Part::FieldCount => self.fields.get(fields).copied(),
            Part::PairCount => pair_start(pairs),
            Part::RuleCount => rule_start(rules),
            Part::Letter(number) => self.letters.get(number).copied(),
            Part::Limit(number) => self.limits.get(number).copied(),
            Part::SymbolCount(pair, side) => self.pairs.get(pair).map(|pair| match side {
                Left => pair.left.first().copied().unwrap_or(pair.start),
                Right => pair.right.first().copied().unwrap_or(pair.start),
            }),
            Part::Symbol(pair, side, number) => self.pairs.get(pair).and_then(|pair| match side {
                Left => pair.left.get(number).copied(),
                Right => pair.right.get(number).copied(),
            }),
            Part::Coefficient(rule, field) => self.rules.get(rule).map(|rule| {
                let named = rule.fields.iter().find(|row| row.0 == field);
                named.map_or(rule.start, |row| row.1)
            }),
            Part::RuleLimit(rule) => rule_start(rule),
        };
        place.unwrap_or(self.end)
    }
}

/// A fault in a text of a name, in words.
pub fn shown(name: &str, text: &str, fault: &Fault) -> String {
    Shown { name, text, fault }.to_string()
}

struct Shown<'a> {
    name: &'a str,
    text: &'a str,
    fault: &'a Fault,
}

/// The most that is shown of a line, and how much of that stands before the place.
const MOST_SHOWN: usize = 160;
const SHOWN_BEFORE: usize = 100;

impl fmt::Display for Shown<'_> {
    fn fmt(&self, out: &mut fmt::Formatter) -> fmt::Result {
        let Place { line, column } = self.fault.place;
        writeln!(out, "{}:{line}:{column}: {}", self.name, self.fault.message)?;
        let all = self.text.lines().nth(line - 1).unwrap_or("");
        let before = column - 1;
        let skipped = if before < MOST_SHOWN {
            0
        } else {
            before - SHOWN_BEFORE
        };
        let shown = all.chars().skip(skipped).take(MOST_SHOWN);
        // No byte moves the terminal's place but a tab, which stays in both lines.
        let shown: String = shown
            .map(|c| if c.is_control() && c != '\t' { '.' } else { c })
            .collect();
        let blank = shown.chars().take(before - skipped);
        let blank: String = blank.map(|c| if c == '\t' { c } else { ' ' }).collect();
        writeln!(out, "    {shown}")?;
        write!(out, "    {blank}^")
    }
}
