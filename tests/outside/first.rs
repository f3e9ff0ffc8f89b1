//! A plain search for the first clash, written from document 01 ("The sheet") and the order of
//! clashes alone: it goes through the lengths of all fields in that order, and at each makes one group
//! of the places that must hold the same letter. It knows nothing of the library.

use crate::reader::{Sheet, Symbol};
use crate::sheets;
use crate::speller::Filling;

/// The first clash of a sheet.
pub fn clash(sheet: &Sheet) -> Option<Filling> {
    let mut totals = 0..=sheets::total(&sheet.limits);
    totals.find_map(|total| of_total(sheet, &mut Vec::new(), total))
}

/// The first clash in which the first fields have these lengths, and the others so many letters
/// together.
fn of_total(sheet: &Sheet, lengths: &mut Vec<usize>, others: usize) -> Option<Filling> {
    let limits = &sheet.limits[lengths.len()..];
    if others > sheets::total(limits) {
        return None;
    }
    let limit = match limits.first() {
        Some(&limit) => usize::from(limit),
        None => return of_lengths(sheet, lengths),
    };
    for length in 0..=limit.min(others) {
        lengths.push(length);
        let found = of_total(sheet, lengths, others - length);
        lengths.pop();
        if found.is_some() {
            return found;
        }
    }
    None
}

/// The first clash of these lengths: a place that is in a group with a letter holds that letter, and
/// all others hold letter 0.
pub fn of_lengths(sheet: &Sheet, lengths: &[usize]) -> Option<Filling> {
    let rules_hold = sheet.rules.iter().all(|rule| {
        let terms = rule.coefficients.iter().zip(lengths);
        let sum: i32 = terms
            .map(|(&factor, &length)| i32::from(factor) * length as i32)
            .sum();
        sum <= i32::from(rule.limit)
    });
    let same_lengths = sheet.pairs.iter().all(|pair| {
        let [left, right] = [&pair.left, &pair.right].map(|template| length(template, lengths));
        left == right
    });
    if !rules_hold || !same_lengths {
        return None;
    }
    let l = sheet.letters.len();
    let mut groups = Groups::new(l, lengths);
    for pair in &sheet.pairs {
        let left = groups.members(&pair.left);
        let right = groups.members(&pair.right);
        for (&one, &other) in left.iter().zip(&right) {
            groups.join(one, other);
        }
    }
    if (0..l).any(|letter| groups.first(letter) != letter) {
        return None;
    }
    let letter = |place| {
        let first = groups.first(place);
        if first < l {
            first as u8
        } else {
            0
        }
    };
    let fields = groups.starts.iter().zip(lengths);
    Some(
        fields
            .map(|(&start, &length)| (start..start + length).map(letter).collect())
            .collect(),
    )
}

/// How many letters a template spells.
fn length(template: &[Symbol], lengths: &[usize]) -> usize {
    let spelled = template.iter().map(|&symbol| match symbol {
        Symbol::Letter(_) => 1,
        Symbol::Field(field) => lengths[usize::from(field)],
    });
    spelled.sum()
}

/// The letters and the places of all fields, by number: first the letters, then field by field. Each
/// has the number of a lower member of its group, or its own if it is the first.
struct Groups<'a> {
    lower: Vec<usize>,
    starts: Vec<usize>,
    lengths: &'a [usize],
}

impl Groups<'_> {
    /// Each letter and each place alone.
    fn new(l: usize, lengths: &[usize]) -> Groups<'_> {
        let mut starts = Vec::new();
        let mut end = l;
        for length in lengths {
            starts.push(end);
            end += length;
        }
        Groups {
            lower: (0..end).collect(),
            starts,
            lengths,
        }
    }

    /// What a template has at each place of its text.
    fn members(&self, template: &[Symbol]) -> Vec<usize> {
        let mut members = Vec::new();
        for &symbol in template {
            match symbol {
                Symbol::Letter(letter) => members.push(usize::from(letter)),
                Symbol::Field(field) => {
                    let field = usize::from(field);
                    let start = self.starts[field];
                    members.extend(start..start + self.lengths[field]);
                }
            }
        }
        members
    }

    /// The first of a member's group.
    fn first(&self, member: usize) -> usize {
        let mut member = member;
        while self.lower[member] != member {
            member = self.lower[member];
        }
        member
    }

    /// Makes one group of two.
    fn join(&mut self, one: usize, other: usize) {
        let [one, other] = [self.first(one), self.first(other)];
        self.lower[one.max(other)] = one.min(other);
    }
}
