//! A sheet or a book as a person reads it: fields are the letters U to Z, sides stand around `=`, and
//! each template of a book names its own fields anew.

use crate::book::Book;
use crate::reader::{Rule, Sheet, Symbol, Template};
use std::fmt::{self, Display};

pub struct Shown<'a, P>(pub &'a P);

/// A name for each field.
const FIELDS: [char; 6] = ['U', 'V', 'W', 'X', 'Y', 'Z'];

impl Display for Shown<'_, Sheet> {
    fn fmt(&self, out: &mut fmt::Formatter) -> fmt::Result {
        let sheet = self.0;
        writeln!(out, "letters: {}", all_letters(&sheet.letters))?;
        writeln!(out, "limits:  {}", all_limits(&sheet.limits))?;
        for pair in &sheet.pairs {
            writeln!(out, "pair:    {} = {}", side(&pair.left), side(&pair.right))?;
        }
        for rule in &sheet.rules {
            writeln!(out, "rule:    {} <= {}", sum(rule), rule.limit)?;
        }
        Ok(())
    }
}

impl Display for Shown<'_, Book> {
    fn fmt(&self, out: &mut fmt::Formatter) -> fmt::Result {
        let book = self.0;
        writeln!(out, "letters: {}", all_letters(&book.letters))?;
        for (number, own) in book.templates.iter().enumerate() {
            let (symbols, limits) = (side(&own.symbols), all_limits(&own.limits));
            writeln!(out, "{number:<8} {symbols:<12}  {limits}")?;
        }
        Ok(())
    }
}

fn all_letters(letters: &[u8]) -> String {
    letters.iter().map(|&letter| char::from(letter)).collect()
}

/// Each field with its limit.
fn all_limits(limits: &[u8]) -> String {
    let names = FIELDS.iter().zip(limits);
    let limits: Vec<String> = names
        .map(|(name, limit)| format!("{name} {limit}"))
        .collect();
    limits.join(", ")
}

/// A template's symbols. Its letters are shown by their numbers, as these are never a field's name.
fn side(template: &Template) -> String {
    if template.is_empty() {
        return "nothing".to_string();
    }
    let shown = |&symbol: &Symbol| match symbol {
        Symbol::Letter(letter) => char::from(b'0' + letter),
        Symbol::Field(field) => FIELDS[usize::from(field)],
    };
    template.iter().map(shown).collect()
}

/// What a rule adds up, in lengths of fields.
fn sum(rule: &Rule) -> String {
    let terms = rule.coefficients.iter().zip(FIELDS);
    let terms = terms.filter(|(&coefficient, _)| coefficient != 0);
    let terms: Vec<String> = terms
        .map(|(coefficient, name)| format!("{coefficient}|{name}|"))
        .collect();
    if terms.is_empty() {
        "0".to_string()
    } else {
        terms.join(" + ")
    }
}
