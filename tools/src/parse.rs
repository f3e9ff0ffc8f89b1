//! Reads the text form of a sheet. A line starts with one of four words:
//!
//!     letters 0 1 2 A                       the letters, in the order of their ASCII numbers
//!     field shop1 4                         a field and its limit, the most letters that its text may have
//!     pair A{shop1}{zone1} = A{shop2}       two templates: letters, and fields in braces
//!     rule len(shop1) + len(zone1) >= 5     a rule over the lengths of fields' texts
//!
//! Spaces count for nothing, a `#` at the start of a line or after a space starts a comment, and `\` before one of `{ } = # \` makes it a letter. Fields and letters
//! may stand after what uses them. What a sheet may have is not judged here: the engine does that.

use crate::form::{Field, Form, Pair, Rule, Symbol};
use crate::letters;
use crate::line::{fault_at, Line};
use crate::rule;
use crate::source::{Fault, PairPlaces, Place, Places, RulePlaces};

/// A sheet's text as it was read.
pub struct Read {
    pub form: Form,
    pub places: Places,
}

/// Lines whose words are to be read once all letters and fields are known.
struct Later {
    pairs: Vec<Line>,
    rules: Vec<Line>,
}

pub fn parse(text: &str) -> Result<Read, Fault> {
    let mut read = Read::empty(text);
    let mut later = Later {
        pairs: Vec::new(),
        rules: Vec::new(),
    };
    for (number, text) in text.lines().enumerate() {
        let mut line = Line::new(text, number + 1);
        if line.peek().is_some() {
            read.line(line, &mut later)?;
        }
    }
    letters::needed(&read.form.letters, read.places.end)?;
    for line in later.pairs {
        read.pair(line)?;
    }
    for line in later.rules {
        read.rule(line)?;
    }
    Ok(read)
}

impl Read {
    fn empty(text: &str) -> Read {
        let form = Form {
            letters: Vec::new(),
            fields: Vec::new(),
            pairs: Vec::new(),
            rules: Vec::new(),
        };
        let places = Places {
            letters: Vec::new(),
            fields: Vec::new(),
            limits: Vec::new(),
            pairs: Vec::new(),
            rules: Vec::new(),
            end: Place::end_of(text),
        };
        Read { form, places }
    }

    fn line(&mut self, mut line: Line, later: &mut Later) -> Result<(), Fault> {
        let start = line.place();
        match line.word().as_str() {
            "letters" => letters::read(
                start,
                line,
                &mut self.form.letters,
                &mut self.places.letters,
            )?,
            "field" => self.field(line)?,
            "pair" => later.pairs.push(line),
            "rule" => later.rules.push(line),
            _ => {
                return fault_at(
                    start,
                    "a line starts with `letters`, `field`, `pair` or `rule`",
                )
            }
        }
        Ok(())
    }

    fn field(&mut self, mut line: Line) -> Result<(), Fault> {
        let (name, start) = line.field_name()?;
        if let Some(number) = self.named(&name) {
            let first = self.places.fields[number].line;
            return fault_at(
                start,
                format!("a second field `{name}`; the first is on line {first}"),
            );
        }
        line.peek();
        let place = line.place();
        let limit = line.limit(&name)?;
        self.form.fields.push(Field { name, limit });
        self.places.fields.push(start);
        self.places.limits.push(place);
        line.end("the limit")
    }

    /// The number of a field.
    fn named(&self, name: &str) -> Option<usize> {
        self.form.fields.iter().position(|field| field.name == name)
    }

    fn pair(&mut self, mut line: Line) -> Result<(), Fault> {
        line.peek();
        let start = line.place();
        let (left, left_places) = self.template(&mut line)?;
        line.expect('=', "between the two templates")?;
        let (right, right_places) = self.template(&mut line)?;
        line.end("the right template")?;
        self.form.pairs.push(Pair { left, right });
        self.places.pairs.push(PairPlaces {
            start,
            left: left_places,
            right: right_places,
        });
        Ok(())
    }

    /// Symbols up to a `=` or the end of the line.
    fn template(&self, line: &mut Line) -> Result<(Vec<Symbol>, Vec<Place>), Fault> {
        let (mut symbols, mut places) = (Vec::new(), Vec::new());
        while let Some(next) = line.peek() {
            if next == '=' {
                break;
            }
            places.push(line.place());
            symbols.push(if line.passes('{') {
                Symbol::Field(self.field_name(line, '}')?)
            } else {
                letters::symbol(line, &self.form.letters)?
            });
        }
        Ok((symbols, places))
    }

    /// The number of the field whose name comes next, with a sign after it.
    fn field_name(&self, line: &mut Line, end: char) -> Result<usize, Fault> {
        let (name, place) = line.field_name()?;
        line.expect(end, "after the field's name")?;
        match self.named(&name) {
            Some(number) => Ok(number),
            None => fault_at(place, format!("there is no line `field {name} ..`")),
        }
    }

    /// A rule, or two where both sides are to be the same.
    fn rule(&mut self, mut line: Line) -> Result<(), Fault> {
        line.peek();
        let (start, written) = (line.place(), line.rest());
        let relation = rule::relation(&mut line, &|line| self.field_name(line, ')'))?;
        line.end("the rule")?;
        for bound in relation.bounds() {
            let mut coefficients = vec![0; self.form.fields.len()];
            for &(field, coefficient) in &bound.terms {
                coefficients[field] += coefficient;
            }
            let limit = match i16::try_from(bound.limit) {
                Ok(limit) => limit,
                Err(_) => {
                    let limit = bound.limit;
                    return fault_at(start, format!("this asks for a sum of at most {limit}; a rule's limit is from -32768 to 32767"));
                }
            };
            self.form.rules.push(Rule {
                coefficients,
                limit,
            });
            self.places.rules.push(RulePlaces {
                start,
                written: written.clone(),
                fields: relation.places.clone(),
            });
        }
        Ok(())
    }
}
