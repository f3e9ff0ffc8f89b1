//! Reads the text form of a book. A line starts with one of three words:
//!
//!     letters 0 1 2 A                              the letters, in the order of their ASCII numbers
//!     template hold-up = A{shop 4}{zone 2}{shop}   a template of letters, and of fields in braces; a field's limit stands where it comes first
//!     template x = A{shop 4} unused {zone 2}       after the word `unused` fields with their limits that stand nowhere in the template
//!     template y (zone 2, shop 4) = A{shop}        limits may also be given before, for fields in another order
//!     hours hold-up Mon 09:00-17:30                when a template is sent; `hours/parse.rs` reads the rest of the line
//!
//! Fields are numbered in the order of their limits. Spaces, comments and backslashes are as in the text form of a sheet, but `unused` is the
//! word only where it stands whole, with a space before it and a space, a `{` or the end of the line after it. Else it is six letters, as in
//! `u nused`. What a book may have is not judged here: the engine does that.

use super::form::{Form, Template};
use super::places::{Places, TemplatePlaces};
use crate::form::{Field, Symbol};
use crate::hours::parse as hours;
use crate::letters;
use crate::line::{fault_at, Line};
use crate::source::{Fault, Place};

/// The word before fields that stand nowhere in their template.
pub const UNUSED: &str = "unused";

/// A book's text as it was read.
pub struct Read {
    pub form: Form,
    pub places: Places,
    /// If the text has any.
    pub hours: Option<hours::Read>,
}

/// Lines after their first word, which are read once all letters, or all templates, are known.
struct Later {
    templates: Vec<Line>,
    /// Each with the place of that word.
    hours: Vec<(Place, Line)>,
}

pub fn parse(text: &str) -> Result<Read, Fault> {
    let mut read = Read {
        form: Form {
            letters: Vec::new(),
            templates: Vec::new(),
        },
        places: Places {
            letters: Vec::new(),
            templates: Vec::new(),
            end: Place::end_of(text),
        },
        hours: None,
    };
    let mut later = Later {
        templates: Vec::new(),
        hours: Vec::new(),
    };
    for (number, text) in text.lines().enumerate() {
        let mut line = Line::new(text, number + 1);
        if line.peek().is_some() {
            read.line(line, &mut later)?;
        }
    }
    letters::needed(&read.form.letters, read.places.end)?;
    for line in later.templates {
        read.template(line)?;
    }
    read.hours = hours::read(later.hours, &read.form.names())?;
    Ok(read)
}

impl Read {
    fn line(&mut self, mut line: Line, later: &mut Later) -> Result<(), Fault> {
        let start = line.place();
        match line.word().as_str() {
            "letters" => {
                let places = &mut self.places.letters;
                letters::read(start, line, &mut self.form.letters, places)?
            }
            "template" => later.templates.push(line),
            "hours" => later.hours.push((start, line)),
            _ => return fault_at(start, "a line starts with `letters`, `template` or `hours`"),
        }
        Ok(())
    }

    fn template(&mut self, mut line: Line) -> Result<(), Fault> {
        line.peek();
        let start = line.place();
        let name = line.dashed();
        if name.is_empty() {
            return line.expected("the template's name");
        }
        let same = |template: &Template| template.name == name;
        if let Some(number) = self.form.templates.iter().position(same) {
            let first = self.places.templates[number].start.line;
            return fault_at(
                start,
                format!("a second template `{name}`; the first is on line {first}"),
            );
        }
        let mut reading = Reading::new(name, start);
        if line.passes('(') {
            reading.list(&mut line)?;
        }
        line.expect('=', "before the template")?;
        reading.symbols(&mut line, &self.form.letters)?;
        self.form.templates.push(reading.template);
        self.places.templates.push(reading.places);
        Ok(())
    }
}

/// What has been read of a template.
struct Reading {
    template: Template,
    places: TemplatePlaces,
}

impl Reading {
    fn new(name: String, start: Place) -> Reading {
        Reading {
            template: Template {
                name,
                fields: Vec::new(),
                symbols: Vec::new(),
            },
            places: TemplatePlaces {
                start,
                fields: Vec::new(),
                limits: Vec::new(),
                symbols: Vec::new(),
            },
        }
    }

    /// Fields with their limits, up to a `)`.
    fn list(&mut self, line: &mut Line) -> Result<(), Fault> {
        loop {
            let (name, place) = line.field_name()?;
            if self.named(&name).is_some() {
                return twice(place, &name);
            }
            self.limit(line, name, place)?;
            if !line.passes(',') {
                return line.expect(')', "or `,` after the field's limit");
            }
        }
    }

    /// Symbols, and fields that stand nowhere, up to the end of the line.
    fn symbols(&mut self, line: &mut Line, letters: &[u8]) -> Result<(), Fault> {
        while line.peek().is_some() {
            if line.passes_word(UNUSED) {
                return self.unused(line);
            }
            self.places.symbols.push(line.place());
            let symbol = match line.passes('{') {
                true => self.field(line)?,
                false => letters::symbol(line, letters)?,
            };
            self.template.symbols.push(symbol);
        }
        Ok(())
    }

    /// Fields in braces after the word `unused`, at least one.
    fn unused(&mut self, line: &mut Line) -> Result<(), Fault> {
        loop {
            line.expect(
                '{',
                "of a field after `unused` (the letters are written `u nused`)",
            )?;
            let (name, place) = line.field_name()?;
            if self.named(&name).is_some() {
                return fault_at(place, format!("`{name}` has a limit already in this template; after `unused` come only fields that stand nowhere else in it"));
            }
            self.limit(line, name, place)?;
            line.expect('}', "after the field")?;
            if line.peek().is_none() {
                return Ok(());
            }
        }
    }

    /// A field that is known, or one that is new with its limit, and a `}`.
    fn field(&mut self, line: &mut Line) -> Result<Symbol, Fault> {
        let (name, place) = line.field_name()?;
        let number = match (self.named(&name), line.peek()) {
            (Some(_), Some(next)) if next.is_ascii_digit() => return twice(line.place(), &name),
            (Some(number), _) => number,
            (None, Some('}')) => {
                return fault_at(place, format!("`{name}` has no limit in this template: where it stands first, write `{{{name} 4}}` for a text of at most 4 letters"))
            }
            (None, _) => self.limit(line, name, place)?,
        };
        line.expect('}', "after the field")?;
        Ok(Symbol::Field(number))
    }

    /// The limit of a new field, whose number is answered.
    fn limit(&mut self, line: &mut Line, name: String, place: Place) -> Result<usize, Fault> {
        line.peek();
        let at = line.place();
        let limit = line.limit(&name)?;
        self.template.fields.push(Field { name, limit });
        self.places.fields.push(place);
        self.places.limits.push(at);
        Ok(self.template.fields.len() - 1)
    }

    /// The number of a field.
    fn named(&self, name: &str) -> Option<usize> {
        let fields = &self.template.fields;
        fields.iter().position(|field| field.name == name)
    }
}

/// A field that is given its limit a second time.
fn twice<T>(place: Place, name: &str) -> Result<T, Fault> {
    fault_at(
        place,
        format!("`{name}` has a limit already in this template; where it stands again, write `{{{name}}}`"),
    )
}
