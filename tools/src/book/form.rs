//! A book by its parts, with a name for each template and each field; and the bytes that say the same, each with the part that it comes from.
//! Nothing is judged here: parts that no book may have get bytes that the engine refuses.

use crate::form::{count, symbol, symbol_byte, Field, Symbol};
use lunthegyr::Book;

/// What a book says.
pub struct Form {
    /// The letters' bytes.
    pub letters: Vec<u8>,
    pub templates: Vec<Template>,
}

/// A template with its own fields.
pub struct Template {
    pub name: String,
    pub fields: Vec<Field>,
    pub symbols: Vec<Symbol>,
}

/// The part of a book that a byte comes from: of a template, of its field or symbol of a number.
#[derive(Clone, Copy)]
pub enum Part {
    Opening,
    LetterCount,
    Letter(usize),
    TemplateCount,
    FieldCount(usize),
    Limit(usize, usize),
    SymbolCount(usize),
    Symbol(usize, usize),
}

/// The mark, and the version in two bytes.
pub const OPENING: &[u8] = b"TPB\x00\x01";

impl Form {
    /// The book's bytes, each with its part. A number that no byte holds is written as the nearest that one holds, which
    /// the engine refuses like the number itself.
    pub fn bytes(&self) -> Vec<(u8, Part)> {
        let opening = OPENING.iter().map(|&byte| (byte, Part::Opening));
        let mut bytes: Vec<(u8, Part)> = opening.collect();
        bytes.push((count(self.letters.len()), Part::LetterCount));
        for (number, &letter) in self.letters.iter().enumerate() {
            bytes.push((letter, Part::Letter(number)));
        }
        bytes.push((count(self.templates.len()), Part::TemplateCount));
        for (number, template) in self.templates.iter().enumerate() {
            bytes.push((count(template.fields.len()), Part::FieldCount(number)));
            for (field, limit) in template.fields.iter().map(|field| field.limit).enumerate() {
                bytes.push((count(limit as usize), Part::Limit(number, field)));
            }
            bytes.push((count(template.symbols.len()), Part::SymbolCount(number)));
            for (place, &symbol) in template.symbols.iter().enumerate() {
                bytes.push((symbol_byte(symbol), Part::Symbol(number, place)));
            }
        }
        bytes
    }

    /// The bytes alone.
    pub fn book(&self) -> Vec<u8> {
        self.bytes().into_iter().map(|row| row.0).collect()
    }

    /// The templates' names.
    pub fn names(&self) -> Vec<&str> {
        let names = self.templates.iter();
        names.map(|template| template.name.as_str()).collect()
    }

    /// What a book says that the engine has accepted. Bytes know no names, so templates are t0, t1 and so on, and the fields of each f0, f1
    /// and f2.
    pub fn of_accepted(book: &Book) -> Form {
        let templates = (0..book.templates()).map(|number| {
            let template = book.template(number);
            let fields = template.limits.iter().enumerate();
            Template {
                name: format!("t{number}"),
                fields: fields.map(|(field, &limit)| named(field, limit)).collect(),
                symbols: template.symbols.iter().map(|&byte| symbol(byte)).collect(),
            }
        });
        Form {
            letters: book.letters().to_vec(),
            templates: templates.collect(),
        }
    }
}

fn named(field: usize, limit: u8) -> Field {
    Field {
        name: format!("f{field}"),
        limit: u64::from(limit),
    }
}
