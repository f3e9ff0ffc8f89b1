//! Takes a book from a file, as text or as bytes, with its hours if it has any, and has the engine answer it. The engine alone says whether it is a book;
//! where it refuses it, `fault` tells why and where.

use super::fault::{self, Broken};
use super::form::{Form, Part, Template};
use super::matrix;
use super::parse::{self, Read};
use super::places::Places;
use crate::file::{self, Content, File, Kind};
use crate::form::width;
use crate::hours::{input as hours, text};
use crate::letters;
use crate::source::{shown, Fault};
use lunthegyr::{Book, Clashing, Hours, Refusal};

/// An accepted book.
pub struct Input {
    pub name: String,
    pub book: Book,
    /// Read back from the bytes, with the names of the text if it was given as one.
    pub form: Form,
    /// When its templates are sent, if that is given.
    pub hours: Option<Hours>,
}

/// How two templates stand to each other.
#[derive(Clone, Copy, PartialEq)]
pub enum Standing {
    /// They clash, and share a minute if the book has hours.
    Clash,
    /// They clash, and are never sent in the same minute.
    NeverBoth,
    Apart,
}

impl Input {
    /// The pairs that clash and, if the book has hours, share a minute.
    pub fn listed(&self) -> &[Clashing] {
        match &self.hours {
            Some(hours) => hours.clashes(),
            None => self.book.clashes(),
        }
    }

    pub fn standing(&self, pair: Clashing) -> Standing {
        let clash = self.book.clashes().contains(&pair);
        match (clash, self.listed().contains(&pair)) {
            (true, true) => Standing::Clash,
            (true, false) => Standing::NeverBoth,
            (false, listed) => {
                assert!(
                    !listed,
                    "the engine lists with hours what it does not list without"
                );
                Standing::Apart
            }
        }
    }

    /// The book in the text form, with its hours.
    pub fn text(&self) -> String {
        let hours = self.hours.as_ref();
        let hours = hours.map(|hours| text::lines(hours, &self.form.names()));
        self.form.text() + &hours.unwrap_or_default()
    }

    /// Every two templates, by the first and then by the second.
    pub fn pairs(&self) -> Vec<Clashing> {
        let all = self.book.templates();
        let with = |first| (first + 1..all).map(move |second| Clashing { first, second });
        (0..all).flat_map(with).collect()
    }

    /// As much of a template's name as is shown.
    pub fn short_name(&self, number: usize) -> String {
        matrix::short(&self.form.templates[number].name)
    }
}

/// Takes a book from a file, and its hours from another if one is given. What is wrong is told in words.
pub fn load(path: &str, hours: Option<&str>) -> Result<Input, String> {
    let file = file::open(path, Kind::Book)?;
    match file.kind {
        Kind::Book => of(file, hours),
        Kind::Sheet => Err(format!(
            "{}: this is a sheet and no book of templates; `lunthegyr check` takes it",
            file.name
        )),
    }
}

/// The book of a file that has one, with the hours of another.
pub fn of(file: File, path: Option<&str>) -> Result<Input, String> {
    let mut input = match file.content {
        Content::Bytes(bytes) => of_bytes(file.name, bytes)?,
        Content::Text(text) => of_text(file.name, &text, path)?,
    };
    if let Some(path) = path {
        input.hours = Some(hours::load(path, &input.book, &input.form)?);
    }
    Ok(input)
}

fn of_bytes(name: String, content: Vec<u8>) -> Result<Input, String> {
    match Book::read(content.clone()) {
        Ok(book) => Ok(Input {
            name,
            form: Form::of_accepted(&book),
            book,
            hours: None,
        }),
        Err(refusal) => Err(match fault::first(&content) {
            Some((offset, broken)) => {
                format!("{name}: byte {offset}: {}", broken.told(refusal, ""))
            }
            None => format!("{name}: {refusal}"),
        }),
    }
}

/// The book of a text, with its own hours if it has any. Then there must not be a file of hours too.
fn of_text(name: String, text: &str, path: Option<&str>) -> Result<Input, String> {
    let told = |fault: Fault| shown(&name, text, &fault);
    let Read {
        form,
        places,
        hours,
    } = parse::parse(text).map_err(told)?;
    let book = Book::read(form.book()).map_err(|refusal| told(refused(&form, &places, refusal)))?;
    let form = named(Form::of_accepted(&book), form);
    let hours = match (hours, path) {
        (None, _) => None,
        (Some(read), None) => Some(hours::of_text(&read, &book, &form).map_err(told)?),
        (Some(read), Some(path)) => {
            return Err(told(Fault {
                place: read.start,
                message: format!(
                    "the text has hours of its own, and {path} has hours too: give one of them"
                ),
            }))
        }
    };
    Ok(Input {
        name,
        book,
        form,
        hours,
    })
}

/// A book with the names of another that has the same parts.
fn named(mut form: Form, names: Form) -> Form {
    for (template, names) in form.templates.iter_mut().zip(names.templates) {
        template.name = names.name;
        for (field, names) in template.fields.iter_mut().zip(names.fields) {
            field.name = names.name;
        }
    }
    form
}

/// A refusal at the part of the text that is at fault, with what the text has there.
fn refused(form: &Form, places: &Places, refusal: Refusal) -> Fault {
    let (place, message) = match fault::first(&form.book()) {
        Some((offset, broken)) => {
            let part = form.bytes().get(offset).map(|row| row.1);
            let part = part.unwrap_or(Part::Opening);
            let place = match (broken, part) {
                // A width is that of all symbols.
                (Broken::OfSheet(Refusal::Width), Part::Symbol(number, _)) => {
                    places.of(Part::Symbol(number, 0))
                }
                _ => places.of(part),
            };
            (place, broken.told(refusal, &note(form, broken, part)))
        }
        None => (places.end, refusal.to_string()),
    };
    Fault { place, message }
}

/// What a text has at a part that is at fault, if that says more.
fn note(form: &Form, broken: Broken, part: Part) -> String {
    use Broken::{FieldCount, OfSheet, TemplateCount};
    let template = |number: usize| &form.templates[number];
    match (broken, part) {
        (OfSheet(Refusal::LetterCount), _) => letters::counted(&form.letters),
        (OfSheet(Refusal::Letter), _) => letters::rising(&form.letters),
        (TemplateCount, _) if form.templates.is_empty() => {
            "there is no line `template ..`".to_string()
        }
        (TemplateCount, _) => format!("{} here", form.templates.len()),
        (FieldCount, Part::FieldCount(number)) => {
            let Template { name, fields, .. } = template(number);
            format!("`{name}` has {}", fields.len())
        }
        (OfSheet(Refusal::SymbolCount), Part::SymbolCount(number)) => {
            let Template { name, symbols, .. } = template(number);
            format!("`{name}` has {}", symbols.len())
        }
        (OfSheet(Refusal::Width), Part::Symbol(number, _)) => {
            let Template {
                name,
                fields,
                symbols,
            } = template(number);
            format!("`{name}` is {} wide", width(fields, symbols))
        }
        _ => String::new(),
    }
}
