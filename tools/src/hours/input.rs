//! Takes the hours of a book from a file of bytes, or from the book's text. The engine alone says whether they are hours of that book; where it refuses
//! them, `fault` tells why and where.

use super::fault::{self, Broken, Found};
use super::parse::Read;
use super::week;
use crate::book::form::Form;
use crate::file;
use crate::source::{Fault, Place};
use crate::walk;
use lunthegyr::{Book, Hours, Window};

/// Takes hours from a file of bytes. What is wrong is told in words.
pub fn load(path: &str, book: &Book, form: &Form) -> Result<Hours, String> {
    let (name, bytes) = file::bytes(path)?;
    Hours::read(book, bytes.clone()).map_err(|refusal| {
        match fault::first(&bytes, book.templates()) {
            Some(found) => {
                let note = note(&found, &bytes, form);
                let told = walk::told(refusal, found.broken.words(), &note);
                format!("{name}: byte {}: {told}", found.offset)
            }
            None => format!("{name}: {refusal}"),
        }
    })
}

/// What bytes have where they are at fault.
fn note(found: &Found, bytes: &[u8], form: &Form) -> String {
    let Found {
        template, window, ..
    } = *found;
    let name = &form.templates[template].name;
    match found.broken {
        Broken::Opening => "as text, hours stand in the text of their book".to_string(),
        Broken::Count => format!("template {template}, `{name}`, has {}", bytes[found.offset]),
        Broken::Missing | Broken::LeftOver => {
            format!("of which there are {}", form.templates.len())
        }
        Broken::Window(Window { start, end }) => {
            format!("window {window} of template {template}, `{name}`, is from {start} to {end}")
        }
        Broken::Order(before, own) => {
            let [before, own] = [before, own].map(week::written);
            format!("window {window} of template {template}, `{name}`, is {own}, and the one before it {before}")
        }
    }
}

/// The hours that a book's text has.
pub fn of_text(read: &Read, book: &Book, form: &Form) -> Result<Hours, Fault> {
    let windows: Vec<Vec<Window>> = read.templates.iter().map(|it| it.alone()).collect();
    let bytes = Hours::bytes_of(&windows);
    Hours::read(book, bytes.clone()).map_err(|refusal| {
        match fault::first(&bytes, book.templates()) {
            Some(found) => {
                let (place, note) = at(&found, read, form);
                let message = walk::told(refusal, found.broken.words(), &note);
                Fault { place, message }
            }
            None => Fault {
                place: read.start,
                message: refusal.to_string(),
            },
        }
    })
}

/// Where a text is at fault, and what it has there. Its windows have minutes, all of the week, and are in order: they can only be too many, or share
/// minutes.
fn at(found: &Found, read: &Read, form: &Form) -> (Place, String) {
    let windows = &read.templates[found.template];
    let name = &form.templates[found.template].name;
    match found.broken {
        Broken::Count => (
            windows.too_many().unwrap_or(read.start),
            format!("`{name}` has {}, one across Sunday midnight counted as two; a longer one that covers several hides no clash", windows.0.len()),
        ),
        Broken::Order(before, own) => {
            let both = [found.window - 1, found.window].map(|number| windows.0[number].1);
            let [before, own] = [before, own].map(week::written);
            let later = both.iter().max_by_key(|place| place.column);
            (
                *later.unwrap_or(&read.start),
                format!("{before} and {own} of `{name}` share minutes"),
            )
        }
        _ => (read.start, String::new()),
    }
}
