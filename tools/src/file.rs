//! A file by what it has: a sheet or a book, as text or as bytes; and the bytes of a book's hours.

use crate::line::{fault_at, Line};
use crate::source::{shown, Fault, Place};
use std::fs;
use std::io::{self, Read as _};

pub struct File {
    pub name: String,
    pub kind: Kind,
    pub content: Content,
}

#[derive(Clone, Copy, PartialEq)]
pub enum Kind {
    Sheet,
    Book,
}

pub enum Content {
    Bytes(Vec<u8>),
    Text(String),
}

/// Reads a file; `-` is standard input. A text whose lines do not tell is of the kind that is expected. What is wrong is told in words.
pub fn open(path: &str, expected: Kind) -> Result<File, String> {
    let (name, content) = bytes(path)?;
    let (kind, content) = match marked(path, &content) {
        Some(Marked::Hours) => return Err(format!("{name}: these are hours, which go with their book: `lunthegyr book --hours {path} BOOK` takes them")),
        Some(Marked::Kind(kind)) => (kind, Content::Bytes(content)),
        None => {
            let text = text(&name, content)?;
            let kind = kind_of_text(&text).map_err(|fault| shown(&name, &text, &fault))?;
            (kind.unwrap_or(expected), Content::Text(text))
        }
    };
    Ok(File {
        name,
        kind,
        content,
    })
}

/// What a file is called, and its bytes; `-` is standard input. What is wrong is told in words.
pub fn bytes(path: &str) -> Result<(String, Vec<u8>), String> {
    let (name, content) = match path {
        "-" => ("standard input", from_standard_input()),
        _ => (path, fs::read(path)),
    };
    let content = content.map_err(|error| format!("{name}: {error}"))?;
    Ok((name.to_string(), content))
}

fn from_standard_input() -> io::Result<Vec<u8>> {
    let mut bytes = Vec::new();
    io::stdin().read_to_end(&mut bytes)?;
    Ok(bytes)
}

/// What bytes are of.
#[derive(Clone, Copy)]
enum Marked {
    Kind(Kind),
    Hours,
}

/// What bytes are of, by their mark or else by the file's name; none if they are text.
fn marked(path: &str, content: &[u8]) -> Option<Marked> {
    let kinds: [(Marked, &[u8], &str); 3] = [
        (Marked::Kind(Kind::Sheet), b"TPL", ".tpl"),
        (Marked::Kind(Kind::Book), b"TPB", ".tpb"),
        (Marked::Hours, b"TPH", ".tph"),
    ];
    let marked = kinds.iter().find(|row| content.starts_with(row.1));
    let named = || kinds.iter().find(|row| path.ends_with(row.2));
    marked.or_else(named).map(|row| row.0)
}

/// What a text is of, by the words with which its lines start.
pub fn kind_of_text(text: &str) -> Result<Option<Kind>, Fault> {
    let mut known: Option<(Kind, Place, String)> = None;
    for (number, text) in text.lines().enumerate() {
        let mut line = Line::new(text, number + 1);
        line.peek();
        let place = line.place();
        let word = line.word();
        let kind = match word.as_str() {
            "template" | "hours" => Kind::Book,
            "field" | "pair" | "rule" => Kind::Sheet,
            _ => continue,
        };
        match &known {
            Some((before, first, other)) if *before != kind => {
                let line = first.line;
                return fault_at(place, format!("`{word}` is for a {}, and `{other}` on line {line} for a {}: a text is one of them", kind.word(), before.word()));
            }
            Some(_) => {}
            None => known = Some((kind, place, word)),
        }
    }
    Ok(known.map(|row| row.0))
}

impl Kind {
    fn word(self) -> &'static str {
        match self {
            Kind::Sheet => "sheet",
            Kind::Book => "book",
        }
    }
}

/// Bytes as a text.
fn text(name: &str, content: Vec<u8>) -> Result<String, String> {
    match String::from_utf8(content) {
        // Some editors put a mark of the byte order first.
        Ok(text) => Ok(text.trim_start_matches('\u{feff}').to_string()),
        Err(error) => {
            let good = error.utf8_error().valid_up_to();
            let text = String::from_utf8_lossy(error.as_bytes()).into_owned();
            let before = &text[..good];
            let place = Place {
                line: before.matches('\n').count() + 1,
                column: before.chars().rev().take_while(|&c| c != '\n').count() + 1,
            };
            let message = "this byte is no text: save the file as plain text, UTF-8".to_string();
            Err(shown(name, &text, &Fault { place, message }))
        }
    }
}
