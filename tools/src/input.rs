//! Takes a sheet from a file, as text or as bytes, and has the engine read it. Where the engine refuses it, the place at fault is the end of
//! the shortest start of the sheet's bytes that the engine refuses for the same reason.

use crate::file::{self, Content, File, Kind};
use crate::form::{self, Form, Part};
use crate::letters;
use crate::parse::{self, Read};
use crate::source::{shown, Fault, Place, Places};
use lunthegyr::{calls, Refusal, Sheet};

/// An accepted sheet.
pub struct Input {
    pub name: String,
    pub sheet: Sheet,
    pub form: Form,
    /// Where the parts stand, if the sheet was given as text.
    pub places: Option<Places>,
}

impl Input {
    /// On which line a part stands, if the sheet was given as text.
    pub fn line_of(&self, place: impl Fn(&Places) -> Place) -> String {
        match &self.places {
            Some(places) => format!(", line {}", place(places).line),
            None => String::new(),
        }
    }
}

/// The first counts in the header that the engine refuses, less one: of letters, fields, pairs and rules.
const MOST: [usize; 4] = [
    lunthegyr::LETTERS_MOST,
    lunthegyr::FIELDS_MOST,
    lunthegyr::PAIRS_MOST,
    lunthegyr::RULES_MOST,
];
const HEADER_BYTES: usize = 9;

/// Takes a sheet from a file. What is wrong is told in words.
pub fn load(path: &str) -> Result<Input, String> {
    let file = file::open(path, Kind::Sheet)?;
    match file.kind {
        Kind::Sheet => of(file),
        Kind::Book => Err(format!(
            "{}: this is a book of templates and no sheet; `lunthegyr book` takes it",
            file.name
        )),
    }
}

/// The sheet of a file that has one.
pub fn of(file: File) -> Result<Input, String> {
    match file.content {
        Content::Bytes(bytes) => of_bytes(&file.name, bytes),
        Content::Text(text) => of_text(&file.name, &text),
    }
}

fn of_bytes(name: &str, content: Vec<u8>) -> Result<Input, String> {
    match Sheet::read(content.clone()) {
        Ok(sheet) => Ok(Input {
            name: name.to_string(),
            form: Form::of_accepted(sheet.bytes()),
            sheet,
            places: None,
        }),
        Err(refusal) => {
            let offset = offset(&content, refusal);
            Err(format!("{name}: byte {offset}: {refusal}"))
        }
    }
}

fn of_text(name: &str, text: &str) -> Result<Input, String> {
    let Read { form, places } = parse::parse(text).map_err(|fault| shown(name, text, &fault))?;
    let bytes = form.bytes();
    let sheet = form.sheet();
    match Sheet::read(sheet.clone()) {
        Ok(sheet) => Ok(Input {
            name: name.to_string(),
            sheet,
            form,
            places: Some(places),
        }),
        Err(refusal) => {
            let part = bytes.get(offset(&sheet, refusal)).map(|row| row.1);
            let fault = refused(&form, &places, refusal, part);
            Err(shown(name, text, &fault))
        }
    }
}

/// A refusal at the part of the text where the engine met it, with what the text has there.
fn refused(form: &Form, places: &Places, refusal: Refusal, part: Option<Part>) -> Fault {
    let mut place = part.map_or(places.end, |part| places.of(part, MOST));
    let note = match (refusal, part) {
        (Refusal::LetterCount, _) => letters::counted(&form.letters),
        (Refusal::FieldCount, _) => format!("{} here", form.fields.len()),
        (Refusal::PairCount, _) if form.pairs.is_empty() => {
            "there is no line `pair ..`".to_string()
        }
        (Refusal::PairCount, _) => format!("{} here", form.pairs.len()),
        (Refusal::RuleCount, _) => {
            format!("{} here, a rule with `=` counted as two", form.rules.len())
        }
        (Refusal::Letter, _) => letters::rising(&form.letters),
        (Refusal::Width, Some(Part::Symbol(pair, ..) | Part::SymbolCount(pair, _))) => {
            place = places.pairs[pair].start;
            let sides = [&form.pairs[pair].left, &form.pairs[pair].right];
            let [left, right] = sides.map(|side| form::width(&form.fields, side));
            format!("the left one is {left} wide, the right one {right}")
        }
        _ => String::new(),
    };
    let message = match note.is_empty() {
        true => refusal.to_string(),
        false => format!("{refusal} ({note})"),
    };
    Fault { place, message }
}

/// The offset of the byte at which a sheet is refused.
fn offset(sheet: &[u8], refusal: Refusal) -> usize {
    match refusal {
        Refusal::UnderNineBytes | Refusal::ByteMissing => sheet.len(),
        Refusal::Mark => 0,
        Refusal::Version => 3,
        Refusal::LetterCount => 5,
        Refusal::FieldCount => 6,
        Refusal::PairCount => 7,
        Refusal::RuleCount => 8,
        _ => {
            let same = |&n: &usize| calls::read(&sheet[..n]) == Err(refusal);
            let shortest = (HEADER_BYTES..=sheet.len()).find(same);
            shortest.map_or(sheet.len(), |n| n - 1)
        }
    }
}
