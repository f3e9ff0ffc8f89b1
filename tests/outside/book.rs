//! A plain reader of books, version 1, written from document 02's No. 3 and, where that names a
//! sheet's rule, from document 01; and the sheet of each question. It knows nothing of the library.

use crate::reader::{self, Pair, Sheet, Symbol, Template, Walk, MOST_LETTERS, VERSION};
use crate::refusal::Refusal;

/// An accepted book.
#[derive(Clone, Debug, PartialEq)]
pub struct Book {
    pub letters: Vec<u8>,
    pub templates: Vec<Own>,
}

/// A template with fields of its own.
#[derive(Clone, Debug, PartialEq)]
pub struct Own {
    pub limits: Vec<u8>,
    pub symbols: Template,
}

pub const MARK: &[u8] = b"TPB";
/// The mark and the version.
pub const HEADER_BYTES: usize = 5;
pub const MOST_TEMPLATES: usize = 16;
pub const MOST_OWN_FIELDS: usize = 3;
/// A list has two bytes for each pair.
pub const PAIR_BYTES: usize = 2;
pub const MOST_PAIRS: usize = MOST_TEMPLATES * (MOST_TEMPLATES - 1) / 2;
pub const MOST_LIST_BYTES: usize = PAIR_BYTES * MOST_PAIRS;

/// What is wrong with a book.
#[derive(Clone, Copy, Debug, PartialEq)]
pub enum Fault {
    Short,
    Mark,
    Version,
    LetterCount,
    TemplateCount,
    FieldCount,
    /// Of a rule that a sheet has too.
    OfSheet(Refusal),
}

/// A word for each fault.
pub const FAULTS: [(Fault, &str); 13] = [
    (Fault::Short, "too short"),
    (Fault::Mark, "mark"),
    (Fault::Version, "version"),
    (Fault::LetterCount, "letter count"),
    (Fault::OfSheet(Refusal::Letter), "letter"),
    (Fault::TemplateCount, "template count"),
    (Fault::FieldCount, "field count"),
    (Fault::OfSheet(Refusal::Limit), "limit"),
    (Fault::OfSheet(Refusal::SymbolCount), "symbol count"),
    (Fault::OfSheet(Refusal::Symbol), "symbol"),
    (Fault::OfSheet(Refusal::Width), "width"),
    (Fault::OfSheet(Refusal::ByteMissing), "byte missing"),
    (Fault::OfSheet(Refusal::BytesLeftOver), "bytes left over"),
];

impl From<Refusal> for Fault {
    fn from(refusal: Refusal) -> Fault {
        Fault::OfSheet(refusal)
    }
}

impl Fault {
    pub fn refusal(self) -> Refusal {
        match self {
            Fault::Short | Fault::Mark | Fault::Version => Refusal::BookMark,
            _ => Refusal::BookFault,
        }
    }

    pub fn name(self) -> &'static str {
        let listed = FAULTS.iter().find(|(fault, _)| *fault == self);
        listed.expect("a fault that is listed").1
    }
}

/// Reads a whole book, or says what is wrong with it: the header, or else what a walk meets first.
pub fn read(book: &[u8]) -> Result<Book, Fault> {
    if book.len() < HEADER_BYTES {
        return Err(Fault::Short);
    }
    let (header, rest) = book.split_at(HEADER_BYTES);
    if &header[..3] != MARK {
        return Err(Fault::Mark);
    }
    if u16::from_be_bytes([header[3], header[4]]) != VERSION {
        return Err(Fault::Version);
    }
    let mut walk = Walk { rest };
    let l = read_count(&mut walk, 1, MOST_LETTERS, Fault::LetterCount)?;
    let letters = reader::read_letters(&mut walk, l)?;
    let mut templates = Vec::new();
    for _ in 0..read_count(&mut walk, 1, MOST_TEMPLATES, Fault::TemplateCount)? {
        templates.push(read_own(&mut walk, l)?);
    }
    if !walk.rest.is_empty() {
        return Err(Fault::OfSheet(Refusal::BytesLeftOver));
    }
    Ok(Book { letters, templates })
}

/// A count from `least` to `most`.
fn read_count(walk: &mut Walk, least: usize, most: usize, fault: Fault) -> Result<u8, Fault> {
    let count = walk.next()?;
    let fits = (least..=most).contains(&usize::from(count));
    fits.then_some(count).ok_or(fault)
}

/// A field count, that many limits, a symbol count, that many symbols; then the width is tested.
fn read_own(walk: &mut Walk, l: u8) -> Result<Own, Fault> {
    let v = read_count(walk, 0, MOST_OWN_FIELDS, Fault::FieldCount)?;
    let limits = reader::read_limits(walk, v)?;
    let count = reader::read_symbol_count(walk)?;
    let symbols = reader::read_template(walk, count, l, &limits)?;
    if reader::width(&symbols, &limits) > reader::GREATEST_WIDTH {
        return Err(Fault::OfSheet(Refusal::Width));
    }
    Ok(Own { limits, symbols })
}

impl Book {
    /// All pairs of numbers of templates, by the first and then by the second.
    pub fn pairs(&self) -> Vec<[usize; 2]> {
        let count = self.templates.len();
        let after = |i| (i + 1..count).map(move |j| [i, j]);
        (0..count).flat_map(after).collect()
    }

    /// The sheet that asks whether two templates clash: i on the left, j on the right, with j's fields
    /// numbered after i's, and no rule.
    pub fn question(&self, [i, j]: [usize; 2]) -> Sheet {
        let [left, right] = [i, j].map(|number| &self.templates[number]);
        let own_fields = left.limits.len() as u8;
        let moved = |&symbol: &Symbol| match symbol {
            Symbol::Letter(letter) => Symbol::Letter(letter),
            Symbol::Field(field) => Symbol::Field(own_fields + field),
        };
        Sheet {
            letters: self.letters.clone(),
            limits: [&left.limits[..], &right.limits].concat(),
            pairs: vec![Pair {
                left: left.symbols.clone(),
                right: right.symbols.iter().map(moved).collect(),
            }],
            rules: Vec::new(),
        }
    }

    /// The list of the pairs that clash, by what `clash` says of each.
    pub fn list(&self, mut clash: impl FnMut([usize; 2]) -> bool) -> Vec<u8> {
        let mut pairs = self.pairs();
        pairs.retain(|&pair| clash(pair));
        pairs.concat().iter().map(|&number| number as u8).collect()
    }
}

/// The list that is due in a buffer of `room` bytes, or the refusal. A book has this list or this fault.
pub fn due(list: Result<&[u8], Fault>, room: usize) -> Result<&[u8], Refusal> {
    fitting(list.map_err(Fault::refusal)?, room)
}

/// A list in a buffer of `room` bytes, or the refusal.
pub fn fitting(list: &[u8], room: usize) -> Result<&[u8], Refusal> {
    if room < list.len() {
        return Err(Refusal::BufferBelowList);
    }
    Ok(list)
}
