//! The order of a sheet's clashes, written from document 02 alone (No. 1). The search is to give the
//! first clash. All fields count, also those that no template has.

use crate::reader::{Sheet, Symbol, GREATEST_LIMIT, MOST_LETTERS};
use crate::speller::Filling;

/// What is compared: the total of the lengths, then the lengths, then the letters.
pub type Key = (usize, Vec<usize>, Vec<u8>);

pub fn key(filling: &Filling) -> Key {
    let lengths = lengths(filling);
    (lengths.iter().sum(), lengths, filling.concat())
}

pub fn lengths(filling: &Filling) -> Vec<usize> {
    filling.iter().map(Vec::len).collect()
}

/// An order that is not the one due: what is wrong with it, and what it compares. One that compares
/// the letters from the right is not among them, since it has the same first clash: of the clashes of
/// the same lengths one has at every place the lowest letter that any of them has there.
pub struct Wrong {
    pub name: &'static str,
    key: fn(&Sheet, &Filling) -> Key,
}

pub const WRONG: [Wrong; 6] = [
    Wrong {
        name: "the total left out",
        key: |_, filling| {
            let (_, lengths, letters) = key(filling);
            (0, lengths, letters)
        },
    },
    Wrong {
        name: "the longer field 0 first",
        key: |_, filling| {
            let (total, mut lengths, letters) = key(filling);
            if let Some(length) = lengths.first_mut() {
                *length = usize::from(GREATEST_LIMIT) - *length;
            }
            (total, lengths, letters)
        },
    },
    Wrong {
        name: "the lengths from the right",
        key: |_, filling| {
            let (total, mut lengths, letters) = key(filling);
            lengths.reverse();
            (total, lengths, letters)
        },
    },
    Wrong {
        name: "the lengths after the letters",
        key: |_, filling| {
            let (total, lengths, letters) = key(filling);
            let letters = letters.iter().map(|&letter| usize::from(letter));
            (total, letters.chain(lengths).collect(), Vec::new())
        },
    },
    Wrong {
        name: "the higher letter first",
        key: |_, filling| {
            let (total, lengths, letters) = key(filling);
            let letters = letters.iter().map(|letter| MOST_LETTERS as u8 - letter);
            (total, lengths, letters.collect())
        },
    },
    Wrong {
        name: "only the fields of templates",
        key: |sheet, filling| {
            let fields = filling.iter().enumerate();
            let used = fields.filter(|(field, _)| has(sheet, *field as u8));
            key(&used.map(|(_, text)| text.clone()).collect())
        },
    },
];

impl Wrong {
    /// Does this order put one of the clashes before the first?
    pub fn differs(&self, sheet: &Sheet, clashes: &[Filling], first: &Filling) -> bool {
        let first = (self.key)(sheet, first);
        let mut others = clashes.iter();
        others.any(|clash| (self.key)(sheet, clash) < first)
    }
}

/// Does some template have this field?
fn has(sheet: &Sheet, field: u8) -> bool {
    let mut templates = sheet
        .pairs
        .iter()
        .flat_map(|pair| [&pair.left, &pair.right]);
    templates.any(|template| template.contains(&Symbol::Field(field)))
}
