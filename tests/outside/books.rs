//! Makes books to test with: valid ones over the whole range of the format, in which some templates
//! clash and some do not. Their bytes are damaged as those of sheets are.

use crate::book::{Book, Own, MARK, MOST_OWN_FIELDS, MOST_TEMPLATES};
use crate::planted;
use crate::random::Random;
use crate::reader::{
    width, Symbol, GREATEST_LETTER, GREATEST_LIMIT, GREATEST_WIDTH, LEAST_LETTER, MOST_LETTERS,
    MOST_SYMBOLS, VERSION,
};
use crate::sheets::{self, count};
use crate::speller::Filling;

/// The bytes of a book.
pub fn encode(book: &Book) -> Vec<u8> {
    let mut bytes = MARK.to_vec();
    bytes.extend(VERSION.to_be_bytes());
    bytes.push(book.letters.len() as u8);
    bytes.extend(&book.letters);
    bytes.push(book.templates.len() as u8);
    for own in &book.templates {
        bytes.push(own.limits.len() as u8);
        bytes.extend(&own.limits);
        bytes.push(own.symbols.len() as u8);
        bytes.extend(own.symbols.iter().map(sheets::symbol_byte));
    }
    bytes
}

/// How large a book is to be.
struct Size {
    letters: usize,
    templates: usize,
    /// Of fields of a template, the least and the most.
    fields: [usize; 2],
    greatest_limit: u8,
    /// Of symbols of a template, the least and the most.
    symbols: [usize; 2],
}

/// Of the templates after the first so many percent are like an earlier one.
const LIKE_PERCENT: usize = 60;

/// A valid book; about one in eight is as large as a book can be, and in one in four all templates clash,
/// or all but one.
pub fn valid(random: &mut Random) -> Book {
    if random.chance(12) {
        return largest(random);
    }
    if random.chance(25) {
        return clashing(random);
    }
    let size = Size {
        letters: count(random, 1, MOST_LETTERS),
        templates: count(random, 1, MOST_TEMPLATES),
        fields: [0, MOST_OWN_FIELDS],
        greatest_limit: GREATEST_LIMIT,
        symbols: [0, MOST_SYMBOLS],
    };
    book_of(random, &size)
}

/// A valid book with every count at its greatest: 287 bytes.
pub fn largest(random: &mut Random) -> Book {
    let size = Size {
        letters: MOST_LETTERS,
        templates: MOST_TEMPLATES,
        fields: [MOST_OWN_FIELDS; 2],
        greatest_limit: GREATEST_LIMIT,
        symbols: [MOST_SYMBOLS; 2],
    };
    book_of(random, &size)
}

/// A valid book whose templates can all spell one text; in half of them one template is then spoiled.
pub fn clashing(random: &mut Random) -> Book {
    let l = count(random, 1, MOST_LETTERS);
    let text: Vec<u8> = (0..random.within(0, MOST_SYMBOLS))
        .map(|_| random.below(l) as u8)
        .collect();
    let templates = (0..count(random, 1, MOST_TEMPLATES)).map(|_| spelling(random, &text));
    let mut book = Book {
        templates: templates.collect(),
        letters: sheets::letters(random, l),
    };
    if l > 1 && random.chance(50) {
        let spoiled = random.below(book.templates.len());
        planted::change_letter(random, &mut book.templates[spoiled].symbols, l);
    }
    book
}

/// A template that can spell this text.
fn spelling(random: &mut Random, text: &[u8]) -> Own {
    let filling: Filling = (0..random.within(0, MOST_OWN_FIELDS))
        .map(|_| piece(random, text))
        .collect();
    let limits: Vec<u8> = filling
        .iter()
        .map(|piece| random.within(piece.len(), usize::from(GREATEST_LIMIT)) as u8)
        .collect();
    let found = planted::template(random, text, &filling, &limits);
    let letters = || text.iter().copied().map(Symbol::Letter).collect();
    Own {
        symbols: found.unwrap_or_else(letters),
        limits,
    }
}

/// A part of a text, which a field can hold.
fn piece(random: &mut Random, text: &[u8]) -> Vec<u8> {
    let start = random.within(0, text.len());
    let most = (text.len() - start).min(usize::from(GREATEST_LIMIT));
    text[start..start + random.within(0, most)].to_vec()
}

/// A valid book of templates of which all texts can be listed.
pub fn small(random: &mut Random) -> Book {
    let letters = random.within(1, 3);
    let size = Size {
        letters,
        templates: count(random, 1, 5),
        fields: [0, MOST_OWN_FIELDS],
        greatest_limit: [4, 3, 2][letters - 1],
        symbols: [0, 6],
    };
    book_of(random, &size)
}

/// A valid book of this size.
fn book_of(random: &mut Random, size: &Size) -> Book {
    let letters = sheets::letters(random, size.letters);
    let mut templates: Vec<Own> = Vec::new();
    while templates.len() < size.templates {
        let new = match templates.len() {
            0 => own(random, size),
            _ if random.chance(100 - LIKE_PERCENT) => own(random, size),
            earlier => {
                let like = &templates[random.below(earlier)];
                varied(random, like, size.letters)
            }
        };
        templates.push(new);
    }
    Book { letters, templates }
}

/// A template with fields of its own.
fn own(random: &mut Random, size: &Size) -> Own {
    let [least, most] = size.fields;
    let limits: Vec<u8> = (0..count(random, least, most))
        .map(|_| count(random, 0, usize::from(size.greatest_limit)) as u8)
        .collect();
    let [least, most] = size.symbols;
    let symbols = count(random, least, most);
    Own {
        symbols: sheets::template(random, symbols, size.letters, &limits),
        limits,
    }
}

/// Breaks one range of a book, by as little as can be, and nothing else.
pub fn go_beyond(random: &mut Random, book: &mut Book) {
    let l = book.letters.len();
    let number = random.below(book.templates.len());
    let own = &mut book.templates[number];
    let letter = Symbol::Letter(0);
    let field = Symbol::Field(0);
    match random.below(12) {
        0 => book.letters = sheets::letters(random, MOST_LETTERS + 1),
        1 => {
            book.letters.clear();
            let is_field = |symbol: &Symbol| matches!(symbol, Symbol::Field(_));
            for own in &mut book.templates {
                own.symbols.retain(is_field);
            }
        }
        2 => book.letters[0] = LEAST_LETTER - 1,
        3 => book.letters[l - 1] = GREATEST_LETTER + 1,
        4 if l > 1 => book.letters[l - 1] = book.letters[l - 2],
        5 => {
            let copy = own.clone();
            book.templates.resize(MOST_TEMPLATES + 1, copy);
        }
        6 => book.templates.clear(),
        7 => own.limits.resize(MOST_OWN_FIELDS + 1, 0),
        8 => *own = of(&[GREATEST_LIMIT + 1], &[]),
        9 => *own = of(&[], &[letter; MOST_SYMBOLS + 1]),
        10 => {
            let no_letter = Symbol::Letter(l as u8);
            let no_field = Symbol::Field(own.limits.len() as u8);
            own.symbols = vec![random.one_of(&[no_letter, no_field])];
        }
        _ => *own = of(&[GREATEST_LIMIT], &[field, letter, field, field]),
    }
}

fn of(limits: &[u8], symbols: &[Symbol]) -> Own {
    Own {
        limits: limits.to_vec(),
        symbols: symbols.to_vec(),
    }
}

/// A template that is like another one: with its symbols in another order, with another letter, with
/// another limit, or just the same.
pub fn varied(random: &mut Random, own: &Own, l: usize) -> Own {
    let mut own = own.clone();
    match random.below(4) {
        0 => own.symbols = planted::shuffled(random, &own.symbols),
        1 if l > 1 => planted::change_letter(random, &mut own.symbols, l),
        2 if !own.limits.is_empty() => {
            let field = random.below(own.limits.len());
            let old = own.limits[field];
            own.limits[field] = random.one_of(&[old.saturating_sub(1), old + 1]);
            if own.limits[field] > GREATEST_LIMIT
                || width(&own.symbols, &own.limits) > GREATEST_WIDTH
            {
                own.limits[field] = old;
            }
        }
        _ => {}
    }
    own
}
