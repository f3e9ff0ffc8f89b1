//! Makes what a fuzzer gives to the calls: new inputs of many kinds, and changes of kept ones. It
//! knows the layouts, and nothing of which answer an input leads to.

use crate::assignment::Numbered;
use crate::book::{self, MOST_LIST_BYTES, MOST_TEMPLATES};
use crate::books;
use crate::fillings;
use crate::planted;
use crate::random::Random;
use crate::reader::{self, Sheet};
use crate::replies;
use crate::reply::MOST_BYTES;
use crate::schedules;
use crate::searches;
use crate::sheets;
use crate::small;
use crate::speller::{Filling, Spelling, FIELD_BYTES};
use crate::texts;
use crate::writer;

/// Everything that a call can be given; each call takes its part of it.
#[derive(Clone)]
pub struct Input {
    pub sheet: Vec<u8>,
    pub filling: Vec<u8>,
    pub reply: Vec<u8>,
    pub book: Vec<u8>,
    pub hours: Vec<u8>,
    pub pair: u64,
    pub side: u64,
    pub line: u64,
    pub room: usize,
}

impl Input {
    /// What is to be spelled, for a buffer of `room` bytes.
    pub fn spelling(&self, room: usize) -> Spelling<'_> {
        Spelling {
            sheet: &self.sheet,
            pair: self.pair,
            side: self.side,
            filling: &self.filling,
            room,
        }
    }
}

/// An assignment of more variables is not listed, since that takes long.
const MOST_LISTED: usize = 1000;
/// A sheet, a book or hours do not grow beyond this.
const LONGEST: usize = 1000;
const DAMAGED_BOOK_PERCENT: usize = 15;
const NO_HOURS_PERCENT: usize = 2;
const DAMAGED_SHEET_PERCENT: usize = 15;
const DAMAGED_FILLING_PERCENT: usize = 25;
/// One new reply in so many is about as long as a reply can be.
const LONG_REPLY: usize = 60;
/// Short texts that a new reply may start from where no assignment is listed.
const STOCK: [&[u8]; 5] = [
    b"",
    b"s SATISFIABLE\nv 0\n",
    b"c\ns SATISFIABLE\nv 1 -2\nv 0\n",
    b"s SATISFIABLE\nv 1 2 3 4 5 6 7 8 9 0\n",
    b"s UNSATISFIABLE\n",
];

/// A new input.
pub fn new(random: &mut Random) -> Input {
    let (sheet, filling, reply) = match random.below(16) {
        0 => noise(random),
        1 | 2 => {
            let sheet = sheets::start_and_noise(random);
            (sheet, of_any_size(random), stock(random))
        }
        _ => structured(random),
    };
    let book = book(random);
    let mut input = Input {
        sheet,
        filling,
        reply,
        hours: hours(random, &book),
        book,
        pair: 0,
        side: 0,
        line: 0,
        room: 0,
    };
    renumber(random, &mut input);
    input
}

/// A sheet, a filling and a reply of any bytes.
fn noise(random: &mut Random) -> (Vec<u8>, Vec<u8>, Vec<u8>) {
    let size = random.one_of(&[9, 40, 200]);
    let mut bytes = || {
        let n = random.below(size + 1);
        random.bytes(n)
    };
    (bytes(), bytes(), bytes())
}

/// A book, most often a small one, since a large one takes long; some damaged, some of any bytes.
fn book(random: &mut Random) -> Vec<u8> {
    let mut bytes = match random.below(32) {
        0 => {
            let n = random.below(40);
            random.bytes(n)
        }
        1 | 2 => {
            let bytes = books::encode(&books::valid(random));
            sheets::cut_and_noise(random, bytes)
        }
        3 => books::encode(&books::valid(random)),
        4 => books::encode(&books::clashing(random)),
        5 | 6 => {
            let mut book = books::small(random);
            books::go_beyond(random, &mut book);
            books::encode(&book)
        }
        _ => books::encode(&books::small(random)),
    };
    if random.chance(DAMAGED_BOOK_PERCENT) {
        sheets::damage(random, &mut bytes);
    }
    bytes
}

/// Hours for a book, some faulty, some of any bytes. What is no book is taken to be one of any size.
fn hours(random: &mut Random, book: &[u8]) -> Vec<u8> {
    if random.chance(NO_HOURS_PERCENT) {
        let n = random.below(40);
        return random.bytes(n);
    }
    let templates = match book::read(book) {
        Ok(book) => book.templates.len(),
        Err(_) => random.within(1, MOST_TEMPLATES),
    };
    schedules::any(random, templates)
}

/// A valid sheet, a filling of it and a reply to it, some of them damaged.
fn structured(random: &mut Random) -> (Vec<u8>, Vec<u8>, Vec<u8>) {
    let (sheet, filling) = match random.below(9) {
        0 => planted::clashing(random, sheets::small),
        1 => planted::clashing(random, sheets::of_few_fillings),
        2 => planted::clashing(random, sheets::valid),
        3 => planted::clashing(random, sheets::largest),
        4 | 5 => with_filling(random, small::sheet),
        6 => with_filling(random, small::far),
        7 => with_filling(random, |random| searches::full(random).0),
        _ => with_filling(random, sheets::valid),
    };
    let reply = reply(random, &sheet, &filling);
    let filling = filling_as_bytes(random, &sheet, filling);
    let mut bytes = sheets::encode(&sheet);
    if random.chance(DAMAGED_SHEET_PERCENT) {
        sheets::damage(random, &mut bytes);
    }
    (bytes, filling, reply)
}

fn with_filling(random: &mut Random, make: fn(&mut Random) -> Sheet) -> (Sheet, Filling) {
    let sheet = make(random);
    let filling = fillings::legal(random, &sheet);
    (sheet, filling)
}

/// The bytes of a filling, as it is, or with another text, or damaged.
fn filling_as_bytes(random: &mut Random, sheet: &Sheet, mut filling: Filling) -> Vec<u8> {
    if random.chance(DAMAGED_FILLING_PERCENT) {
        fillings::change_text(random, sheet, &mut filling);
    }
    let mut bytes = fillings::encode(&filling);
    if random.chance(DAMAGED_FILLING_PERCENT) {
        fillings::damage(random, sheet, &mut bytes);
    }
    bytes
}

/// Any bytes in the size of a filling, or nearly so.
fn of_any_size(random: &mut Random) -> Vec<u8> {
    let n = FIELD_BYTES * random.below(8) + random.one_of(&[0, 0, 0, 1, 8]);
    random.bytes(n)
}

/// A reply that lists this filling, most often damaged, or for a large sheet a short text.
fn reply(random: &mut Random, sheet: &Sheet, filling: &Filling) -> Vec<u8> {
    if writer::variables(sheet).len() > MOST_LISTED {
        return stock(random);
    }
    let listing = texts::listing(sheet, filling);
    let mut text = replies::text(random, &Numbered::new(sheet.clone()), &listing);
    if random.below(LONG_REPLY) == 0 {
        lengthen(random, &mut text);
    }
    text
}

/// Puts a comment before a reply, so that it is about as long as a reply can be.
fn lengthen(random: &mut Random, text: &mut Vec<u8>) {
    let size = MOST_BYTES - 2 + random.below(5);
    let comment = vec![b'c'; size.saturating_sub(text.len() + 1)];
    *text = [&comment[..], b"\n", text].concat();
}

fn stock(random: &mut Random) -> Vec<u8> {
    let mut text = random.one_of(&STOCK).to_vec();
    if random.chance(50) {
        texts::damage(random, &mut text);
    }
    text
}

/// Gives an input other numbers: at and beside the ends of what there is, any, and huge ones.
fn renumber(random: &mut Random, input: &mut Input) {
    let last_pair = random.one_of(&[0, 0, 1, 3]);
    input.pair = number(random, last_pair);
    input.side = number(random, 1);
    let last_line = random.one_of(&[0, 8, 60, 2000, 20_000]);
    input.line = number(random, last_line);
    input.room = room(random);
}

/// A number up to `most`, or beside it, or any.
fn number(random: &mut Random, most: u64) -> u64 {
    let bits = random.bits();
    match random.below(16) {
        0 => most + 1,
        1 => random.one_of(&[1 << 8, 1 << 16, 1 << 32, 1 << 63, u64::MAX]) | (bits % (most + 1)),
        2 => bits >> random.below(64),
        _ => bits % (most + 1),
    }
}

/// A buffer's length; most are long enough for everything.
fn room(random: &mut Random) -> usize {
    match random.below(16) {
        0 => random.below(4),
        1 => random.below(24),
        2 => random.below(100),
        3 => (FIELD_BYTES * random.below(7) + random.below(3)).saturating_sub(1),
        4 => random.one_of(&[24, 54, 80, MOST_LIST_BYTES, 256, 4096]),
        _ => random.within(80, 100),
    }
}

/// Changes one to three things of an input, some to what they are in another one.
pub fn change(random: &mut Random, input: &mut Input, other: &Input) {
    for _ in 0..random.within(1, 3) {
        match random.below(13) {
            0 | 1 => change_part(random, &mut input.sheet, &other.sheet),
            2 => refill(random, input),
            3 => change_bytes(random, &mut input.filling),
            4 => texts::damage(random, &mut input.reply),
            5 => input.filling = other.filling.clone(),
            6 => input.reply = other.reply.clone(),
            7 => change_part(random, &mut input.book, &other.book),
            8 => {
                input.book = book(random);
                input.hours = hours(random, &input.book);
            }
            9 => change_part(random, &mut input.hours, &other.hours),
            10 => input.hours = hours(random, &input.book),
            11 => {
                input.book = other.book.clone();
                input.hours = other.hours.clone();
            }
            _ => renumber(random, input),
        }
    }
}

/// Damages a sheet, a book or hours, crosses them with other ones, or makes them longer or shorter.
fn change_part(random: &mut Random, bytes: &mut Vec<u8>, other: &[u8]) {
    let place = random.below(bytes.len() + 1);
    let end = random.within(place, bytes.len());
    match random.below(8) {
        0 | 1 => {
            let any = random.below(other.len() + 1);
            let from = random.one_of(&[place.min(other.len()), any]);
            bytes.splice(place.., other[from..].iter().copied());
        }
        2 => {
            let stretch = bytes[place..end].to_vec();
            bytes.splice(place..place, stretch);
        }
        3 => {
            bytes.drain(place..end);
        }
        4 => {
            let n = random.one_of(&[1, 8, 160, 400]);
            bytes.extend(random.bytes(n));
        }
        _ => sheets::damage(random, bytes),
    }
    bytes.truncate(LONGEST);
}

/// Gives an input a filling of its sheet and a reply to it, if its sheet has fillings.
fn refill(random: &mut Random, input: &mut Input) {
    if let Ok(sheet) = reader::read(&input.sheet) {
        let filling = fillings::legal(random, &sheet);
        input.reply = reply(random, &sheet, &filling);
        input.filling = filling_as_bytes(random, &sheet, filling);
    }
}

/// Changes a byte, or adds one, or takes one away.
fn change_bytes(random: &mut Random, bytes: &mut Vec<u8>) {
    let place = random.below(bytes.len() + 1);
    let any = random.byte();
    let byte = random.one_of(&[any, 0, 1, 8, 9, 254, 255]);
    match random.below(8) {
        0 => bytes.insert(place, byte),
        1 => bytes.truncate(place),
        _ if place < bytes.len() => bytes[place] = byte,
        _ => {}
    }
}
