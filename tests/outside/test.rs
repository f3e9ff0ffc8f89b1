//! The test as a whole: holds the library's answers to the plain ones and counts them.

use crate::book::{self, Fault, PAIR_BYTES};
use crate::engine::{self, Outcome};
use crate::fillings;
use crate::listed;
use crate::random::Random;
use crate::reader;
use crate::refusal::Refusal;
use crate::report::{require, Case, Hex};
use crate::schedule::{self, Wrong};
use crate::shapes;
use crate::spans;
use crate::speller::{self, Spelling, Verdict};
use crate::tally::{Answer, Tally};
use crate::whys;
use crate::writer::{Written, KINDS};
use std::fmt::{self, Debug};

/// How often each thing that may be special about a filling that does not clash must have come up.
const LEAST_OF_EACH_WHY: usize = 800;

/// How long a buffer is that takes a whole file.
const FILE_ROOMS: [&str; 2] = ["just long enough", "longer"];

pub struct Test {
    pub random: Random,
    read: Tally,
    check: Tally,
    spell: Tally,
    count: Tally,
    line: Tally,
    file: Tally,
    book: Tally,
    hours: Tally,
    shapes: Tally,
    book_faults: Tally,
    hours_faults: Tally,
    whys: Tally,
    /// What was special about hours that are accepted.
    pub spans: Tally,
}

impl Test {
    pub fn new() -> Test {
        let check_answers = [&["clash"], &whys::KINDS[..]].concat();
        let spell_answers = ["empty text", "text of 1 to 23", "text of 24"];
        Test {
            random: Random::new(1),
            read: Tally::new("tpl_read", &["accepted"], 1..=15),
            check: Tally::new("tpl_check", &check_answers, (1..=15).chain(20..=23)),
            spell: Tally::new("tpl_spell", &spell_answers, (1..=15).chain(20..=26)),
            count: Tally::new("tpl_count", &["counted"], 1..=15),
            line: Tally::new("tpl_line", &KINDS, (1..=15).chain(28..=29)),
            file: Tally::new("tpl_file", &FILE_ROOMS, (1..=15).chain(29..=29)),
            book: Tally::new("tpl_book", &listed::BOOK_KINDS, 40..=42),
            hours: Tally::new("tpl_book_hours", &listed::BOOK_KINDS, 40..=45),
            shapes: Tally::new("counted sheets with", &shapes::names(shapes::ALL), 0..0),
            book_faults: listed::book_faults(),
            hours_faults: listed::hours_faults(),
            whys: whys::tally(),
            spans: spans::tally(),
        }
    }

    /// Runs one part and says how many answers it compared.
    pub fn part(&mut self, name: &str, run: fn(&mut Test)) {
        let before = self.compared();
        run(self);
        println!("outside: {name}: {}", self.compared() - before);
    }

    fn compared(&self) -> usize {
        self.calls().iter().map(|tally| tally.total()).sum()
    }

    fn calls(&self) -> [&Tally; 8] {
        [
            &self.read,
            &self.check,
            &self.spell,
            &self.count,
            &self.line,
            &self.file,
            &self.book,
            &self.hours,
        ]
    }

    /// Compares how a sheet is read.
    pub fn read(&mut self, sheet: &[u8]) {
        let (status, counts, answer) = match reader::read(sheet) {
            Ok(accepted) => (0, accepted.counts(), Ok("accepted")),
            Err(refusal) => (status(refusal), engine::COUNTS_BEFORE, Err(refusal as u8)),
        };
        let case: &Case = &[("sheet", &Hex(sheet))];
        hold(engine::read(sheet), due(status, &counts), case);
        self.read.count(answer);
    }

    /// Compares how a filling is checked, and where it does not clash, why.
    pub fn check(&mut self, sheet: &[u8], filling: &[u8]) {
        let plain = speller::check(sheet, filling);
        let case: &Case = &[("sheet", &Hex(sheet)), ("filling", &Hex(filling))];
        hold(engine::check(sheet, filling), check_due(plain), case);
        self.check.count(check_answer(plain));
        if matches!(plain, Ok(verdict) if verdict != Verdict::Clash) {
            let (sheet, filling) = (reader::accepted(sheet), fillings::decode(filling));
            whys::count(&mut self.whys, &sheet, &filling);
        }
    }

    /// Compares how a template is spelled.
    pub fn spell(&mut self, asked: Spelling) {
        let mut buffer = engine::buffer_before(asked.room);
        let (status, answer) = match speller::spell(asked) {
            Ok(text) => {
                buffer[..text.len()].copy_from_slice(&text);
                let answer = match text.len() {
                    0 => "empty text",
                    24 => "text of 24",
                    _ => "text of 1 to 23",
                };
                (text.len() as i64, Ok(answer))
            }
            Err(refusal) => (status(refusal), Err(refusal as u8)),
        };
        let case: &Case = &[("asked", &asked)];
        hold(engine::spell(asked), due(status, &buffer), case);
        self.spell.count(answer);
    }

    /// Compares how clauses are counted.
    pub fn count(&mut self, written: &Written) {
        let (status, counts, answer) = match &written.file {
            Ok(file) => (0, file.counts().to_vec(), Ok("counted")),
            Err(refusal) => {
                let counts = engine::COUNTS_BEFORE[..3].to_vec();
                (status(*refusal), counts, Err(*refusal as u8))
            }
        };
        let case: &Case = &[("sheet", &Hex(&written.sheet))];
        hold(engine::count(&written.sheet), due(status, &counts), case);
        self.count.count(answer);
        if let Ok(sheet) = reader::read(&written.sheet) {
            for shape in shapes::of(&sheet, shapes::ALL) {
                self.shapes.count(Ok(shape));
            }
        }
    }

    /// Compares how line `number` is written into a buffer of `room` bytes.
    pub fn line(&mut self, written: &Written, number: u64, room: usize) {
        let mut buffer = engine::buffer_before(room);
        let (status, answer) = match written.line(number, room) {
            Ok(line) => {
                buffer[..line.bytes.len()].copy_from_slice(&line.bytes);
                (line.bytes.len() as i64, Ok(line.kind))
            }
            Err(refusal) => (status(refusal), Err(refusal as u8)),
        };
        let sheet = &written.sheet;
        let case: &Case = &[
            ("sheet", &Hex(sheet)),
            ("line", &number),
            ("buffer of", &room),
        ];
        hold(
            engine::line(sheet, number, room),
            due(status, &buffer),
            case,
        );
        self.line.count(answer);
    }

    /// Compares how the whole file is written into a buffer of `room` bytes.
    pub fn file(&mut self, written: &Written, room: usize) {
        let mut buffer = engine::buffer_before(room);
        let (status, answer) = match written.whole(room) {
            Ok(file) => {
                buffer[..file.len()].copy_from_slice(&file);
                let longer = usize::from(file.len() < room);
                (file.len() as i64, Ok(FILE_ROOMS[longer]))
            }
            Err(refusal) => (status(refusal), Err(refusal as u8)),
        };
        let sheet = &written.sheet;
        let case: &Case = &[("sheet", &Hex(sheet)), ("buffer of", &room)];
        hold(engine::file(sheet, room), due(status, &buffer), case);
        self.file.count(answer);
    }

    /// Compares the list of a book, which has this list or this fault, in a buffer of `room` bytes.
    pub fn book(&mut self, bytes: &[u8], list: Result<&[u8], Fault>, room: usize) {
        let (due, answer) = list_due(book::due(list, room), room);
        let case: &Case = &[("book", &Hex(bytes)), ("buffer of", &room)];
        hold(engine::book(bytes, room), due, case);
        self.book.count(answer);
        if let Err(fault) = list {
            self.book_faults.count(Ok(fault.name()));
        }
    }

    /// Compares the list of a book with hours, which leave this of the book's own list, in a buffer of
    /// `room` bytes.
    pub fn book_hours(
        &mut self,
        book: &[u8],
        hours: &[u8],
        left: &Result<Vec<u8>, Wrong>,
        room: usize,
    ) {
        let (due, answer) = list_due(schedule::due(left, room), room);
        let case: &Case = &[
            ("book", &Hex(book)),
            ("hours", &Hex(hours)),
            ("buffer of", &room),
        ];
        hold(engine::book_hours(book, hours, room), due, case);
        self.hours.count(answer);
        if let Err(Wrong::Hours(fault)) = left {
            self.hours_faults.count(Ok(fault.name()));
        }
    }

    /// Prints how often each answer came up, and fails if one came up too seldom.
    pub fn finish(&self) {
        let beside = [
            &self.shapes,
            &self.book_faults,
            &self.hours_faults,
            &self.spans,
        ];
        for tally in self.calls().into_iter().chain(beside) {
            tally.finish();
        }
        self.whys.finish_at(LEAST_OF_EACH_WHY);
        println!(
            "outside: the library agrees on {} sheets, {} fillings, {} spellings, {} clause counts, \
             {} lines, {} files, {} lists and {} lists with hours",
            self.read.total(),
            self.check.total(),
            self.spell.total(),
            self.count.total(),
            self.line.total(),
            self.file.total(),
            self.book.total(),
            self.hours.total()
        );
    }
}

/// What a call returns for a refusal.
pub fn status(refusal: Refusal) -> i64 {
    -(refusal as i64)
}

/// The plain answer to a check in a word.
fn check_answer(plain: Result<Verdict, Refusal>) -> Answer {
    let verdict = plain.map_err(|refusal| refusal as u8)?;
    let word = |why: [u64; 5]| {
        let kind = whys::kind(&why).expect("numbers in their ranges");
        whys::KINDS[kind]
    };
    Ok(verdict.why().map_or("clash", word))
}

/// What is to be answered and left behind where this list is due in a buffer of `room` bytes, or this
/// refusal; and the same in a word.
fn list_due(list: Result<&[u8], Refusal>, room: usize) -> (Outcome<u8>, Answer) {
    let mut buffer = engine::buffer_before(room);
    match list {
        Ok(list) => {
            buffer[..list.len()].copy_from_slice(list);
            let pairs = (list.len() / PAIR_BYTES) as i64;
            (due(pairs, &buffer), Ok(listed::book_kind(pairs)))
        }
        Err(refusal) => (due(status(refusal), &buffer), Err(refusal as u8)),
    }
}

/// What a check is to answer and leave behind, by the plain answer: it writes five numbers, or none.
pub fn check_due(plain: Result<Verdict, Refusal>) -> Outcome<u64> {
    let untouched = engine::WHY_BEFORE;
    match plain.map(|verdict| verdict.why()) {
        Ok(None) => due(1, &untouched),
        Ok(Some(why)) => due(0, &why),
        Err(refusal) => due(status(refusal), &untouched),
    }
}

/// What a call is to answer and leave behind.
pub fn due<T: Clone>(status: i64, lent: &[T]) -> Outcome<T> {
    Outcome {
        status,
        lent: lent.to_vec(),
        rest_unchanged: true,
    }
}

/// The first place at which what two calls left behind differs.
struct Place<'a, T>(&'a Outcome<T>, &'a Outcome<T>);

impl<T: PartialEq> fmt::Display for Place<'_, T> {
    fn fmt(&self, out: &mut fmt::Formatter) -> fmt::Result {
        let mut both = self.0.lent.iter().zip(&self.1.lent);
        match both.position(|(one, other)| one != other) {
            Some(place) => write!(out, "{place}"),
            None => write!(out, "no place"),
        }
    }
}

/// Fails if the library did not answer what is due.
pub fn hold<T: PartialEq + Debug>(got: Outcome<T>, due: Outcome<T>, case: &Case) {
    let place = Place(&got, &due);
    let answers: &Case = &[("plain", &due), ("library", &got), ("differ at", &place)];
    require(
        got == due,
        "the library's answer to this is not the plain one",
        &[case, answers].concat(),
    );
}
