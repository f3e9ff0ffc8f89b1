//! The parts of the test that list which templates of a book clash and share a minute. What is due comes
//! from the plain reader of hours, and from the search, on the sheets of a book's questions.

use crate::book::{self, Book, MOST_LIST_BYTES, MOST_TEMPLATES};
use crate::books;
use crate::engine;
use crate::lists::{self, ALIKE, ALONE, EMPTY, SIXTEEN, STORY};
use crate::random::Random;
use crate::report::{require, Hex};
use crate::schedule::{self, Listed, Wrong};
use crate::schedules;
use crate::sheets;
use crate::spans::{self, Met};
use crate::spoiled;
use crate::test::Test;
use std::fs;

/// Seen from the repository's folder, where the tests run.
const EVERYDAY: [&str; 2] = ["examples/shop.tpb", "examples/shop-mended.tpb"];
const OF_EVERYDAY: usize = 100;
const GENERATED: usize = 2000;
const DAMAGED_BOOKS: usize = 4000;
const SAME_TEMPLATES: usize = 800;
const RANDOM_BYTES: usize = 3000;
const LONG_HOURS: usize = 20;
const LONG: usize = 100_000;

pub fn run(test: &mut Test) {
    test.part("hours with buffers of all lengths", all_buffers);
    test.part("everyday books with hours", everyday);
    test.part("generated books with hours", generated);
    test.part("damaged books with hours", damaged_books);
    test.part("the same templates with other hours", same_templates);
    test.part("random bytes as hours", random_bytes);
    test.part("very long hours", long_hours);
}

/// A book with what plain code says of it.
pub struct Shop {
    pub book: Vec<u8>,
    listed: Result<Listed, book::Fault>,
}

impl Shop {
    pub fn new(bytes: &[u8]) -> Shop {
        let listed = |book: Book| Listed {
            list: book.list(|pair| lists::searched(&book, pair)),
            book,
        };
        Shop {
            book: bytes.to_vec(),
            listed: book::read(bytes).map(listed),
        }
    }

    /// How many templates the book has; where it is none, any number.
    fn templates(&self, random: &mut Random) -> usize {
        match &self.listed {
            Ok(listed) => listed.book.templates.len(),
            Err(_) => random.within(1, MOST_TEMPLATES),
        }
    }

    /// What hours leave of the book's list, or what is wrong.
    pub fn left(&self, hours: &[u8]) -> Result<Vec<u8>, Wrong> {
        let listed = self.listed.as_ref().map_err(|&fault| Wrong::Book(fault))?;
        let schedule = schedule::read(hours, listed.book.templates.len()).map_err(Wrong::Hours)?;
        Ok(schedule::kept(&listed.list, &schedule))
    }
}

/// Compares hours of a book, whatever is due, in some buffers.
pub fn compare(test: &mut Test, shop: &Shop, hours: &[u8]) {
    let left = shop.left(hours);
    for room in rooms(&mut test.random, shop, &left) {
        compare_in(test, shop, hours, &left, room);
    }
}

/// Compares where this is left of the list, in a buffer of `room` bytes.
pub fn compare_in(
    test: &mut Test,
    shop: &Shop,
    hours: &[u8],
    left: &Result<Vec<u8>, Wrong>,
    room: usize,
) {
    test.book_hours(&shop.book, hours, left, room);
    if let (Ok(listed), Ok(left)) = (&shop.listed, left) {
        let schedule = schedule::read(hours, listed.book.templates.len());
        let met = Met {
            listed,
            schedule: &schedule.expect("hours that are accepted"),
            left,
            room,
        };
        if left.len() <= room {
            spans::count(&mut test.spans, &met);
        }
    }
}

/// Lengths of buffers: for what is left one that just fits, a longer one, where there is one a shorter
/// one, and one that fits but is too short for the book's own list; for wrong hours an empty one and one
/// that is always long enough; and for a wrong book any.
fn rooms(random: &mut Random, shop: &Shop, left: &Result<Vec<u8>, Wrong>) -> Vec<usize> {
    let (listed, left) = match (&shop.listed, left) {
        (Ok(listed), Ok(left)) => (listed, left),
        (Ok(_), Err(_)) => return vec![0, MOST_LIST_BYTES],
        (Err(_), _) => return vec![random.one_of(&[0, 1, MOST_LIST_BYTES])],
    };
    let (fitting, own) = (left.len(), listed.list.len());
    let mut rooms = vec![fitting, fitting + random.one_of(&[1, 2, 16, 256])];
    if fitting > 0 {
        let any = random.below(fitting);
        rooms.push(random.one_of(&[0, fitting - 1, fitting - 2, any]));
    }
    if fitting < own {
        rooms.push(random.within(fitting + 1, own - 1));
    }
    rooms
}

/// Books of which no templates clash, some, and all of 16; hours that leave everything, nothing, and any.
fn all_buffers(test: &mut Test) {
    for book in [ALONE, ALIKE, STORY, EMPTY, SIXTEEN] {
        let shop = Shop::new(book);
        let templates = shop.templates(&mut test.random);
        let mut schedules = vec![
            schedules::whole_week(templates),
            schedules::never(templates),
        ];
        schedules.extend((0..6).map(|_| schedules::valid(&mut test.random, templates)));
        for schedule in schedules {
            let hours = schedules::encode(&schedule);
            let left = shop.left(&hours);
            let own = shop.listed.as_ref().map_or(0, |listed| listed.list.len());
            for room in (0..=own + 3).chain([256, 65_536]) {
                compare_in(test, &shop, &hours, &left, room);
            }
        }
    }
}

/// The books of examples/.
fn everyday(test: &mut Test) {
    for name in EVERYDAY {
        let book = fs::read(name).expect("a book of this name");
        let shop = Shop::new(&book);
        for _ in 0..OF_EVERYDAY {
            some_hours(test, &shop);
        }
    }
}

/// Valid books, each with the whole week, with no windows, and with some hours.
fn generated(test: &mut Test) {
    for _ in 0..GENERATED {
        let make = match test.random.below(16) {
            0 => books::valid,
            1 | 2 => books::clashing,
            _ => books::small,
        };
        let book = make(&mut test.random);
        let shop = Shop::new(&books::encode(&book));
        all_and_none(test, &shop, book.templates.len());
        some_hours(test, &shop);
    }
}

/// The whole week leaves just the list that the library gives without hours; no window leaves nothing, and
/// that fits an empty buffer.
fn all_and_none(test: &mut Test, shop: &Shop, templates: usize) {
    let always = schedules::encode(&schedules::whole_week(templates));
    let never = schedules::encode(&schedules::never(templates));
    let without = engine::book(&shop.book, MOST_LIST_BYTES);
    let whole = engine::book_hours(&shop.book, &always, MOST_LIST_BYTES);
    let none = engine::book_hours(&shop.book, &never, 0).status;
    require(
        whole == without && none == 0,
        "the whole week does not leave the whole list, or no window leaves something",
        &[
            ("book", &Hex(&shop.book)),
            ("without hours", &without),
            ("whole week", &whole),
            ("no window", &none),
        ],
    );
    for hours in [always, never] {
        compare(test, shop, &hours);
    }
}

/// Some hours for a book: two that are valid, to which the reader is held, and two of any kind.
fn some_hours(test: &mut Test, shop: &Shop) {
    let templates = shop.templates(&mut test.random);
    for _ in 0..2 {
        let made = schedules::valid(&mut test.random, templates);
        let hours = schedules::encode(&made);
        require(
            schedule::read(&hours, templates).as_ref() == Ok(&made),
            "the reader does not give back the hours that were made",
            &[("hours", &Hex(&hours))],
        );
        compare(test, shop, &hours);
    }
    for _ in 0..2 {
        let hours = schedules::any(&mut test.random, templates);
        compare(test, shop, &hours);
    }
}

/// Books that are damaged, or just beyond a range, with some hours.
fn damaged_books(test: &mut Test) {
    for turn in 0..DAMAGED_BOOKS {
        let mut book = books::small(&mut test.random);
        if turn % 2 == 0 {
            books::go_beyond(&mut test.random, &mut book);
        }
        let mut bytes = books::encode(&book);
        if turn % 2 == 1 {
            sheets::damage(&mut test.random, &mut bytes);
        }
        some_hours(test, &Shop::new(&bytes));
    }
}

/// Books of many templates that are one, two or three over and over. What is left of one pair need not be
/// left of another with the same templates.
fn same_templates(test: &mut Test) {
    for _ in 0..SAME_TEMPLATES {
        let mut book = books::small(&mut test.random);
        let few = test.random.within(1, book.templates.len().min(3));
        let any = test.random.within(few, MOST_TEMPLATES);
        let templates = test.random.one_of(&[any, MOST_TEMPLATES]);
        book.templates = (0..templates)
            .map(|_| book.templates[test.random.below(few)].clone())
            .collect();
        some_hours(test, &Shop::new(&books::encode(&book)));
    }
}

/// Short strings of any bytes, the empty one among them, alone and after the mark and the version.
fn random_bytes(test: &mut Test) {
    let shop = Shop::new(ALIKE);
    let start = schedules::encode(&[]);
    for turn in 0..RANDOM_BYTES {
        let bytes = test.random.bytes(turn % 40);
        compare(test, &shop, &bytes);
        let after = [&start[..], &bytes].concat();
        compare(test, &shop, &after);
    }
}

/// Small books and the largest, with hours, valid or not; after these, after the book or after both one
/// byte more, or so many that a narrower type would cut their number, or very many.
fn long_hours(test: &mut Test) {
    for turn in 0..LONG_HOURS {
        let make = [books::small, books::largest][turn % 2];
        let book = make(&mut test.random);
        let hours = schedules::any(&mut test.random, book.templates.len());
        let longest = schedules::encode(&spoiled::full());
        let book = books::encode(&book);
        let shop = Shop::new(&book);
        for more in [1, 1 << 8, 1 << 16, LONG] {
            let after = test.random.bytes(more);
            let long_book = Shop::new(&[&book[..], &after].concat());
            for hours in [&hours, &longest] {
                let long = [&hours[..], &after].concat();
                compare(test, &shop, &long);
                compare(test, &long_book, hours);
                compare(test, &long_book, &long);
            }
        }
    }
}
