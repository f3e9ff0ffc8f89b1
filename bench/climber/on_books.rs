//! Books to climb on, listed by `tpl_book`, and the steps that only books have.

use crate::book::{self, Book, MOST_OWN_FIELDS, MOST_TEMPLATES};
use crate::books;
use crate::climb::{Climber, Timed};
use crate::engine;
use crate::place::Place;
use crate::random::Random;
use crate::reader::Template;
use crate::shown::Shown;
use crate::steps::*;

/// The slowest of so many books with twice as many templates is gone on with, of which so many percent have
/// others that are not copies.
const DOUBLED: usize = 20;
const NEAR_PERCENT: usize = 80;

impl Place for Book {
    const NAME: &'static str = "books";
    const STEPS: &'static [fn(&mut Random, &mut Book)] = &[
        change_symbol,
        change_symbol,
        change_symbol,
        insert_symbol,
        insert_symbol,
        delete_symbol,
        delete_symbol,
        swap_symbols,
        swap_symbols,
        change_limit,
        change_limit,
        change_letters,
        change_fields,
        swap_templates,
        copy_template,
    ];

    /// A book of two templates; in many the second is like the first.
    fn any(climber: &mut Climber<Book>) -> Book {
        let random = &mut climber.random;
        let mut book = books::valid(random);
        if book.templates.len() == 1 {
            let other = books::varied(random, &book.templates[0], book.letters.len());
            book.templates.push(other);
        }
        book.templates.truncate(2);
        book
    }

    /// A full book: it comes of a slow one of two templates, by climbs on books of 4 and of 8.
    fn start(climber: &mut Climber<Book>) -> Timed<Book> {
        let mut start = climber.slowest_of_any();
        while start.place.templates.len() < MOST_TEMPLATES {
            let top = climber.climb(start);
            println!("  {} templates: {}", top.place.templates.len(), top.told());
            start = climber.slowest_of(DOUBLED, |climber| doubled(climber, &top.place));
        }
        start
    }

    fn bytes(&self) -> Vec<u8> {
        books::encode(self)
    }

    /// Counts are bytes, so that a book that is far too large could be read as another one.
    fn is_accepted(&self) -> bool {
        book::read(&self.bytes()).map_or(false, |accepted| accepted == *self)
    }

    fn ask(bytes: &[u8]) -> i64 {
        engine::book(bytes, book::MOST_LIST_BYTES).status
    }

    fn told(answer: i64) -> String {
        format!("{answer} pairs clash")
    }

    fn shown(&self) -> String {
        Shown(self).to_string()
    }

    fn letters(&mut self) -> &mut Vec<u8> {
        &mut self.letters
    }

    fn templates(&mut self) -> Vec<&mut Template> {
        let templates = self.templates.iter_mut();
        templates.map(|own| &mut own.symbols).collect()
    }

    fn limits(&mut self, template: usize) -> &mut Vec<u8> {
        &mut self.templates[template].limits
    }
}

/// A book with twice as many templates: the others are copies, or nearly so.
fn doubled(climber: &mut Climber<Book>, book: &Book) -> Book {
    let near = step(&mut climber.random, book);
    let near = near.filter(|near| near.letters == book.letters);
    let others = match near {
        Some(near) if climber.random.chance(NEAR_PERCENT) => near.templates,
        _ => book.templates.clone(),
    };
    Book {
        letters: book.letters.clone(),
        templates: [&book.templates[..], &others].concat(),
    }
}

/// A field more, or the last one less, where no symbol names it.
fn change_fields(random: &mut Random, book: &mut Book) {
    let number = number(random, book);
    let limits = book.limits(number);
    if limits.len() < MOST_OWN_FIELDS && random.chance(70) {
        limits.push(new_limit(random));
    } else {
        limits.pop();
    }
}

fn swap_templates(random: &mut Random, book: &mut Book) {
    let [one, other] = [(); 2].map(|()| number(random, book));
    book.templates.swap(one, other);
}

/// A template becomes a copy of another one.
fn copy_template(random: &mut Random, book: &mut Book) {
    let [one, other] = [(); 2].map(|()| number(random, book));
    book.templates[one] = book.templates[other].clone();
}
