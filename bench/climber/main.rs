//! Looks for sheets that the library searches slowly, or for books that it lists slowly: makes some by
//! chance, keeps the slowest, changes it by small steps, keeps what is slower, and starts again when
//! nothing more is found. Prints each that is slower than all before it in its climb, and at the end the
//! slowest once more.
//!
//! Its words are a seed and for how many seconds to climb. Before them may stand `--book`, for books, and
//! `--keep FILE`: the slowest one's bytes are then written to the file. It runs in the repository's
//! folder.

#[path = "../../tests/outside/book.rs"]
#[allow(dead_code)]
mod book;
#[path = "../../tests/outside/books.rs"]
#[allow(dead_code)]
mod books;
#[path = "../../tests/outside/engine.rs"]
#[allow(dead_code)]
mod engine;
#[path = "../../tests/outside/fillings.rs"]
#[allow(dead_code)]
mod fillings;
#[path = "../../tests/outside/hard.rs"]
#[allow(dead_code)]
mod hard;
#[path = "../../tests/outside/lent.rs"]
#[allow(dead_code)]
mod lent;
#[path = "../../tests/outside/planted.rs"]
#[allow(dead_code)]
mod planted;
#[path = "../../tests/outside/random.rs"]
#[allow(dead_code)]
mod random;
#[path = "../../tests/outside/reader.rs"]
#[allow(dead_code)]
mod reader;
#[path = "../../tests/outside/refusal.rs"]
#[allow(dead_code)]
mod refusal;
#[path = "../../tests/outside/report.rs"]
#[allow(dead_code)]
mod report;
#[path = "../../tests/outside/sheets.rs"]
#[allow(dead_code)]
mod sheets;
#[path = "../../tests/outside/small.rs"]
#[allow(dead_code)]
mod small;
#[path = "../../tests/outside/speller.rs"]
#[allow(dead_code)]
mod speller;
#[path = "../../tests/outside/writer.rs"]
#[allow(dead_code)]
mod writer;

mod climb;
mod on_books;
mod on_sheets;
mod place;
mod processor;
mod shown;
mod steps;

use book::Book;
use place::Place;
use reader::Sheet;
use report::Hex;
use std::fs;
use std::time::Duration;

/// What the words ask for.
struct Asked {
    book: bool,
    keep: Option<String>,
    seed: u64,
    time: Duration,
}

fn main() {
    let asked = read_words(std::env::args().skip(1).collect());
    if asked.book {
        climb::<Book>(&asked, Vec::new());
    } else {
        let hard = hard::all().into_iter();
        let hard = hard.map(|hard| reader::accepted(&hard.sheet)).collect();
        climb::<Sheet>(&asked, hard);
    }
}

fn read_words(words: Vec<String>) -> Asked {
    let mut words = words.into_iter();
    let mut book = false;
    let mut keep = None;
    let mut numbers: Vec<u64> = Vec::new();
    while let Some(word) = words.next() {
        match &word[..] {
            "--book" => book = true,
            "--keep" => keep = Some(words.next().expect("a file's name")),
            number => numbers.push(number.parse().expect("a number")),
        }
    }
    Asked {
        book,
        keep,
        seed: numbers[0],
        time: Duration::from_secs(numbers[1]),
    }
}

fn climb<P: Place>(asked: &Asked, hard: Vec<P>) {
    let slowest = climb::climb_all(asked.seed, asked.time, hard);
    let bytes = slowest.place.bytes();
    println!("\nslowest: {}", slowest.time_told());
    println!("{}\n{}", Hex(&bytes), slowest.place.shown());
    if let Some(file) = &asked.keep {
        fs::write(file, bytes).expect("a file that can be written");
    }
}
