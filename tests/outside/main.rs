//! Compares the static library with plain answers to the same calls, some hundred thousand times
//! each, and ends with status 1 at the first case on which the two differ. With the word `replies`
//! it does so for replies, with `search` for the search, else for all other calls, and for the
//! counts of clauses in the tool's tables. With `solvers` and names of SAT solvers it gives the
//! library's clause files to these, compares what they say with brute force and with the search,
//! and gives their replies to the library. With `large`, a number and names of solvers it only
//! compares them with the search, on large sheets, and on so many of the families that `late`
//! makes.
//!
//! With `fuzz` and a number it makes so many calls on inputs of all kinds, and holds their answers
//! to what must be so whatever the input, and those of checks and hours to plain answers; with `--exact` after
//! it nothing is lent with margins, so that valgrind's memcheck sees what is read or written outside of
//! what is lent.
//!
//! Two further words test no library. Of the sheet on standard input `clauses` prints the clause file
//! from the plain writer, and `report` what the search program is to print, with the clash of the plain
//! search. And `size` prints how many bytes the library counts in that sheet's clause file.
//!
//! It runs in the repository's folder.

mod answers;
mod assignment;
mod book;
mod books;
mod brute;
mod calls;
mod changes;
mod checking;
mod corpus;
mod ends;
mod engine;
mod examples;
mod fillings;
mod first;
#[path = "../../tools/src/form.rs"]
#[allow(dead_code)]
mod form;
mod fuzz;
mod grid;
mod handmade;
mod hard;
mod hours;
mod inputs;
mod large;
mod late;
mod lent;
mod listed;
mod lists;
mod met;
mod order;
mod orders;
mod paired;
mod planted;
mod powers;
mod printed;
mod question;
mod random;
mod reader;
mod reading;
mod refusal;
mod reordered;
mod replies;
mod reply;
mod report;
mod schedule;
mod schedules;
mod searches;
mod shapes;
mod sheets;
mod small;
mod solver;
mod solving;
mod spans;
mod speller;
mod spoiled;
mod tally;
mod test;
mod texts;
mod ticking;
#[path = "../../tools/src/ticks.rs"]
mod ticks;
mod timed;
mod turn;
mod whys;
mod worked;
mod writer;
mod writing;

use solver::Solver;
use std::io::{self, Read};

fn main() -> io::Result<()> {
    let mut words = std::env::args().skip(1);
    match words.next().as_deref() {
        None => test_all(),
        Some("replies") => replies::run(),
        Some("search") => searches::run(),
        Some("fuzz") => {
            let calls = number(words.next());
            match words.next().as_deref() {
                None => {}
                Some("--exact") => lent::lend_exactly(),
                Some(word) => panic!("no such option: {word}"),
            }
            fuzz::run(calls);
        }
        Some("solvers") => {
            let solvers = solvers(words);
            solving::run(&solvers);
            large::run(&solvers, large::OF_FAMILIES);
        }
        Some("large") => {
            let of_families = number(words.next());
            large::run(&solvers(words), of_families);
        }
        Some("clauses") => writer::print(&input()?)?,
        Some("report") => print!("{}", printed::report(&input()?)),
        Some("size") => println!("{}", size(&input()?)),
        Some(word) => panic!("no such word: {word}"),
    }
    Ok(())
}

fn number(word: Option<String>) -> usize {
    let number = word.and_then(|word| word.parse().ok());
    number.expect("a number")
}

fn solvers(names: impl Iterator<Item = String>) -> Vec<Solver> {
    let solvers: Vec<Solver> = names.map(|name| solver::named(&name)).collect();
    assert!(!solvers.is_empty(), "no solver is named");
    solvers
}

/// All of standard input.
fn input() -> io::Result<Vec<u8>> {
    let mut bytes = Vec::new();
    io::stdin().read_to_end(&mut bytes)?;
    Ok(bytes)
}

/// The bytes that `tpl_count` counts, or the refusal as a program prints it.
fn size(sheet: &[u8]) -> String {
    let counted = engine::count(sheet);
    match counted.status {
        0 => counted.lent[2].to_string(),
        status => format!("refused {}", -status),
    }
}

fn test_all() {
    let mut test = test::Test::new();
    reading::run(&mut test);
    examples::run(&mut test);
    orders::run(&mut test);
    handmade::run(&mut test);
    checking::run(&mut test);
    brute::run(&mut test.random);
    writing::run(&mut test);
    powers::run(&mut test);
    ticking::run(&mut test.random);
    lists::run(&mut test);
    worked::run(&mut test);
    grid::run(&mut test);
    spoiled::run(&mut test);
    hours::run(&mut test);
    test.finish();
}
