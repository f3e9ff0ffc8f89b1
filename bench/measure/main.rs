//! Measures the three programs and the library against plain programs and solvers, and calls of the library
//! against others; compares all that they print or hand over, prints tables in Markdown, and writes plots
//! of how times grow.
//!
//! Its words: `--quick` to compare more than to measure, `--before` where there is an earlier build of the
//! library too, then sheets' files (`NAME.tpl`) that are searched besides the hard ones, then books' files
//! (`NAME.tpb`) that are listed besides those of shops, then the names of the solvers that are installed. It runs in the repository's folder, and writes to target/bench.

#[path = "../../tests/outside/assignment.rs"]
#[allow(dead_code)]
mod assignment;
#[path = "../../tests/outside/book.rs"]
#[allow(dead_code)]
mod book;
#[path = "../../tests/outside/books.rs"]
#[allow(dead_code)]
mod books;
#[path = "../../tests/outside/fillings.rs"]
#[allow(dead_code)]
mod fillings;
#[path = "../../tests/outside/first.rs"]
#[allow(dead_code)]
mod first;
#[path = "../../tests/outside/hard.rs"]
#[allow(dead_code)]
mod hard;
#[path = "../../tests/outside/planted.rs"]
#[allow(dead_code)]
mod planted;
#[path = "../../tests/outside/printed.rs"]
#[allow(dead_code)]
mod printed;
#[path = "../../tests/outside/random.rs"]
#[allow(dead_code)]
mod random;
#[path = "../../tests/outside/reader.rs"]
#[allow(dead_code)]
mod reader;
#[path = "../../tests/outside/refusal.rs"]
#[allow(dead_code)]
mod refusal;
#[path = "../../tests/outside/report.rs"]
#[allow(dead_code)]
mod report;
#[path = "../../tests/outside/sheets.rs"]
#[allow(dead_code)]
mod sheets;
#[path = "../../tests/outside/speller.rs"]
#[allow(dead_code)]
mod speller;
#[path = "../../tests/outside/texts.rs"]
#[allow(dead_code)]
mod texts;
#[path = "../../tests/outside/writer.rs"]
#[allow(dead_code)]
mod writer;

#[path = "../../bindings/rust/src/engine.rs"]
#[allow(dead_code)]
mod engine;

#[path = "../lines/drawn.rs"]
mod drawn;
#[path = "../plain/numbers.rs"]
mod numbers;
#[path = "../plain/reply.rs"]
mod plain_reply;

mod clauses;
mod families;
mod growth;
mod lines;
mod lists;
mod plot;
mod race;
mod replies;
mod search;
mod shops;
mod sizes;
mod strings;
mod table;
mod timing;
mod whole;

use std::fs;
use std::time::Duration;
use timing::Effort;

/// What is measured, and with what.
pub struct Setting {
    pub effort: Effort,
    /// There is an earlier build of the library.
    pub before: bool,
    /// Files of sheets besides the hard ones.
    pub sheets: Vec<String>,
    /// Files of books besides those of shops.
    pub books: Vec<String>,
    /// Solvers that are installed.
    pub solvers: Vec<String>,
}

const THOROUGH: Effort = Effort {
    runs: 11,
    strings_limit: Duration::from_secs(20),
    limit: Duration::from_secs(20),
    quick: false,
};
const QUICK: Effort = Effort {
    runs: 1,
    strings_limit: Duration::from_secs(1),
    limit: Duration::from_secs(20),
    quick: true,
};

fn main() {
    let words = std::env::args().skip(1);
    let (options, words): (Vec<String>, Vec<String>) =
        words.partition(|word| word.starts_with("--"));
    let given = |option: &str| options.iter().any(|word| word == option);
    let words = words.into_iter();
    let (sheets, words): (_, Vec<String>) = words.partition(|word| word.ends_with(".tpl"));
    let words = words.into_iter();
    let (books, solvers) = words.partition(|word| word.ends_with(".tpb"));
    let setting = Setting {
        effort: if given("--quick") { QUICK } else { THOROUGH },
        before: given("--before"),
        sheets,
        books,
        solvers,
    };
    println!("{}", clauses::table_of(&setting));
    println!("{}", sizes::table_of(&setting));
    println!("{}", whole::table_of(&setting));
    println!("{}", lines::table_of(&setting));
    println!("{}", replies::table_of(&setting));
    println!("{}", search::tables(&setting));
    println!("{}", lists::tables(&setting));
    println!("{}", growth::plots(&setting));
}

/// Says on standard error what is going on.
pub fn progress(what: &str) {
    eprintln!("bench: {what}");
}

/// Ends the program, since what was compared differs, or something cannot be done.
pub fn fail(why: &str) -> ! {
    eprintln!("bench: FAILED: {why}");
    std::process::exit(1)
}

/// Writes a file of target/bench.
pub fn save(name: &str, bytes: &[u8]) {
    let file = format!("target/bench/{name}");
    fs::write(&file, bytes).unwrap_or_else(|error| fail(&format!("{file}: {error}")));
}
