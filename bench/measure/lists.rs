//! The library's call that lists which templates of a book clash against cadical, which is given the clause
//! file of each of the book's questions, one after the other.

use crate::book::{self, Book, MOST_LIST_BYTES, PAIR_BYTES};
use crate::books;
use crate::engine;
use crate::first;
use crate::race::{race, Contender};
use crate::search::{self, CADICAL};
use crate::sheets;
use crate::shops;
use crate::table::{table, times, verdict};
use crate::timing::{milliseconds, Effort, Timing};
use crate::{fail, progress, save, Setting};
use std::time::{Duration, Instant};

/// In milliseconds.
const SECOND: f64 = 1000.0;

/// The tables of everyday books and of the slowest ones.
pub fn tables(setting: &Setting) -> String {
    let mut everyday = shops::all();
    let mut slowest: Vec<(String, Book)> = setting.books.iter().map(|file| read(file)).collect();
    if setting.effort.quick {
        // In the last ones some templates clash, and the plain search does not take long.
        for books in [&mut everyday, &mut slowest] {
            books.drain(..books.len().saturating_sub(1));
        }
    }
    let mut text = "### Books\n\nBooks as shops have them:\n\n".to_string();
    text += &one_table(setting, &everyday);
    if !slowest.is_empty() {
        text += "\nThe slowest books that are known:\n\n";
        text += &one_table(setting, &slowest);
    }
    text
}

fn read(file: &str) -> (String, Book) {
    let (name, bytes) = search::named(file, ".tpb");
    let book = book::read(&bytes);
    let refused = |fault| fail(&format!("{file}: {fault:?}"));
    (name, book.unwrap_or_else(refused))
}

fn one_table(setting: &Setting, all: &[(String, Book)]) -> String {
    let heads = [
        "book",
        "templates",
        "clash",
        "tpl_book",
        CADICAL,
        "tpl_book / cadical",
    ];
    let mut rows = Vec::new();
    let mut ratios = Vec::new();
    let mut lists = Vec::new();
    for (number, (name, book)) in all.iter().enumerate() {
        progress(&format!("book {} of {}: {name}", number + 1, all.len()));
        let listed = list(setting, book);
        lists.push(listed.library.milliseconds());
        let ratio = listed.cadical.as_ref().map(|cadical| {
            let ratio = listed.library.ratio(cadical);
            ratios.push(ratio);
            ratio
        });
        let cadical = listed.cadical.map(|timing| timing.to_string());
        rows.push(vec![
            name.to_string(),
            book.templates.len().to_string(),
            format!("{} of {}", listed.clash, book.pairs().len()),
            listed.library.to_string(),
            cadical.unwrap_or("not installed".to_string()),
            ratio.map_or("-".to_string(), times),
        ]);
    }
    table(&heads, &rows) + &verdict(1.0, &ratios) + &under_a_second(&lists)
}

/// In how many rows the whole list took under a second, as is asked.
fn under_a_second(lists: &[f64]) -> String {
    let under = lists.iter().filter(|&&time| time < SECOND).count();
    let longest = milliseconds(lists.iter().copied().fold(0.0, f64::max));
    let all = lists.len();
    format!("A list in under a second: in {under} of {all} rows. The longest: {longest}.\n")
}

/// What there is to compare on one book.
struct Listed {
    /// How many pairs of templates clash.
    clash: usize,
    library: Timing,
    /// None where cadical cannot be had.
    cadical: Option<Timing>,
}

/// Lists a book with both, in turn. The list must be the plain search's, and cadical's.
fn list(setting: &Setting, book: &Book) -> Listed {
    let effort = setting.effort;
    let bytes = books::encode(book);
    let due = book.list(|pair| first::clash(&book.question(pair)).is_some());
    let questions = setting
        .solvers
        .iter()
        .any(|name| name == CADICAL)
        .then(|| contenders(effort, book));
    let mut library = Timing::new(effort);
    let mut cadical = questions.as_ref().map(|_| Timing::new(effort));
    while library.has_more() || cadical.as_ref().map_or(false, Timing::has_more) {
        if library.has_more() {
            library.add(call(&bytes, &due));
        }
        if let (Some(timing), Some(questions)) = (&mut cadical, &questions) {
            if timing.has_more() {
                timing.add(solve_all(effort, book, questions, &due));
            }
        }
    }
    Listed {
        clash: due.len() / PAIR_BYTES,
        library,
        cadical,
    }
}

/// Calls the library once, with nothing around it. It must give this list.
fn call(book: &[u8], due: &[u8]) -> Duration {
    let mut list = [0; MOST_LIST_BYTES];
    let began = Instant::now();
    let status = engine::book(book, &mut list);
    let time = began.elapsed();
    if status != (due.len() / PAIR_BYTES) as i64 || !list.starts_with(due) {
        fail(&format!(
            "a book is answered {status}, and its list is {due:?}"
        ));
    }
    time
}

/// Cadical on each question of a book, in order.
fn contenders(effort: Effort, book: &Book) -> Vec<Contender> {
    let pairs = book.pairs().into_iter();
    pairs
        .map(|[i, j]| {
            let name = format!("question_{i}_{j}.cnf");
            let sheet = sheets::encode(&book.question([i, j]));
            save(&name, &search::clauses(&sheet));
            let file = format!("target/bench/{name}");
            Contender::given(CADICAL, &["-q", &file], effort.limit)
        })
        .collect()
}

/// Runs cadical on all questions once, and answers how long that took together.
fn solve_all(effort: Effort, book: &Book, questions: &[Contender], due: &[u8]) -> Duration {
    let once = Effort { runs: 1, ..effort };
    let mut clash = vec![None; questions.len()];
    let timings = race(once, questions, |number, ended| {
        clash[number] = search::answer(CADICAL, ended);
    });
    let mut answers = clash.into_iter();
    if book.list(|_| answers.next() == Some(Some(true))) != due {
        fail("cadical answers otherwise than the list that is due");
    }
    let total: f64 = timings.iter().map(Timing::milliseconds).sum();
    Duration::from_secs_f64(total / 1000.0)
}
