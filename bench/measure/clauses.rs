//! The clause program against a plain program that prints the same bytes.

use crate::families::{self, GREATEST};
use crate::race::{race, Contender};
use crate::sheets;
use crate::table::{table, times, verdict};
use crate::timing::{Effort, Timing};
use crate::{fail, progress, save, Setting};

/// The clause program may take this many times the plain one's time.
const ALLOWED: f64 = 3.0;

pub const PROGRAM: &str = "target/bin/clauses";
const PLAIN: &str = "target/bench/plain-clauses";
/// The word by which the plain program makes digits by hand.
const BY_HAND: &str = "by-hand";

/// What one sheet's clause file takes.
pub struct Written {
    bytes: usize,
    clauses: usize,
    pub program: Timing,
    pub plain: Timing,
    by_hand: Timing,
}

/// The table of the largest clause file.
pub fn table_of(setting: &Setting) -> String {
    progress("clause files");
    let largest = sheets::encode(&families::most_clauses(GREATEST));
    let written = write(setting.effort, &largest);
    let ratio = written.program.ratio(&written.plain);
    let row = vec![
        written.clauses.to_string(),
        written.bytes.to_string(),
        written.program.to_string(),
        written.plain.to_string(),
        times(ratio),
        written.by_hand.to_string(),
        times(written.program.ratio(&written.by_hand)),
    ];
    let heads = [
        "clauses",
        "bytes",
        "program",
        "plain",
        "program / plain",
        "plain, digits by hand",
        "program / this",
    ];
    "### Clause file\n\n".to_string() + &table(&heads, &[row]) + &verdict(ALLOWED, &[ratio])
}

/// Writes the clause file of a sheet with all three, which must print the same.
pub fn write(effort: Effort, sheet: &[u8]) -> Written {
    save("sheet.tpl", sheet);
    let input = "target/bench/sheet.tpl";
    let mut by_hand = Contender::reading(PLAIN, input, effort);
    by_hand.words.push(BY_HAND.to_string());
    let contenders = [
        Contender::reading(PROGRAM, input, effort),
        Contender::reading(PLAIN, input, effort),
        by_hand,
    ];
    let mut file: Option<Vec<u8>> = None;
    let timings = race(effort, &contenders, |number, ended| {
        if *file.get_or_insert_with(|| ended.printed.clone()) != ended.printed {
            fail(&format!(
                "{} prints another clause file than {PROGRAM}",
                contenders[number].program
            ));
        }
    });
    let file = file.unwrap_or_default();
    let [program, plain, by_hand] = <[Timing; 3]>::try_from(timings)
        .ok()
        .expect("three timings");
    Written {
        bytes: file.len(),
        clauses: file.split(|&byte| byte == b'\n').count() - 2,
        program,
        plain,
        by_hand,
    }
}
