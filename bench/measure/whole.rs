//! A whole clause file by one call of the library against the same file line by line.

use crate::engine;
use crate::families::{self, GREATEST};
use crate::sheets;
use crate::table::{table, times};
use crate::timing::in_turn;
use crate::writer;
use crate::{fail, progress, Setting};
use std::time::{Duration, Instant};

/// The table of the largest clause file.
pub fn table_of(setting: &Setting) -> String {
    progress("the whole file by one call");
    let sheet = families::most_clauses(GREATEST);
    let file = writer::file_of(&sheet);
    let clauses = file.clauses();
    let (sheet, due) = (sheets::encode(&sheet), file.bytes());
    let mut by_one_call = || by_one_call(&sheet, &due);
    let mut by_lines = || written(&due, |file| line_by_line(&sheet, clauses, file));
    let [whole, lines] = in_turn(setting.effort, [&mut by_one_call, &mut by_lines]);
    let row = vec![
        clauses.to_string(),
        due.len().to_string(),
        whole.to_string(),
        lines.to_string(),
        times(whole.ratio(&lines)),
    ];
    let heads = [
        "clauses",
        "bytes",
        "tpl_file",
        "tpl_line, line by line",
        "tpl_file / this",
    ];
    "### Whole file\n\n".to_string() + &table(&heads, &[row])
}

/// How long the library's call takes that writes the whole file, which must be this one.
pub fn by_one_call(sheet: &[u8], due: &[u8]) -> Duration {
    written(due, |file| engine::file(sheet, file))
}

/// How long it takes to write a file into a buffer of its size. It must be this file.
fn written(due: &[u8], write: impl Fn(&mut [u8]) -> i64) -> Duration {
    let mut file = vec![b'.'; due.len()];
    let began = Instant::now();
    let length = write(&mut file);
    let time = began.elapsed();
    if length != due.len() as i64 || file != due {
        fail(&format!(
            "the library writes another clause file than the plain writer, and answers {length}"
        ));
    }
    time
}

/// Writes all lines of a file one after the other, each by a call. Answers their length, or a refusal.
fn line_by_line(sheet: &[u8], clauses: usize, file: &mut [u8]) -> i64 {
    let mut end = 0;
    for number in 0..=clauses as u64 {
        let length = engine::line(sheet, number, &mut file[end..]);
        match usize::try_from(length) {
            Ok(length) => end += length,
            Err(_) => return length,
        }
    }
    end as i64
}
