//! How large a clause file is, which the library finds without writing a line, against writing the file:
//! by the clause program, and by the library's call.

use crate::clauses::PROGRAM;
use crate::engine;
use crate::families::{self, GREATEST};
use crate::race::Contender;
use crate::reader::{self, Sheet};
use crate::search;
use crate::sheets;
use crate::table::{table, times, verdict};
use crate::timing::{in_a_row, in_turn, Effort, Timing};
use crate::whole;
use crate::writer;
use crate::{fail, progress, save, Setting};

/// The size may take this many times the time in which the clause program writes the file.
const ALLOWED: f64 = 0.2;

/// A sheet as fitters have them.
const EVERYDAY: &str = "examples/hold-up.tpl";

/// The table of a few clause files.
pub fn table_of(setting: &Setting) -> String {
    let heads = [
        "sheet",
        "clauses",
        "bytes",
        "tpl_count",
        "program",
        "tpl_count / program",
        "tpl_file",
        "tpl_count / tpl_file",
    ];
    let mut ratios = Vec::new();
    let rows = measured_sheets().map(|(name, sheet)| {
        progress(&format!("size of the clause file: {name}"));
        let file = writer::file_of(&sheet);
        let due = file.bytes();
        let [size, program, call] = find(setting.effort, &sheets::encode(&sheet), &due);
        let ratio = size.ratio(&program);
        ratios.push(ratio);
        vec![
            name,
            file.clauses().to_string(),
            due.len().to_string(),
            size.to_string(),
            program.to_string(),
            times(ratio),
            call.to_string(),
            times(size.ratio(&call)),
        ]
    });
    "### File size\n\n".to_string() + &table(&heads, &rows) + &verdict(ALLOWED, &ratios)
}

/// Sheets by what their clauses are of.
fn measured_sheets() -> [(String, Sheet); 4] {
    let (name, everyday) = search::named(EVERYDAY, ".tpl");
    [
        (
            "the most clauses".to_string(),
            families::most_clauses(GREATEST),
        ),
        (
            "rules, and empty templates".to_string(),
            families::mostly_rules(),
        ),
        ("pairs, and no rules".to_string(), families::mostly_pairs()),
        (name, reader::accepted(&everyday)),
    ]
}

/// Finds the size of a sheet's clause file, and writes it in both ways. It must be this file, and its
/// size.
fn find(effort: Effort, sheet: &[u8], due: &[u8]) -> [Timing; 3] {
    save("sheet.tpl", sheet);
    let program = Contender::reading(PROGRAM, "target/bench/sheet.tpl", effort);
    in_turn(
        effort,
        [
            &mut in_a_row(|| count(sheet, due.len())),
            &mut || program.printing(due),
            &mut || whole::by_one_call(sheet, due),
        ],
    )
}

/// Calls the library once. It must find this size.
fn count(sheet: &[u8], due: usize) {
    let mut counts = [0; 3];
    let status = engine::count(sheet, &mut counts);
    if status != 0 || counts[2] != due as u64 {
        let found = counts[2];
        fail(&format!(
            "a clause file of {due} bytes is counted as {found}, with status {status}"
        ));
    }
}
