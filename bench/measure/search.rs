//! The search program against solvers, each asked whether a sheet clashes: cadical on its clause file,
//! z3 and cvc5 on its question about strings.

use crate::hard;
use crate::printed;
use crate::race::{race, Contender, Ended};
use crate::reader;
use crate::strings;
use crate::table::{table, times, verdict};
use crate::timing::{milliseconds, Effort, Timing};
use crate::{fail, progress, save, Setting};
use std::process::Command;

/// The search may take this long, in milliseconds, where a solver is faster.
const ALLOWED: f64 = 3.0;

pub const CADICAL: &str = "cadical";
const SOLVERS: [&str; 3] = [CADICAL, "z3", "cvc5"];

/// A sheet, and whether it is known to clash.
struct Asked {
    name: String,
    sheet: Vec<u8>,
    clash: Option<bool>,
}

/// What there is to compare on one sheet.
pub struct Answered {
    pub clash: bool,
    pub search: Timing,
    /// None where the solver cannot be had.
    pub solvers: Vec<Option<Timing>>,
}

/// The table of the hard sheets, and that of other sheets, if there are any.
pub fn tables(setting: &Setting) -> String {
    let hard = hard::all().into_iter().map(|hard| Asked {
        name: hard.name,
        sheet: hard.sheet,
        clash: Some(hard.clash),
    });
    let mut hard: Vec<Asked> = hard.collect();
    let mut others: Vec<Asked> = setting.sheets.iter().map(|file| read(file)).collect();
    if setting.effort.quick {
        hard.truncate(1);
        others.truncate(1);
    }
    let mut text = "### Search\n\nThe sheets of `tests/hard`:\n\n".to_string();
    text += &one_table(setting, &hard);
    if !others.is_empty() {
        text += "\nThe slowest sheets that climbing found:\n\n";
        text += &one_table(setting, &others);
    }
    text
}

fn read(file: &str) -> Asked {
    let (name, sheet) = named(file, ".tpl");
    Asked {
        name,
        sheet,
        clash: None,
    }
}

/// A file's name without its folder and this ending, and its bytes.
pub fn named(file: &str, ending: &str) -> (String, Vec<u8>) {
    let name = file.rsplit('/').next().unwrap_or(file);
    let bytes = std::fs::read(file).unwrap_or_else(|error| fail(&format!("{file}: {error}")));
    (name.strip_suffix(ending).unwrap_or(name).to_string(), bytes)
}

fn one_table(setting: &Setting, all: &[Asked]) -> String {
    let heads = [
        "sheet",
        "answer",
        "search",
        CADICAL,
        "z3",
        "cvc5",
        "at most",
        "search / at most",
    ];
    let mut rows = Vec::new();
    let mut ratios = Vec::new();
    for (number, asked) in all.iter().enumerate() {
        progress(&format!(
            "search {} of {}: {}",
            number + 1,
            all.len(),
            asked.name
        ));
        let answered = ask(setting.effort, &asked.sheet, &setting.solvers, asked.clash);
        let answer = if answered.clash { "clash" } else { "apart" };
        let shown: Vec<String> = answered.solvers.iter().map(told).collect();
        let times_of_solvers = answered.solvers.iter().flatten().map(Timing::milliseconds);
        let (most, ratio) = match times_of_solvers.reduce(f64::min) {
            Some(fastest) => {
                let most = fastest.max(ALLOWED);
                let ratio = answered.search.milliseconds() / most;
                ratios.push(ratio);
                (milliseconds(most), times(ratio))
            }
            None => ("-".to_string(), "-".to_string()),
        };
        let search = answered.search.to_string();
        let cells = [
            &asked.name,
            answer,
            &search,
            &shown[0],
            &shown[1],
            &shown[2],
            &most,
            &ratio,
        ];
        rows.push(cells.map(str::to_string).to_vec());
    }
    table(&heads, &rows) + &verdict(1.0, &ratios)
}

fn told(timing: &Option<Timing>) -> String {
    timing
        .as_ref()
        .map_or("not installed".to_string(), Timing::to_string)
}

/// Asks the search program and the solvers of `SOLVERS` that are there. Their answers must agree, and the
/// search must print what the plain one says.
pub fn ask(effort: Effort, sheet: &[u8], there: &[String], known: Option<bool>) -> Answered {
    save("sheet.cnf", &clauses(sheet));
    save(
        "sheet.smt2",
        strings::question(&reader::accepted(sheet)).as_bytes(),
    );
    let solvers = SOLVERS.map(|solver| there.iter().any(|name| name == solver));
    let mut names = vec!["search"];
    names.extend(
        SOLVERS
            .iter()
            .zip(solvers)
            .filter(|(_, there)| *there)
            .map(|(name, _)| *name),
    );
    let contenders: Vec<Contender> = names.iter().map(|name| contender(name, effort)).collect();
    let mut clash = known;
    let report = printed::report(sheet);
    let timings = race(effort, &contenders, |number, ended| {
        let name = names[number];
        if name == "search" && ended.printed != report.as_bytes() {
            fail(&format!(
                "the search printed another report than is due:\n{report}"
            ));
        }
        let answer = answer(name, ended);
        if answer.is_some() && *clash.get_or_insert(answer == Some(true)) != (answer == Some(true))
        {
            fail(&format!(
                "{name} answers otherwise than is known, or than the search"
            ));
        }
    });
    let mut timings = timings.into_iter();
    let search = timings.next().expect("the search is timed");
    Answered {
        clash: clash.unwrap_or_else(|| fail("the search gave no answer in time")),
        search,
        solvers: solvers
            .map(|there| there.then(|| timings.next().expect("it is timed")))
            .to_vec(),
    }
}

/// The clause file of a sheet, which is saved.
pub fn clauses(sheet: &[u8]) -> Vec<u8> {
    save("sheet.tpl", sheet);
    let sheet = std::fs::File::open("target/bench/sheet.tpl").expect("it was saved");
    let output = Command::new("target/bin/clauses").stdin(sheet).output();
    output
        .unwrap_or_else(|error| fail(&format!("the clause program cannot be run: {error}")))
        .stdout
}

/// The search program, or a solver, on the sheet that was saved.
fn contender(name: &str, effort: Effort) -> Contender {
    match name {
        "search" => Contender::reading("target/bin/search", "target/bench/sheet.tpl", effort),
        CADICAL => Contender::given(name, &["-q", "target/bench/sheet.cnf"], effort.limit),
        _ => Contender::given(name, &["target/bench/sheet.smt2"], effort.strings_limit),
    }
}

/// Whether it says that the sheet clashes; none if it does not know.
pub fn answer(name: &str, ended: &Ended) -> Option<bool> {
    let printed = String::from_utf8_lossy(&ended.printed);
    match (name, ended.status, printed.lines().next()) {
        ("search", _, Some("clash")) => Some(true),
        ("search", _, Some("apart")) => Some(false),
        (CADICAL, Some(10), _) | ("z3" | "cvc5", _, Some("sat")) => Some(true),
        (CADICAL, Some(20), _) | ("z3" | "cvc5", _, Some("unsat")) => Some(false),
        ("z3" | "cvc5", _, Some("unknown")) => None,
        _ => fail(&format!("{name} gave no answer: {printed}")),
    }
}
