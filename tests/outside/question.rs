//! A small sheet with the question whether it clashes, asked twice: in the library's clause file,
//! for a solver, and of all fillings, for brute force. The library has no say in the second.

use crate::engine;
use crate::fillings;
use crate::order;
use crate::reader::{Pair, Sheet};
use crate::reply::Asked;
use crate::report::{require, Hex};
use crate::speller::{self, Filling, Verdict};
use crate::writing::ROOMY;

pub struct Question {
    pub asked: Asked,
    /// The library's clause file.
    pub clauses: Vec<u8>,
    pub tried: Tried,
}

/// What trying all fillings of a sheet comes to.
pub struct Tried {
    /// One of `REASONS`.
    pub reason: &'static str,
    /// All fillings that clash.
    pub clashes: Vec<Filling>,
}

/// How an answer comes about.
pub const REASONS: [&str; 5] = [
    "clash, the rules exclude nothing",
    "clash, the rules exclude some fillings",
    "apart, for one pair alone",
    "apart, for the pairs together",
    "apart, for the rules",
];

/// What has to decide which clash is the first.
pub const SPREADS: [&str; 4] = [
    "one clash alone",
    "several clashes, all of the same lengths",
    "several clashes, all of one total",
    "several clashes, of several totals",
];

impl Tried {
    pub fn clash(&self) -> bool {
        !self.clashes.is_empty()
    }

    /// The clash that the search is to give, if there is one.
    pub fn first(&self) -> Option<&Filling> {
        self.clashes.iter().min_by_key(|clash| order::key(clash))
    }

    /// One of `SPREADS`, if there is a clash.
    pub fn spread(&self) -> Option<&'static str> {
        let (first, others) = self.clashes.split_first()?;
        let lengths = order::lengths(first);
        let total = |clash: &Filling| clash.iter().map(Vec::len).sum::<usize>();
        let spread = if others.is_empty() {
            "one clash alone"
        } else if others.iter().all(|other| order::lengths(other) == lengths) {
            "several clashes, all of the same lengths"
        } else if others.iter().all(|other| total(other) == total(first)) {
            "several clashes, all of one total"
        } else {
            "several clashes, of several totals"
        };
        Some(spread)
    }
}

impl Question {
    pub fn new(bytes: &[u8]) -> Question {
        let asked = Asked::new(bytes);
        Question {
            clauses: clauses(bytes),
            tried: try_all(&asked.accepted().sheet),
            asked,
        }
    }
}

/// Tries all fillings of a small sheet.
pub fn try_all(sheet: &Sheet) -> Tried {
    let fillings = fillings::all(sheet);
    let judge = |filling| speller::judge(sheet, filling);
    let verdicts: Vec<Verdict> = fillings.iter().map(judge).collect();
    let clash = verdicts.contains(&Verdict::Clash);
    let breaks = |verdict: &Verdict| matches!(verdict, Verdict::RuleBreaks(_));
    let agrees = |pair: &Pair| fillings.iter().any(|filling| agrees(pair, filling));
    let reason = match (clash, verdicts.iter().any(breaks)) {
        (true, false) => "clash, the rules exclude nothing",
        (true, true) => "clash, the rules exclude some fillings",
        (false, true) => "apart, for the rules",
        (false, false) if sheet.pairs.iter().all(agrees) => "apart, for the pairs together",
        (false, false) => "apart, for one pair alone",
    };
    let judged = fillings.into_iter().zip(verdicts);
    let clashing = judged.filter(|(_, verdict)| *verdict == Verdict::Clash);
    Tried {
        reason,
        clashes: clashing.map(|(filling, _)| filling).collect(),
    }
}

fn agrees(pair: &Pair, filling: &Filling) -> bool {
    speller::text(&pair.left, filling) == speller::text(&pair.right, filling)
}

/// The file that the library writes for a sheet, which is its lines one after the other.
pub fn clauses(sheet: &[u8]) -> Vec<u8> {
    let counted = engine::count(sheet);
    require(
        counted.status == 0 && counted.rest_unchanged,
        "the library does not count the clauses",
        &[("sheet", &Hex(sheet)), ("counted", &counted)],
    );
    let [count, size] = [counted.lent[1], counted.lent[2]];
    let file = engine::file(sheet, size as usize);
    let lines: Vec<u8> = (0..=count).flat_map(|number| line(sheet, number)).collect();
    require(
        file.status == size as i64 && file.lent == lines && file.rest_unchanged,
        "the library does not write the file, or not as its lines",
        &[("sheet", &Hex(sheet)), ("size", &size), ("file", &file)],
    );
    file.lent
}

fn line(sheet: &[u8], number: u64) -> Vec<u8> {
    let mut written = engine::line(sheet, number, ROOMY);
    require(
        written.status > 0 && written.rest_unchanged,
        "the library does not write a line",
        &[
            ("sheet", &Hex(sheet)),
            ("line", &number),
            ("written", &written),
        ],
    );
    written.lent.truncate(written.status as usize);
    written.lent
}
