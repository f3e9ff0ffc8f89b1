//! What the C header lists for each call: the range of its answers, and its refusals.

use crate::book::{self, MOST_PAIRS};
use crate::schedule;
use crate::tally::{Answer, Tally};
use crate::writing;
use std::ops::RangeInclusive;

/// The shortest line is a clause of one literal of one digit, as in `3 0`.
pub const SHORTEST_LINE: i64 = 4;
pub const LONGEST_LINE: usize = writing::ROOMY;
/// The smallest file is `p cnf 1 1` and `1 0`. None has more than 47,601 lines of 38 bytes each, which is
/// proved; that of the most clauses has 920,561 bytes.
const SMALLEST_FILE: i64 = 14;
const LARGEST_FILE: i64 = 47_601 * 38;
pub const LONGEST_TEXT: usize = 24;
/// The refusals of a sheet, which every call that is given one has.
const OF_SHEET: RangeInclusive<i64> = 1..=15;

/// What one of the calls may return.
struct Listed {
    name: &'static str,
    answers: RangeInclusive<i64>,
    refusals: &'static [RangeInclusive<i64>],
    /// A word for an answer, and all such words.
    kind: fn(i64) -> &'static str,
    kinds: &'static [&'static str],
}

/// A call, by its place in `LISTED`.
#[derive(Clone, Copy, PartialEq, Eq, Hash)]
pub enum Call {
    Read,
    Check,
    Spell,
    Search,
    Count,
    Line,
    File,
    Reply,
    Book,
    BookHours,
}

/// All calls, in the order of `Call`.
static LISTED: [Listed; 10] = [
    Listed {
        name: "tpl_read",
        answers: 0..=0,
        refusals: &[OF_SHEET],
        kind: |_| "accepted",
        kinds: &["accepted"],
    },
    Listed {
        name: "tpl_check",
        answers: 0..=1,
        refusals: &[OF_SHEET, 20..=23],
        kind: |status| ["no clash", "clash"][status as usize],
        kinds: &["clash", "no clash"],
    },
    Listed {
        name: "tpl_spell",
        answers: 0..=LONGEST_TEXT as i64,
        refusals: &[OF_SHEET, 20..=26],
        kind: |status| match status {
            0 => "empty",
            1..=23 => "1 to 23",
            _ => "24",
        },
        kinds: &["empty", "1 to 23", "24"],
    },
    Listed {
        name: "tpl_search",
        answers: 0..=1,
        refusals: &[OF_SHEET, 27..=27],
        kind: |status| ["apart", "clash"][status as usize],
        kinds: &["clash", "apart"],
    },
    Listed {
        name: "tpl_count",
        answers: 0..=0,
        refusals: &[OF_SHEET],
        kind: |_| "counted",
        kinds: &["counted"],
    },
    Listed {
        name: "tpl_line",
        answers: SHORTEST_LINE..=LONGEST_LINE as i64,
        refusals: &[OF_SHEET, 28..=29],
        kind: |status| match status {
            0..=9 => "4 to 9",
            10..=24 => "10 to 24",
            _ => "25 to 80",
        },
        kinds: &["4 to 9", "10 to 24", "25 to 80"],
    },
    Listed {
        name: "tpl_file",
        answers: SMALLEST_FILE..=LARGEST_FILE,
        refusals: &[OF_SHEET, 29..=29],
        kind: file_kind,
        kinds: &FILE_KINDS,
    },
    Listed {
        name: "tpl_reply",
        answers: 0..=0,
        refusals: &[OF_SHEET, 27..=27, 30..=39],
        kind: |_| "accepted",
        kinds: &["accepted"],
    },
    Listed {
        name: "tpl_book",
        answers: 0..=MOST_PAIRS as i64,
        refusals: &[40..=42],
        kind: book_kind,
        kinds: &BOOK_KINDS,
    },
    Listed {
        name: "tpl_book_hours",
        answers: 0..=MOST_PAIRS as i64,
        refusals: &[40..=45],
        kind: book_kind,
        kinds: &BOOK_KINDS,
    },
];

/// How many templates of a book clash.
pub const BOOK_KINDS: [&str; 3] = ["none", "some", "all of 16"];

/// A word for how many pairs of templates are listed.
pub fn book_kind(pairs: i64) -> &'static str {
    match pairs {
        0 => BOOK_KINDS[0],
        _ if pairs < MOST_PAIRS as i64 => BOOK_KINDS[1],
        _ => BOOK_KINDS[2],
    }
}

/// How many bytes a file has.
const FILE_KINDS: [&str; 3] = ["14 to 99", "100 to 9,999", "10,000 and more"];

/// A word for a file's size.
fn file_kind(bytes: i64) -> &'static str {
    match bytes {
        0..=99 => FILE_KINDS[0],
        100..=9999 => FILE_KINDS[1],
        _ => FILE_KINDS[2],
    }
}

/// What an input that leads to this status is kept for. Of books all lists with some pairs are one, and
/// so are all files.
pub fn kept_for(call: Call, status: i64) -> i64 {
    match (call, status) {
        (Call::Book | Call::BookHours, 1..) if book_kind(status) == BOOK_KINDS[1] => 1,
        (Call::File, 1..) => 1,
        _ => status,
    }
}

/// Is this a refusal of the sheet?
pub fn is_of_sheet(status: i64) -> bool {
    OF_SHEET.contains(&status.wrapping_neg())
}

/// The call's name in the header.
pub fn name(call: Call) -> &'static str {
    LISTED[call as usize].name
}

/// What a status of this call says, if the call may return it.
pub fn answer(call: Call, status: i64) -> Option<Answer> {
    let listed = &LISTED[call as usize];
    let refusal = status.checked_neg()?;
    let mut refusals = listed.refusals.iter();
    if listed.answers.contains(&status) {
        Some(Ok((listed.kind)(status)))
    } else if refusals.any(|some| some.contains(&refusal)) {
        Some(Err(refusal as u8))
    } else {
        None
    }
}

/// A tally of all that can be wrong with a book.
pub fn book_faults() -> Tally {
    let names = book::FAULTS.map(|(_, name)| name);
    Tally::new("books refused for", &names, 0..0)
}

/// A tally of all that can be wrong with hours.
pub fn hours_faults() -> Tally {
    let names = schedule::FAULTS.map(|(_, _, name)| name);
    Tally::new("hours refused for", &names, 0..0)
}

/// For each call a tally of all that it may return.
pub fn tallies() -> Vec<Tally> {
    let tally = |listed: &Listed| {
        let refusals = listed.refusals.iter().cloned().flatten();
        Tally::new(
            listed.name,
            listed.kinds,
            refusals.map(|number| number as u8),
        )
    };
    LISTED.iter().map(tally).collect()
}
