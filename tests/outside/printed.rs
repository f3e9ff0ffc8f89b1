//! A plain writer of what the search program prints, written from document 01 alone ("Programs and
//! one sheet in full"). Which clash it is comes from the plain search.

use crate::first;
use crate::reader::{self, Sheet};
use crate::report::{require, Hex};
use crate::sheets;
use crate::speller::{self, Filling};

/// All that is to be printed for a sheet of any bytes.
pub fn report(sheet: &[u8]) -> String {
    let sheet = match reader::read(sheet) {
        Ok(sheet) => sheet,
        Err(refusal) => return format!("refused {}\n", refusal as u8),
    };
    match first::clash(&sheet) {
        Some(filling) => clash(&sheet, &filling),
        None => "apart\n".to_string(),
    }
}

/// A line `clash`, then each field's text, then each pair's.
fn clash(sheet: &Sheet, filling: &Filling) -> String {
    let mut report = "clash\n".to_string();
    for (number, text) in filling.iter().enumerate() {
        report += &format!("field {number}={}\n", letters(sheet, text));
    }
    for (number, pair) in sheet.pairs.iter().enumerate() {
        let text = speller::text(&pair.left, filling);
        report += &format!("pair {number}={}\n", letters(sheet, &text));
    }
    report
}

/// A text in letters.
fn letters(sheet: &Sheet, text: &[u8]) -> String {
    text.iter()
        .map(|&number| char::from(sheet.letters[usize::from(number)]))
        .collect()
}

/// Reports that are known, each with its sheet: P, and P with a 16th byte; then sheets with several
/// clashes, in which the first is decided by the total, by a length, by a letter, and by the length of
/// a field that no template has.
const KNOWN: [(&[u8], &str); 7] = [
    (sheets::P, "clash\nfield 0=A\npair 0=A\n"),
    (
        b"TPL\0\x01\x01\x01\x01\0A\x01\x01\x01\x80\0\0",
        "refused 9\n",
    ),
    // XX and A.
    (b"TPL\0\x01\x01\x01\x01\0A\x01\x02\x01\x80\x80\0", "apart\n"),
    // X and X, Y and Y, with 2 × X and Y together at least 2.
    (
        b"TPL\0\x01\x01\x02\x02\x01A\x02\x02\x01\x01\x80\x80\x01\x01\x81\x81\xFE\xFF\xFF\xFE",
        "clash\nfield 0=A\nfield 1=\npair 0=A\npair 1=\n",
    ),
    // XY and AB.
    (
        b"TPL\0\x01\x02\x02\x01\0AB\x02\x02\x02\x02\x80\x81\0\x01",
        "clash\nfield 0=\nfield 1=AB\npair 0=AB\n",
    ),
    // XB and YB, of at least one letter.
    (
        b"TPL\0\x01\x02\x02\x01\x01AB\x01\x01\x02\x02\x80\x01\x81\x01\xFF\0\xFF\xFF",
        "clash\nfield 0=A\nfield 1=A\npair 0=AB\n",
    ),
    // Y and Y, with X and Y together at least 1.
    (
        b"TPL\0\x01\x01\x02\x01\x01A\x01\x01\x01\x01\x81\x81\xFF\xFF\xFF\xFF",
        "clash\nfield 0=\nfield 1=A\npair 0=A\n",
    ),
];

/// Holds the writer itself to reports that are known, and answers how many.
pub fn known() -> usize {
    for (sheet, due) in KNOWN {
        let report = report(sheet);
        require(
            report == due,
            "a known report is written otherwise",
            &[
                ("sheet", &Hex(sheet)),
                ("written", &report.escape_debug()),
                ("due", &due.escape_debug()),
            ],
        );
    }
    KNOWN.len()
}
