//! The library's call that reads a reply against a plain reader, both in this process.

use crate::engine;
use crate::families::{self, GREATEST};
use crate::plain_reply;
use crate::reader::Sheet;
use crate::sheets;
use crate::speller::FIELD_BYTES;
use crate::table::{table, times, verdict};
use crate::texts;
use crate::timing::{Effort, Timing};
use crate::{fail, progress, Setting};
use std::time::Instant;

/// The library may take this many times the plain reader's time.
const ALLOWED: f64 = 3.0;
/// The most bytes that a reply may have.
const MOST_BYTES: usize = 65_536;
/// As many numbers on a v line as cadical puts there, about.
pub const ON_A_LINE: usize = 12;
/// A comment line as solvers print them.
const COMMENT: &[u8] =
    b"c ------------------------------------------------------------------------\n";

/// The table of replies of the most bytes to the sheet of the most variables.
pub fn table_of(setting: &Setting) -> String {
    progress("replies");
    let sheet = families::most_variables(GREATEST);
    let layouts = [
        (
            "comment lines, then v lines as solvers print them",
            text(&sheet, ON_A_LINE),
            COMMENT,
        ),
        (
            "comment lines of one byte, then one v line",
            text(&sheet, usize::MAX),
            b"c\n",
        ),
        (
            "v lines that list nothing, then one number on each",
            text(&sheet, 1),
            b"v\n",
        ),
    ];
    let mut ratios = Vec::new();
    let rows = layouts.map(|(name, text, filler)| {
        let text = filled(&text, filler);
        let (library, plain) = read(setting.effort, &sheets::encode(&sheet), &text);
        let ratio = library.ratio(&plain);
        ratios.push(ratio);
        vec![
            name.to_string(),
            text.len().to_string(),
            library.to_string(),
            plain.to_string(),
            times(ratio),
        ]
    });
    let heads = ["reply", "bytes", "tpl_reply", "plain", "tpl_reply / plain"];
    "### Reply\n\n".to_string() + &table(&heads, &rows) + &verdict(ALLOWED, &ratios)
}

/// A reply that lists all variables of a clash, with so many numbers on a v line: each field has the
/// last letter in all its places.
pub fn text(sheet: &Sheet, on_a_line: usize) -> Vec<u8> {
    let last = sheet.letters.len() as u8 - 1;
    let filling = sheet
        .limits
        .iter()
        .map(|&limit| vec![last; usize::from(limit)])
        .collect();
    let mut text = b"s SATISFIABLE\n".to_vec();
    for numbers in texts::listing(sheet, &filling).chunks(on_a_line) {
        let numbers: String = numbers.iter().map(|number| format!(" {number}")).collect();
        text.extend(format!("v{numbers}\n").into_bytes());
    }
    text
}

/// A text that has the most bytes by lines of one kind after its status. A comment before them makes up for what they
/// cannot.
fn filled(text: &[u8], filler: &[u8]) -> Vec<u8> {
    let room = MOST_BYTES - text.len();
    let lines = filler.repeat(room / filler.len() - 1);
    let rest = room - lines.len();
    let first = [&b"c"[..], &vec![b'-'; rest - 2], b"\n"].concat();
    let status = text.iter().position(|&byte| byte == b'\n').expect("a line") + 1;
    [&text[..status], &first, &lines, &text[status..]].concat()
}

/// Reads a reply with both, in turn, each into a buffer that is cleared before each call. They must hand
/// over the same.
pub fn read(effort: Effort, sheet: &[u8], text: &[u8]) -> (Timing, Timing) {
    let mut timings = [(); 2].map(|()| Timing::new(effort));
    while timings[0].has_more() || timings[1].has_more() {
        let mut buffers = [[0; 6 * FIELD_BYTES]; 2];
        let began = Instant::now();
        let status = engine::reply(sheet, text, &mut buffers[0]);
        timings[0].add(began.elapsed());
        let began = Instant::now();
        let plain = plain_reply::read(sheet, text, &mut buffers[1]);
        timings[1].add(began.elapsed());
        if status != 0 || plain.is_err() || buffers[0] != buffers[1] {
            fail(&format!(
                "a reply is read in two ways: {status}, plain {plain:?}"
            ));
        }
    }
    let [library, plain] = timings;
    (library, plain)
}
