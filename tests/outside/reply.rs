//! A plain reader of replies, written from document 01 alone ("Reading a reply"). The library's
//! answers are compared with it. It knows nothing of the library: a text is split into lines and
//! these into words, and each test looks at all of them before the next one does.

use crate::assignment::{self, Numbered};
use crate::fillings;
use crate::reader;
use crate::refusal::Refusal;
use crate::speller::{self, Verdict, FIELD_BYTES};

pub const MOST_BYTES: usize = 65_536;
const MOST_DIGITS: usize = 9;

/// A sheet of any bytes that a solver is asked about.
pub struct Asked {
    pub sheet: Vec<u8>,
    /// Numbered once, for any number of replies.
    numbered: Result<Numbered, Refusal>,
}

/// A line of a known form.
#[derive(PartialEq)]
enum Line {
    Comment,
    Status,
    /// With the numbers that it lists.
    Values(Vec<i64>),
}

impl Asked {
    pub fn new(sheet: &[u8]) -> Asked {
        Asked {
            sheet: sheet.to_vec(),
            numbered: reader::read(sheet).map(Numbered::new),
        }
    }

    /// What is known of a sheet that is accepted.
    pub fn accepted(&self) -> &Numbered {
        self.numbered.as_ref().ok().expect("an accepted sheet")
    }

    /// The refusal of a sheet that is not accepted.
    pub fn refusal(&self) -> Option<Refusal> {
        self.numbered.as_ref().err().copied()
    }

    /// How many bytes a filling has; 0 where the sheet is refused.
    pub fn filling_bytes(&self) -> usize {
        let numbered = self.numbered.as_ref();
        numbered.map_or(0, |numbered| FIELD_BYTES * numbered.sheet.limits.len())
    }

    /// The bytes of the filling that a reply gives, for a buffer of `room` bytes, or the first
    /// refusal in document 01's order.
    pub fn read(&self, text: &[u8], room: usize) -> Result<Vec<u8>, Refusal> {
        let numbered = self.numbered.as_ref().map_err(|&refusal| refusal)?;
        if room < self.filling_bytes() {
            return Err(Refusal::BufferBelowFilling);
        }
        if text.len() > MOST_BYTES {
            return Err(Refusal::ReplySize);
        }
        let listed = listed(&lines(text)?)?;
        let assignment = assignment::read(&listed, numbered.numbers.len())?;
        let filling = assignment.filling(numbered)?;
        match speller::judge(&numbered.sheet, &filling) {
            Verdict::Clash => Ok(fillings::encode(&filling)),
            _ => Err(Refusal::NoClash),
        }
    }
}

/// All lines of a text, if each ends and has a known form.
fn lines(text: &[u8]) -> Result<Vec<Line>, Refusal> {
    if text.is_empty() {
        return Ok(Vec::new());
    }
    // A character for each byte, so that any bytes are a text.
    let text: String = text.iter().map(|&byte| char::from(byte)).collect();
    let text = text.strip_suffix('\n').ok_or(Refusal::LineEnd)?;
    let lines: Option<Vec<Line>> = text.split('\n').map(line).collect();
    lines.ok_or(Refusal::UnknownLine)
}

fn line(line: &str) -> Option<Line> {
    if line.starts_with('c') {
        return Some(Line::Comment);
    }
    if line == "s SATISFIABLE" {
        return Some(Line::Status);
    }
    // Each number has its space before it, so nothing comes between the v and the first space.
    let mut words = line.strip_prefix('v')?.split(' ');
    if words.next() != Some("") {
        return None;
    }
    words.map(number).collect::<Option<_>>().map(Line::Values)
}

/// 0, or an optional minus and 1 to 9 digits, the first not 0.
fn number(word: &str) -> Option<i64> {
    let digits = word.strip_prefix('-').unwrap_or(word);
    let all_digits = digits.chars().all(|digit| digit.is_ascii_digit());
    let size_fits = (1..=MOST_DIGITS).contains(&digits.len());
    if word == "0" || all_digits && size_fits && !digits.starts_with('0') {
        word.parse().ok()
    } else {
        None
    }
}

/// The numbers before the 0, if there is one s line, with no v line before it, and the only 0 comes
/// last.
fn listed(lines: &[Line]) -> Result<Vec<i64>, Refusal> {
    let statuses = lines.iter().filter(|&line| *line == Line::Status);
    let first_told = lines.iter().find(|&line| *line != Line::Comment);
    if statuses.count() != 1 || first_told != Some(&Line::Status) {
        return Err(Refusal::StatusLine);
    }
    let numbers = lines.iter().flat_map(|line| match line {
        Line::Values(numbers) => &numbers[..],
        _ => &[],
    });
    let mut numbers: Vec<i64> = numbers.copied().collect();
    if numbers.pop() != Some(0) || numbers.contains(&0) {
        return Err(Refusal::Zero);
    }
    Ok(numbers)
}
