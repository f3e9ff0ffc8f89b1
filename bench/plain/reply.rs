//! A plain reader of replies that does all that the library's does: it reads the sheet, tests the text in
//! document 01's order, spells the filling, checks that it clashes and stores it. The library is measured
//! against it. One pass over the bytes, and a mark for each variable.

use crate::fillings;
use crate::numbers::Numbers;
use crate::reader::{self, Sheet};
use crate::refusal::Refusal;
use crate::speller::{self, Filling, Verdict, FIELD_BYTES};
use crate::writer::Variable;

const MOST_BYTES: usize = 65_536;
const MOST_DIGITS: usize = 9;

/// What a text says of a variable.
#[derive(Clone, Copy, PartialEq)]
enum Mark {
    Unlisted,
    True,
    False,
}

/// What was met on the way through a text: document 01 gives the first of these, and not the first met.
struct Met {
    marks: Vec<Mark>,
    statuses: usize,
    /// A v line came before any status.
    values_first: bool,
    zeros: usize,
    number_after_zero: bool,
    above: bool,
    twice: bool,
}

/// Stores the filling that a reply gives at the front of `filling`, or answers the first refusal and
/// stores nothing.
pub fn read(sheet: &[u8], text: &[u8], filling: &mut [u8]) -> Result<(), Refusal> {
    let sheet = reader::read(sheet)?;
    let stored = FIELD_BYTES * sheet.limits.len();
    if filling.len() < stored {
        return Err(Refusal::BufferBelowFilling);
    }
    if text.len() > MOST_BYTES {
        return Err(Refusal::ReplySize);
    }
    let numbers = Numbers::of(&sheet);
    let marks = read_lines(text, numbers.count)?;
    let texts = spell(&sheet, &numbers, &marks)?;
    if speller::judge(&sheet, &texts) != Verdict::Clash {
        return Err(Refusal::NoClash);
    }
    filling[..stored].copy_from_slice(&fillings::encode(&texts));
    Ok(())
}

/// The marks of all numbers up to the variable count, 31 to 36 being tested.
fn read_lines(text: &[u8], count: usize) -> Result<Vec<Mark>, Refusal> {
    let mut met = Met {
        marks: vec![Mark::Unlisted; count + 1],
        statuses: 0,
        values_first: false,
        zeros: 0,
        number_after_zero: false,
        above: false,
        twice: false,
    };
    if let Some((&last, lines)) = text.split_last() {
        if last != b'\n' {
            return Err(Refusal::LineEnd);
        }
        for line in lines.split(|&byte| byte == b'\n') {
            met.line(line).ok_or(Refusal::UnknownLine)?;
        }
    }
    if met.statuses != 1 || met.values_first {
        return Err(Refusal::StatusLine);
    }
    if met.zeros == 0 || met.number_after_zero {
        return Err(Refusal::Zero);
    }
    if met.above {
        return Err(Refusal::VariableNumber);
    }
    if met.twice {
        return Err(Refusal::VariableTwice);
    }
    Ok(met.marks)
}

impl Met {
    /// Goes through a line, if it has a known form.
    fn line(&mut self, line: &[u8]) -> Option<()> {
        match line {
            [b'c', ..] => {}
            b"s SATISFIABLE" => self.statuses += 1,
            [b'v', words @ ..] => {
                self.values_first |= self.statuses == 0;
                if let Some((&space, words)) = words.split_first() {
                    if space != b' ' {
                        return None;
                    }
                    for word in words.split(|&byte| byte == b' ') {
                        self.word(word)?;
                    }
                }
            }
            _ => return None,
        }
        Some(())
    }

    /// Notes a number, if a word is one: 0, or an optional minus and 1 to 9 digits, the first not 0.
    fn word(&mut self, word: &[u8]) -> Option<()> {
        self.number_after_zero |= self.zeros > 0;
        if word == b"0" {
            self.zeros += 1;
            return Some(());
        }
        let (digits, mark) = match word {
            [b'-', digits @ ..] => (digits, Mark::False),
            digits => (digits, Mark::True),
        };
        if digits.len() > MOST_DIGITS || !matches!(digits, [b'1'..=b'9', ..]) {
            return None;
        }
        let mut number = 0;
        for digit in digits {
            if !digit.is_ascii_digit() {
                return None;
            }
            number = 10 * number + usize::from(digit - b'0');
        }
        match self.marks.get_mut(number) {
            None => self.above = true,
            Some(held) => {
                self.twice |= *held != Mark::Unlisted;
                *held = mark;
            }
        }
        Some(())
    }
}

/// The filling that the marks spell: 37 is tested over all fields before 38.
fn spell(sheet: &Sheet, numbers: &Numbers, marks: &[Mark]) -> Result<Filling, Refusal> {
    let blank = sheet.letters.len();
    let mut fields = Vec::new();
    for (field, &limit) in sheet.limits.iter().enumerate() {
        let mut values = Vec::new();
        for place in 0..usize::from(limit) {
            let first = numbers.number(Variable::K(field, place, 0));
            let mut held = (0..=blank).filter(|a| marks[first + a] == Mark::True);
            match (held.next(), held.next()) {
                (Some(value), None) => values.push(value),
                _ => return Err(Refusal::PlaceValue),
            }
        }
        fields.push(values);
    }
    let mut filling = Vec::new();
    for values in fields {
        let letters = values.iter().take_while(|&&value| value != blank).count();
        if values[letters..].iter().any(|&value| value != blank) {
            return Err(Refusal::LetterAfterBlank);
        }
        filling.push(
            values[..letters]
                .iter()
                .map(|&letter| letter as u8)
                .collect(),
        );
    }
    Ok(filling)
}
