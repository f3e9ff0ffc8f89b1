//! A plain reader of assignments, written from document 01 alone ("An assignment makes each
//! variable ..", and of "Reading a reply" what is said of its numbers). It knows nothing of the
//! library.

use crate::reader::Sheet;
use crate::refusal::Refusal;
use crate::speller::{self, Filling, Verdict};
use crate::writer::{self, File, Variable};
use std::collections::{BTreeMap, HashMap};

/// An accepted sheet with the numbers of its variables.
pub struct Numbered {
    pub sheet: Sheet,
    pub numbers: HashMap<Variable, usize>,
}

impl Numbered {
    pub fn new(sheet: Sheet) -> Numbered {
        Numbered {
            numbers: writer::numbers(&sheet),
            sheet,
        }
    }
}

/// The variables that are listed, by their numbers, each with its value. The others are false.
pub struct Assignment {
    listed: BTreeMap<usize, bool>,
}

/// Reads an assignment from the numbers that are listed, and says what is wrong with it: a place of
/// a field, a clause, or the filling that it spells.
pub fn judge(sheet: &Numbered, listed: &[i64]) -> Result<(), String> {
    let refused = |refusal| format!("as a reply this is refused: {refusal:?}");
    let assignment = read(listed, sheet.numbers.len()).map_err(refused)?;
    let filling = assignment.filling(sheet).map_err(refused)?;
    if !assignment.satisfies(&writer::file_of(&sheet.sheet)) {
        return Err("a clause has no true literal".to_string());
    }
    match speller::judge(&sheet.sheet, &filling) {
        Verdict::Clash => Ok(()),
        _ => Err("the filling that the assignment spells does not clash".to_string()),
    }
}

/// Reads an assignment, if each number is of one of the variables, and each variable is listed once
/// at most.
pub fn read(listed: &[i64], variables: usize) -> Result<Assignment, Refusal> {
    let variable = |number: i64| number.unsigned_abs() as usize;
    if listed.iter().any(|&number| variable(number) > variables) {
        return Err(Refusal::VariableNumber);
    }
    let values = listed.iter().map(|&number| (variable(number), number > 0));
    let values: BTreeMap<usize, bool> = values.collect();
    if values.len() < listed.len() {
        return Err(Refusal::VariableTwice);
    }
    Ok(Assignment { listed: values })
}

impl Assignment {
    fn is_true(&self, variable: usize) -> bool {
        self.listed.get(&variable) == Some(&true)
    }

    /// Has each clause a true literal: a number whose variable is true, or a minus number whose
    /// variable is false?
    fn satisfies(&self, file: &File) -> bool {
        let is_true =
            |&literal: &i64| self.is_true(literal.unsigned_abs() as usize) == (literal > 0);
        let mut clauses = file.lines[1..].iter().map(|line| literals(&line.bytes));
        clauses.all(|clause| clause.iter().any(is_true))
    }

    /// The filling that it spells, if each place has just one true value, and blanks come last in
    /// each field.
    pub fn filling(&self, sheet: &Numbered) -> Result<Filling, Refusal> {
        let limits = sheet.sheet.limits.iter().enumerate();
        let fields: Option<Vec<Vec<usize>>> = limits
            .map(|(field, &limit)| {
                let places = 0..usize::from(limit);
                places
                    .map(|place| self.value(sheet, field, place))
                    .collect()
            })
            .collect();
        let fields = fields.ok_or(Refusal::PlaceValue)?;
        let blank = sheet.sheet.letters.len();
        let texts: Option<Filling> = fields.iter().map(|values| text(values, blank)).collect();
        texts.ok_or(Refusal::LetterAfterBlank)
    }

    /// The one true value of a place.
    fn value(&self, sheet: &Numbered, field: usize, place: usize) -> Option<usize> {
        let is_held = |&a: &usize| self.is_true(sheet.numbers[&Variable::K(field, place, a)]);
        let values: Vec<usize> = (0..=sheet.sheet.letters.len()).filter(is_held).collect();
        match values[..] {
            [value] => Some(value),
            _ => None,
        }
    }
}

/// The numbers of a clause's line before the 0.
fn literals(line: &[u8]) -> Vec<i64> {
    let line = String::from_utf8_lossy(line);
    let number = |word: &str| word.parse().expect("a clause's line has numbers alone");
    let numbers = line.split_whitespace().map(number);
    numbers.take_while(|&literal| literal != 0).collect()
}

/// A field's text from the values of its places: the letters up to the first blank.
fn text(values: &[usize], blank: usize) -> Option<Vec<u8>> {
    let first_blank = values.iter().position(|&value| value == blank);
    let (letters, tail) = values.split_at(first_blank.unwrap_or(values.len()));
    let all_blank = tail.iter().all(|&value| value == blank);
    all_blank.then(|| letters.iter().map(|&letter| letter as u8).collect())
}
