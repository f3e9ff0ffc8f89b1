//! Letters as the text form writes them, and the line of letters, which sheets and books have.

use crate::form::Symbol;
use crate::line::{fault_at, Line};
use crate::source::{Fault, Place};

/// The letters that mean something else in the text form, unless a backslash stands before them.
pub const SPECIAL: &str = "{}=#\\";

/// Reads the line of letters, of which a text has one, and where each stands.
pub fn read(
    start: Place,
    mut line: Line,
    letters: &mut Vec<u8>,
    places: &mut Vec<Place>,
) -> Result<(), Fault> {
    if let Some(first) = places.first() {
        return fault_at(
            start,
            format!("a second line of letters; the first is line {}", first.line),
        );
    }
    while line.peek().is_some() {
        places.push(line.place());
        letters.push(line.letter()?);
    }
    if letters.is_empty() {
        return line.fault("at least one letter is needed");
    }
    Ok(())
}

/// Says that there is no such line, where there was none.
pub fn needed(letters: &[u8], end: Place) -> Result<(), Fault> {
    match letters.is_empty() {
        true => fault_at(end, "there is no line `letters ..`"),
        false => Ok(()),
    }
}

/// What is said beside the refusal of too many letters.
pub fn counted(letters: &[u8]) -> String {
    format!(
        "{} here, every sign that is no space being one; letters that stand in no template can be left out",
        letters.len()
    )
}

/// What is said beside the refusal of letters that do not rise.
pub fn rising(letters: &[u8]) -> String {
    let mut letters = letters.to_vec();
    letters.sort_unstable();
    letters.dedup();
    format!("in order, and each once: {}", written(&letters))
}

/// Reads a letter of a template, which has to be one of these.
pub fn symbol(line: &mut Line, letters: &[u8]) -> Result<Symbol, Fault> {
    let place = line.place();
    let letter = line.letter()?;
    match letters.iter().position(|&known| known == letter) {
        Some(number) => Ok(Symbol::Letter(number)),
        None => fault_at(
            place,
            format!("`{}` is not on the line of letters", char::from(letter)),
        ),
    }
}

/// The line of letters.
pub fn written(letters: &[u8]) -> String {
    let letters = letters.iter().map(|&letter| escaped(letter));
    format!("letters {}", letters.collect::<Vec<_>>().join(" "))
}

/// A letter, after a backslash if it is special.
pub fn escaped(letter: u8) -> String {
    let letter = char::from(letter);
    if SPECIAL.contains(letter) {
        format!("\\{letter}")
    } else {
        letter.to_string()
    }
}
