//! The words of a command that asks about files: its options and the files.

use crate::opinion::Choice;
use crate::solver;

/// What is to be done.
pub struct Words<'a> {
    pub solver: Option<Choice>,
    pub exit_code: bool,
    /// The two templates of a book that are to be written as a sheet.
    pub sheet: Option<[&'a str; 2]>,
    /// The file that has the hours of a book.
    pub hours: Option<&'a str>,
    pub files: Vec<&'a str>,
}

/// The options of `check`, of `book` and of `text`, and none.
pub const OF_CHECK: &[&str] = &["--solver", "--exit-code"];
pub const OF_BOOK: &[&str] = &["--solver", "--exit-code", "--sheet", "--hours"];
pub const OF_TEXT: &[&str] = &["--hours"];
pub const NONE: &[&str] = &[];

const OF_SHEET: &str = "--sheet takes two templates and one book, and no other option";
const OF_HOURS: &str = "--hours takes one file of hours, and one book in another file";

/// Takes the words of a command that knows these options. What makes no sense is told in words.
pub fn taken<'a>(words: &'a [String], options: &[&str]) -> Result<Words<'a>, String> {
    let mut taken = Words {
        solver: None,
        exit_code: false,
        sheet: None,
        hours: None,
        files: Vec::new(),
    };
    let mut words = words.iter().map(String::as_str).peekable();
    while let Some(word) = words.next() {
        let (option, value) = match word.split_once('=') {
            Some((option, value)) => (option, Some(value)),
            None => (word, None),
        };
        match (option, value) {
            // `-` alone is standard input.
            _ if !word.starts_with('-') || word == "-" => taken.files.push(word),
            _ if !options.contains(&option) => return Err(format!("no such option: {word}")),
            ("--solver", Some(name)) => taken.solver = Some(Choice::Named(name.to_string())),
            ("--solver", None) => {
                let name = words.next_if(|next| solver::KNOWN.contains(next));
                taken.solver = Some(match name {
                    Some(name) => Choice::Named(name.to_string()),
                    None => Choice::Any,
                });
            }
            ("--exit-code", None) => taken.exit_code = true,
            ("--sheet", None) => match (words.next(), words.next()) {
                (Some(first), Some(second)) => taken.sheet = Some([first, second]),
                _ => return Err(OF_SHEET.to_string()),
            },
            ("--hours", value) => match value.or_else(|| words.next()) {
                Some(file) if !file.is_empty() && taken.hours.is_none() => taken.hours = Some(file),
                _ => return Err(OF_HOURS.to_string()),
            },
            _ => return Err(format!("no such option: {word}")),
        }
    }
    let asked = taken.solver.is_some() || taken.exit_code || taken.hours.is_some();
    if taken.sheet.is_some() && (asked || taken.files.len() != 1) {
        return Err(OF_SHEET.to_string());
    }
    // Files that are missing altogether are the command's to tell.
    let same = taken
        .hours
        .map_or(false, |hours| taken.files.contains(&hours));
    if taken.hours.is_some() && (same || taken.files.len() > 1) {
        return Err(OF_HOURS.to_string());
    }
    Ok(taken)
}
