//! One line of a text, read from left to right.

use crate::letters::SPECIAL;
use crate::source::{Fault, Place};

pub struct Line {
    chars: Vec<char>,
    number: usize,
    at: usize,
}

/// The longest number that is read, in digits.
const MOST_DIGITS: usize = 6;

impl Line {
    /// A line of a number, without its comment: from a `#` on that starts the line or stands after a space.
    pub fn new(text: &str, number: usize) -> Line {
        let mut chars: Vec<char> = Vec::new();
        for c in text.chars() {
            let starts = chars.last().map_or(true, |last| last.is_whitespace());
            if c == '#' && starts {
                break;
            }
            chars.push(c);
        }
        Line {
            chars,
            number,
            at: 0,
        }
    }

    pub fn place(&self) -> Place {
        Place {
            line: self.number,
            column: self.at + 1,
        }
    }

    /// What is wrong here.
    pub fn fault<T>(&self, message: impl Into<String>) -> Result<T, Fault> {
        fault_at(self.place(), message)
    }

    /// The next character that is no space, which is not passed.
    pub fn peek(&mut self) -> Option<char> {
        while self.chars.get(self.at).map_or(false, |c| c.is_whitespace()) {
            self.at += 1;
        }
        self.chars.get(self.at).copied()
    }

    /// Passes a character that was seen.
    pub fn pass(&mut self) {
        self.at += 1;
    }

    /// Passes a sign if it comes next.
    pub fn passes(&mut self, sign: char) -> bool {
        let next = self.peek() == Some(sign);
        if next {
            self.pass();
        }
        next
    }

    /// Passes a word if it comes next and stands whole: after a space, and before a space, a `{` or the end of the line.
    pub fn passes_word(&mut self, word: &str) -> bool {
        self.peek();
        let (before, rest) = self.chars.split_at(self.at);
        let starts = before.last().map_or(true, |c| c.is_whitespace());
        let same = word.chars().eq(rest.iter().copied().take(word.len()));
        let next = rest.get(word.len());
        let whole = starts && same && next.map_or(true, |&c| c.is_whitespace() || c == '{');
        if whole {
            self.at += word.len();
        }
        whole
    }

    /// Passes a sign, or says what it is needed for.
    pub fn expect(&mut self, sign: char, why: &str) -> Result<(), Fault> {
        match self.passes(sign) {
            true => Ok(()),
            false => self.expected(&format!("`{sign}` {why}")),
        }
    }

    /// Says that something else was expected than what comes next.
    pub fn expected<T>(&mut self, what: &str) -> Result<T, Fault> {
        let found = self.found();
        self.fault(format!("expected {what}, and found {found}"))
    }

    /// What is left of the line, with one space where there are several.
    pub fn rest(&self) -> String {
        let rest: String = self.chars[self.at..].iter().collect();
        rest.split_whitespace().collect::<Vec<_>>().join(" ")
    }

    /// The end of the line, or what stands before it.
    pub fn end(&mut self, after: &str) -> Result<(), Fault> {
        match self.peek() {
            None => Ok(()),
            Some(_) => self.expected(&format!("nothing more after {after}")),
        }
    }

    /// What comes next, in words.
    fn found(&mut self) -> String {
        match self.peek() {
            None => "the end of the line".to_string(),
            // No byte moves the terminal's place.
            Some(c) if c.is_control() => format!("`{}`", c.escape_debug()),
            Some(c) => format!("`{c}`"),
        }
    }

    /// A word of letters, digits and underlines that does not start with a digit; empty if none comes next.
    pub fn word(&mut self) -> String {
        let starts = self
            .peek()
            .map_or(false, |c| c.is_ascii_alphabetic() || c == '_');
        if !starts {
            return String::new();
        }
        self.run(|c| c.is_ascii_alphanumeric() || c == '_')
    }

    /// Such a word, with dashes in it or after it too.
    pub fn dashed(&mut self) -> String {
        let word = self.word();
        match word.is_empty() {
            true => word,
            false => word + &self.run(|c| c.is_ascii_alphanumeric() || c == '_' || c == '-'),
        }
    }

    /// The name of a field, and where it stands.
    pub fn field_name(&mut self) -> Result<(String, Place), Fault> {
        self.peek();
        let place = self.place();
        let name = self.word();
        match name.is_empty() {
            true => self.expected("a field's name"),
            false => Ok((name, place)),
        }
    }

    /// The limit of a field of this name.
    pub fn limit(&mut self, name: &str) -> Result<u64, Fault> {
        match self.number()? {
            Some(limit) => Ok(limit as u64),
            None => self.expected(&format!(
                "the limit of `{name}`, the most letters of its text"
            )),
        }
    }

    /// A number without a sign, if one comes next.
    pub fn number(&mut self) -> Result<Option<i64>, Fault> {
        self.peek();
        let place = self.place();
        let digits = self.digits();
        if digits.len() > MOST_DIGITS {
            return fault_at(place, format!("a number of more than {MOST_DIGITS} digits"));
        }
        Ok(digits.parse().ok())
    }

    /// The digits that come next, of which there may be none.
    pub fn digits(&mut self) -> String {
        self.peek();
        self.run(|c| c.is_ascii_digit())
    }

    fn run(&mut self, belongs: fn(char) -> bool) -> String {
        let rest = self.chars[self.at..].iter().copied();
        let run: String = rest.take_while(|&c| belongs(c)).collect();
        self.at += run.chars().count();
        run
    }

    /// The letter that comes next, after a backslash if it is special.
    pub fn letter(&mut self) -> Result<u8, Fault> {
        let place = self.place();
        let escaped = self.passes('\\');
        // A space after a backslash is no letter.
        let next = self.chars.get(self.at).copied();
        match next {
            Some(c) if !c.is_ascii_graphic() => fault_at(
                place,
                format!(
                    "`{}` is no letter: letters are the visible ASCII characters",
                    c.escape_debug()
                ),
            ),
            Some(c) if SPECIAL.contains(c) && !escaped => fault_at(
                place,
                format!("`{c}` has a meaning of its own here; write `\\{c}` for the letter"),
            ),
            Some(c) => {
                self.pass();
                Ok(c as u8)
            }
            None => fault_at(place, "a backslash at the end of the line".to_string()),
        }
    }
}

pub fn fault_at<T>(place: Place, message: impl Into<String>) -> Result<T, Fault> {
    Err(Fault {
        place,
        message: message.into(),
    })
}
