//! Random books and hours for tests, the same in every run.

use super::parse::UNUSED;
use lunthegyr::{Hours, Window, WEEK_MINUTES, WINDOWS_MOST};

/// Numbers that look random (xorshift).
pub struct Random(u64);

impl Random {
    pub fn new() -> Random {
        Random(0x9E37_79B9_7F4A_7C15)
    }

    /// A number below another.
    pub fn below(&mut self, most: usize) -> usize {
        self.0 ^= self.0 << 13;
        self.0 ^= self.0 >> 7;
        self.0 ^= self.0 << 17;
        (self.0 >> 16) as usize % most
    }

    /// The bytes of a book within the ranges: any letters, fields in any order, and fields that no symbol is. Some have all letters of a word
    /// of the text form, and templates with them in a row.
    pub fn book(&mut self) -> Vec<u8> {
        let mut letters = match self.below(4) {
            // Those of `unused`.
            0 => b"densu".to_vec(),
            _ => vec![self.letter()],
        };
        for _ in 0..self.below(9 - letters.len()) {
            letters.push(self.letter());
        }
        letters.sort_unstable();
        letters.dedup();
        let mut book = b"TPB\x00\x01".to_vec();
        book.push(letters.len() as u8);
        book.extend(&letters);
        let templates = 1 + self.below(16);
        book.push(templates as u8);
        for _ in 0..templates {
            self.template(&letters, &mut book);
        }
        book
    }

    /// Any letter, and often one that is special in the text form, or that could be taken for a part of it.
    fn letter(&mut self) -> u8 {
        match self.below(2) {
            0 => 33 + self.below(94) as u8,
            _ => b"{}=#\\(),;-14\"'"[self.below(14)],
        }
    }

    fn template(&mut self, letters: &[u8], book: &mut Vec<u8>) {
        let limits: Vec<u8> = (0..self.below(4)).map(|_| self.below(9) as u8).collect();
        let number = |letter| letters.iter().position(|&own| own == letter);
        let word: Option<Vec<usize>> = UNUSED.bytes().map(number).collect();
        let word = word.filter(|_| self.below(2) == 0).unwrap_or_default();
        let (mut symbols, mut wide) = (Vec::new(), word.len() as u8);
        for _ in 0..self.below(13 - word.len()) {
            let (symbol, width) = match self.below(2) {
                0 if !limits.is_empty() => {
                    let field = self.below(limits.len());
                    (128 + field as u8, limits[field])
                }
                _ => (self.below(letters.len()) as u8, 1),
            };
            if wide + width <= 24 {
                symbols.push(symbol);
                wide += width;
            }
        }
        let at = self.below(symbols.len() + 1);
        symbols.splice(at..at, word.iter().map(|&number| number as u8));
        book.push(limits.len() as u8);
        book.extend(&limits);
        book.push(symbols.len() as u8);
        book.extend(&symbols);
    }

    /// Windows of a template within the ranges, in order: some touch, some are long. With a week of few minutes many templates share some.
    pub fn windows(&mut self) -> Vec<Window> {
        let week = [12, usize::from(WEEK_MINUTES)][self.below(2)];
        let mut minutes: Vec<u16> = (0..2 * self.below(WINDOWS_MOST + 1))
            .map(|_| self.below(week + 1) as u16)
            .collect();
        minutes.sort_unstable();
        let windows = minutes.chunks(2).map(|ends| Window {
            start: ends[0],
            end: ends[1],
        });
        windows.filter(|window| window.start < window.end).collect()
    }

    /// The bytes of hours for so many templates.
    pub fn hours(&mut self, templates: usize) -> Vec<u8> {
        let windows: Vec<Vec<Window>> = (0..templates).map(|_| self.windows()).collect();
        Hours::bytes_of(&windows)
    }

    /// Changes, cuts or lengthens bytes somewhere.
    pub fn damage(&mut self, bytes: &mut Vec<u8>) {
        let at = self.below(bytes.len());
        match self.below(4) {
            0 => bytes.truncate(at),
            1 => bytes.push(self.below(256) as u8),
            2 => bytes[at] = self.below(256) as u8,
            // Near to what it was, so that it is often still a book, or hours.
            _ => bytes[at] = bytes[at].wrapping_add(self.below(5) as u8).wrapping_sub(2),
        }
    }
}
