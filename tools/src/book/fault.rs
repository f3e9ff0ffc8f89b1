//! Where a book that the engine refuses is at fault, and what is wrong there. The engine refuses a book by one of two numbers, and does not say
//! more; a walk through the bytes here finds the rest. What a book may have is not judged by it: it is asked only of books that are refused.

use super::form::OPENING;
use crate::walk::{self, Walk};
use lunthegyr::{Refusal, FIELD_SYMBOL};

/// What is wrong with a book.
#[derive(Clone, Copy, PartialEq)]
pub enum Broken {
    /// The mark or the version, or they are not whole.
    Opening,
    /// The book ends where a byte is needed.
    Missing,
    LeftOver,
    TemplateCount,
    FieldCount,
    /// A rule that sheets have too.
    OfSheet(Refusal),
}

impl Broken {
    /// The refusal's number, what is wrong in words, and a note if there is one.
    pub fn told(self, refusal: Refusal, note: &str) -> String {
        walk::told(refusal, self.words(), note)
    }

    fn words(self) -> &'static str {
        match self {
            Broken::Opening => Refusal::BookMark.words(),
            Broken::Missing => "the book ends before all that its counts announce has come",
            Broken::LeftOver => "the book goes on after all that its counts announce has come",
            Broken::TemplateCount => "the template count is not 1 to 16",
            Broken::FieldCount => "a template's field count is not 0 to 3",
            Broken::OfSheet(refusal) => refusal.words(),
        }
    }
}

/// The first fault on a walk through a book's bytes, and the offset of the byte where it is met.
pub fn first(book: &[u8]) -> Option<(usize, Broken)> {
    let mut walk = Walk::new(book, Broken::Missing);
    let broken = walk.whole().err()?;
    Some((walk.at, broken))
}

impl Walk<'_, Broken> {
    fn whole(&mut self) -> Result<(), Broken> {
        self.opening(OPENING, Broken::Opening)?;
        let letters = self.count(
            1,
            lunthegyr::LETTERS_MOST,
            Broken::OfSheet(Refusal::LetterCount),
        )?;
        let mut least = 33;
        for _ in 0..letters {
            let rises = |letter| (least..=126).contains(&letter);
            least = 1 + self.byte(rises, Broken::OfSheet(Refusal::Letter))?;
        }
        let templates = self.count(1, lunthegyr::TEMPLATES_MOST, Broken::TemplateCount)?;
        for _ in 0..templates {
            self.template(letters)?;
        }
        self.end(Broken::LeftOver)
    }

    fn template(&mut self, letters: usize) -> Result<(), Broken> {
        let fields = self.count(0, lunthegyr::TEMPLATE_FIELDS_MOST, Broken::FieldCount)?;
        let mut limits = Vec::new();
        for _ in 0..fields {
            limits.push(self.count(0, lunthegyr::FIELD_PLACES, Broken::OfSheet(Refusal::Limit))?);
        }
        let symbols = self.count(
            0,
            lunthegyr::SYMBOLS_MOST,
            Broken::OfSheet(Refusal::SymbolCount),
        )?;
        let width = |symbol: u8| match symbol.checked_sub(FIELD_SYMBOL) {
            Some(field) => limits.get(usize::from(field)).copied(),
            None => (usize::from(symbol) < letters).then(|| 1),
        };
        let mut wide = 0;
        for _ in 0..symbols {
            let symbol = self.byte(
                |symbol| width(symbol).is_some(),
                Broken::OfSheet(Refusal::Symbol),
            )?;
            wide += width(symbol).unwrap_or(0);
        }
        if wide > lunthegyr::TEXT_MOST {
            // Met at the last symbol.
            self.at -= 1;
            return Err(Broken::OfSheet(Refusal::Width));
        }
        Ok(())
    }
}

#[cfg(test)]
mod tests {
    use super::super::random::Random;
    use super::*;
    use lunthegyr::Book;

    #[test]
    fn damaged_books_have_a_fault_just_where_the_engine_refuses_them() {
        let mut random = Random::new();
        let mut refused = [0; 3];
        for _ in 0..4000 {
            let mut book = random.book();
            for _ in 0..random.below(3) {
                if !book.is_empty() {
                    random.damage(&mut book);
                }
            }
            let number = Book::read(book.clone()).err().map(Refusal::number);
            let found = first(&book);
            let due = found.map(|(_, broken)| match broken {
                Broken::Opening => 40,
                _ => 41,
            });
            assert_eq!(due, number, "{book:?}");
            assert!(found.map_or(true, |(offset, _)| offset <= book.len()));
            refused[number.map_or(0, |number| usize::from(number) - 39)] += 1;
        }
        assert!(refused.iter().all(|&times| times > 50), "{refused:?}");
    }

    #[test]
    fn a_fault_is_met_at_its_byte() {
        // Letters A and B; A and field 0 of limit 8; an empty template.
        const BOOK: &[u8] = b"TPB\x00\x01\x02AB\x02\x01\x08\x02\x00\x80\x00\x00";
        assert!(first(BOOK).is_none());
        let with = |offset: usize, byte: u8| {
            let mut book = BOOK.to_vec();
            book[offset] = byte;
            first(&book)
        };
        let of_sheet = |refusal| Broken::OfSheet(refusal);
        let faults = [
            (0, b'X', Broken::Opening),
            (4, 2, Broken::Opening),
            (5, 0, of_sheet(Refusal::LetterCount)),
            (5, 9, of_sheet(Refusal::LetterCount)),
            (6, 32, of_sheet(Refusal::Letter)),
            (7, b'A', of_sheet(Refusal::Letter)),
            (7, 127, of_sheet(Refusal::Letter)),
            (8, 0, Broken::TemplateCount),
            (8, 17, Broken::TemplateCount),
            (9, 4, Broken::FieldCount),
            (10, 9, of_sheet(Refusal::Limit)),
            (11, 13, of_sheet(Refusal::SymbolCount)),
            (12, 2, of_sheet(Refusal::Symbol)),
            (13, 129, of_sheet(Refusal::Symbol)),
        ];
        for (offset, byte, broken) in faults {
            assert!(with(offset, byte) == Some((offset, broken)), "{offset}");
        }
        for end in 0..BOOK.len() {
            let broken = if end < 5 {
                Broken::Opening
            } else {
                Broken::Missing
            };
            assert!(first(&BOOK[..end]) == Some((end, broken)), "{end}");
        }
        let longer = [BOOK, &[0]].concat();
        assert!(first(&longer) == Some((BOOK.len(), Broken::LeftOver)));
        // Field 0 four times is 32 wide.
        let wide = b"TPB\x00\x01\x01A\x02\x01\x08\x04\x80\x80\x80\x80\x00\x00";
        assert!(first(wide) == Some((14, of_sheet(Refusal::Width))));
    }
}
