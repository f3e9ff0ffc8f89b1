//! An accepted book, which of its templates clash, and the question that any two of them make.

use crate::answers::{listed, Clashing};
use crate::{calls, Refusal, Sheet, FIELD_SYMBOL};

/// Where a book's letter count stands.
const LETTER_COUNT_AT: usize = 5;

/// The bytes of a book that the engine accepts, and its answer: which of its templates clash.
///
/// A book has all templates of a shop. Each template has fields of its own: those of two templates are different fields, also where they
/// have the same number. The repository's `docs/02-change-requests.md`, No. 3, defines a book's bytes.
#[derive(Clone, Debug, PartialEq, Eq, Hash)]
pub struct Book {
    bytes: Vec<u8>,
    /// Where each template starts.
    starts: Vec<usize>,
    clashes: Vec<Clashing>,
}

/// A template of a book.
#[derive(Clone, Copy, Debug, PartialEq, Eq, Hash)]
pub struct Template<'a> {
    /// The limit of each of its fields: the most letters that the field's text may have.
    pub limits: &'a [u8],
    /// Its symbols: a letter's number, or [`FIELD_SYMBOL`] plus the number of one of its own fields.
    pub symbols: &'a [u8],
}

impl Book {
    /// Reads a book of any bytes, and asks about every two of its templates; the engine has one call for both. Refusals: 40 and 41; not 42,
    /// since the buffer that is lent to the engine is always long enough.
    ///
    /// ```
    /// use lunthegyr::{Book, Clashing, Refusal};
    ///
    /// // One letter, A; three templates: a field of at most one letter, A, and AA.
    /// let book = Book::read(*b"TPB\x00\x01\x01A\x03\x01\x01\x01\x80\x00\x01\x00\x00\x02\x00\x00")?;
    /// assert_eq!(book.clashes(), [Clashing { first: 0, second: 1 }]); // the field can be A, and never AA
    /// assert_eq!(Book::read(*b"TPL").map_err(|refusal| refusal.number()), Err(40));
    /// # Ok::<(), Refusal>(())
    /// ```
    pub fn read(bytes: impl Into<Vec<u8>>) -> Result<Book, Refusal> {
        let bytes = bytes.into();
        let clashes = listed(|list| calls::book(&bytes, list))?;
        Ok(Book {
            starts: starts(&bytes),
            bytes,
            clashes,
        })
    }

    /// Its bytes.
    pub fn bytes(&self) -> &[u8] {
        &self.bytes
    }

    /// Its letters; a letter's number is its place among them.
    pub fn letters(&self) -> &[u8] {
        counted(&self.bytes[LETTER_COUNT_AT..])
    }

    /// How many templates it has, 1 to 16.
    pub fn templates(&self) -> usize {
        self.starts.len()
    }

    /// One of its templates, which count from 0.
    ///
    /// ```
    /// let book = lunthegyr::Book::read(*b"TPB\x00\x01\x01A\x02\x01\x08\x02\x00\x80\x00\x00")?;
    /// assert_eq!(book.template(0).limits, [8]);
    /// assert_eq!(book.template(0).symbols, [0, 128]); // A and field 0
    /// assert!(book.template(1).symbols.is_empty());
    /// # Ok::<(), lunthegyr::Refusal>(())
    /// ```
    ///
    /// # Panics
    ///
    /// Where `number` is not below [`templates`](Book::templates).
    pub fn template(&self, number: usize) -> Template<'_> {
        template(&self.bytes[self.starts[number]..])
    }

    /// The pairs of templates that clash, all of them and no others: each once, by the first template and then by the second. Which of them also share
    /// a minute [`Hours`](crate::Hours) tell.
    pub fn clashes(&self) -> &[Clashing] {
        &self.clashes
    }

    /// The question that two templates make: the sheet with the book's letters, the fields of the first and then those of the second, one
    /// pair of templates with the first on the left and the second on the right, and no rule. The two are among [`clashes`](Book::clashes)
    /// just where its [`search`](Sheet::search) finds a clash.
    ///
    /// ```
    /// let book = lunthegyr::Book::read(*b"TPB\x00\x01\x01A\x02\x01\x08\x02\x00\x80\x01\x02\x02\x00\x80")?;
    /// let sheet = book.question(0, 1);
    /// assert_eq!(sheet.bytes(), b"TPL\x00\x01\x01\x02\x01\x00A\x08\x02\x02\x02\x00\x80\x00\x81");
    /// assert_eq!(sheet.search().is_some(), !book.clashes().is_empty());
    /// # Ok::<(), lunthegyr::Refusal>(())
    /// ```
    ///
    /// # Panics
    ///
    /// Where `first` is not below `second`, or `second` not below [`templates`](Book::templates).
    pub fn question(&self, first: usize, second: usize) -> Sheet {
        assert!(
            first < second && second < self.templates(),
            "the question of the templates {first} and {second} of {}",
            self.templates()
        );
        let [left, right] = [first, second].map(|number| self.template(number));
        let count = |bytes: &[u8]| bytes.len() as u8;
        let fields = count(left.limits) + count(right.limits);
        let after_left = |&symbol: &u8| match symbol < FIELD_SYMBOL {
            true => symbol,
            false => symbol + count(left.limits),
        };
        let mut bytes = b"TPL\x00\x01".to_vec();
        bytes.extend([count(self.letters()), fields, 1, 0]);
        bytes.extend(self.letters());
        bytes.extend(left.limits);
        bytes.extend(right.limits);
        bytes.extend([count(left.symbols), count(right.symbols)]);
        bytes.extend(left.symbols);
        bytes.extend(right.symbols.iter().map(after_left));
        Sheet::read(bytes).expect("what a book may have a sheet may have too")
    }
}

/// As many bytes as the first byte says, which they follow.
fn counted(bytes: &[u8]) -> &[u8] {
    &bytes[1..][..usize::from(bytes[0])]
}

/// The template with which bytes of an accepted book start.
fn template(bytes: &[u8]) -> Template<'_> {
    let limits = counted(bytes);
    let symbols = counted(&bytes[1 + limits.len()..]);
    Template { limits, symbols }
}

/// Where each template of an accepted book starts.
fn starts(bytes: &[u8]) -> Vec<usize> {
    let count_at = LETTER_COUNT_AT + 1 + usize::from(bytes[LETTER_COUNT_AT]);
    let next = |start: &usize| {
        let template = template(&bytes[*start..]);
        Some(start + 2 + template.limits.len() + template.symbols.len())
    };
    std::iter::successors(Some(count_at + 1), next)
        .take(usize::from(bytes[count_at]))
        .collect()
}

#[cfg(test)]
mod tests {
    use super::*;
    use crate::samples::BOOK;
    use crate::{BOOK_MOST, LIST_MOST, TEMPLATES_MOST, TEMPLATE_FIELDS_MOST};

    /// The bytes of an empty template.
    const EMPTY: &[u8] = &[0, 0];

    fn clashing(first: usize, second: usize) -> Clashing {
        Clashing { first, second }
    }

    /// A book of these templates over the letters A and B.
    fn book_of(templates: &[&[u8]]) -> Vec<u8> {
        let mut bytes = b"TPB\x00\x01\x02AB".to_vec();
        bytes.push(templates.len() as u8);
        bytes.extend(templates.concat());
        bytes
    }

    /// The largest book: 8 letters and 16 templates, each of three fields and twelve symbols.
    fn largest() -> Vec<u8> {
        let mut bytes = b"TPB\x00\x01\x08ABCDEFGH\x10".to_vec();
        for number in 0..16 {
            bytes.extend([3, 5, 5, 5, 12]);
            bytes.extend([number / 4, number % 4, 0, 1, 2, 3, 4, 5, 6, 128, 129, 130]);
        }
        bytes
    }

    #[test]
    fn an_accepted_book_keeps_its_bytes_and_parts() {
        let book = Book::read(BOOK).unwrap();
        assert_eq!(book.bytes(), BOOK);
        assert_eq!(book.letters(), b"AB");
        assert_eq!(book.templates(), 4);
        let parts: [(&[u8], &[u8]); 4] = [
            (&[1], &[0, 128]),
            (&[2, 1], &[129, 128, 0]),
            (&[], &[1]),
            (&[1, 1, 2], &[128, 130, 0, 1, 0]),
        ];
        for (number, (limits, symbols)) in parts.into_iter().enumerate() {
            assert_eq!(book.template(number), Template { limits, symbols });
        }
    }

    #[test]
    fn the_largest_book_is_accepted_and_a_byte_more_is_not() {
        let mut bytes = largest();
        assert_eq!(bytes.len(), BOOK_MOST);
        let book = Book::read(bytes.clone()).unwrap();
        assert_eq!(book.templates(), TEMPLATES_MOST);
        assert_eq!(book.template(15).limits.len(), TEMPLATE_FIELDS_MOST);
        assert!(book.clashes().is_empty());
        bytes.push(0);
        assert_eq!(Book::read(bytes), Err(Refusal::BookFault));
    }

    #[test]
    fn a_refused_book_is_none() {
        assert_eq!(Book::read([]), Err(Refusal::BookMark));
        assert_eq!(Book::read(*b"TPB\x00"), Err(Refusal::BookMark));
        assert_eq!(Book::read(*b"TPL\x00\x01"), Err(Refusal::BookMark));
        assert_eq!(Book::read(*b"TPB\x00\x02"), Err(Refusal::BookMark));
        assert_eq!(Book::read(*b"TPB\x00\x01"), Err(Refusal::BookFault));
    }

    #[test]
    fn clashes_are_listed_by_the_first_template_and_then_by_the_second() {
        let due = [clashing(0, 1), clashing(1, 3)];
        assert_eq!(Book::read(BOOK).unwrap().clashes(), due);
        // Of sixteen empty templates all pairs clash, which is the longest list.
        let book = Book::read(book_of(&[EMPTY; 16])).unwrap();
        let due = (0..16).flat_map(|i| (i + 1..16).map(move |j| clashing(i, j)));
        assert_eq!(book.clashes(), due.collect::<Vec<_>>());
        assert_eq!(2 * book.clashes().len(), LIST_MOST);
    }

    #[test]
    fn a_book_of_one_template_has_no_pairs() {
        let book = Book::read(book_of(&[&[0, 1, 0]])).unwrap();
        assert!(book.clashes().is_empty());
    }

    #[test]
    fn a_question_has_both_templates_fields() {
        let question = Book::read(BOOK).unwrap().question(1, 3);
        assert_eq!(
            question.bytes(),
            b"TPL\x00\x01\x02\x05\x01\x00AB\x02\x01\x01\x01\x02\x03\x05\x81\x80\x00\x82\x84\x00\x01\x00"
        );
    }

    #[test]
    fn the_questions_have_clashes_just_where_the_book_lists_them() {
        for bytes in [BOOK.to_vec(), largest()] {
            let book = Book::read(bytes).unwrap();
            for second in 0..book.templates() {
                for first in 0..second {
                    let listed = book.clashes().contains(&clashing(first, second));
                    let found = book.question(first, second).search();
                    assert_eq!(found.is_some(), listed, "{first} and {second}");
                }
            }
        }
    }

    #[test]
    #[should_panic(expected = "the question of the templates 1 and 1 of 4")]
    fn a_template_makes_no_question_with_itself() {
        Book::read(BOOK).unwrap().question(1, 1);
    }

    #[test]
    #[should_panic(expected = "the question of the templates 0 and 4 of 4")]
    fn a_template_that_is_not_there_makes_no_question() {
        Book::read(BOOK).unwrap().question(0, 4);
    }
}
