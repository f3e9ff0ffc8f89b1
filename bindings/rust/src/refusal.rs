//! The refusals, with the numbers of document 01 and, of books and hours, of document 02, and with words for a person who writes sheets and books.

use std::fmt;

/// Why a call refused what it was given. The first that applies is given, in the order of documents 01 and 02.
#[derive(Clone, Copy, Debug, PartialEq, Eq, Hash)]
pub enum Refusal {
    /// 1: the sheet has fewer than 9 bytes.
    UnderNineBytes = 1,
    /// 2: the sheet does not start with the bytes TPL.
    Mark = 2,
    /// 3: the version is not 1.
    Version = 3,
    /// 4: the letter count is out of range.
    LetterCount = 4,
    /// 5: the field count is out of range.
    FieldCount = 5,
    /// 6: the pair count is out of range.
    PairCount = 6,
    /// 7: the rule count is out of range.
    RuleCount = 7,
    /// 8: the sheet ends too early.
    ByteMissing = 8,
    /// 9: the sheet goes on after its end.
    BytesLeftOver = 9,
    /// 10: a letter is out of range or not rising.
    Letter = 10,
    /// 11: a limit is out of range.
    Limit = 11,
    /// 12: a symbol count is out of range.
    SymbolCount = 12,
    /// 13: a symbol is no letter's and no field's.
    Symbol = 13,
    /// 14: a template is too wide.
    Width = 14,
    /// 15: a coefficient is out of range.
    Coefficient = 15,
    /// 20: the filling has another size than the sheet's fields ask for.
    FillingSize = 20,
    /// 21: a length is above the field's limit.
    Length = 21,
    /// 22: a letter number is no letter's.
    LetterNumber = 22,
    /// 23: a place past the length is not 255.
    PastTheLength = 23,
    /// 24: no pair has the number.
    PairNumber = 24,
    /// 25: no side has the number.
    Side = 25,
    /// 26: the buffer is shorter than the text.
    BufferTooShort = 26,
    /// 27: the buffer is shorter than a filling.
    BufferBelowFilling = 27,
    /// 28: no line has the number.
    LineNumber = 28,
    /// 29: the buffer is shorter than the line, or than the file.
    BufferBelowLine = 29,
    /// 30: the reply is too long.
    ReplySize = 30,
    /// 31: the reply's last line does not end.
    LineEnd = 31,
    /// 32: a line of the reply has no known form.
    UnknownLine = 32,
    /// 33: the reply has not just one s line, or a v line before it.
    StatusLine = 33,
    /// 34: the reply has no number 0, or a number after it.
    Zero = 34,
    /// 35: a number of the reply is no variable's.
    VariableNumber = 35,
    /// 36: the reply gives a variable twice.
    VariableTwice = 36,
    /// 37: a place of a field has not just one true value.
    PlaceValue = 37,
    /// 38: a letter stands after a blank in a field.
    LetterAfterBlank = 38,
    /// 39: the reply's filling does not clash.
    NoClash = 39,
    /// 40: the book has fewer than 5 bytes, or another mark or version.
    BookMark = 40,
    /// 41: something else is wrong with the book.
    BookFault = 41,
    /// 42: the buffer is shorter than the list.
    BufferBelowList = 42,
    /// 43: the hours have another mark or version, too many windows, or another size than the book's templates ask for.
    HoursFault = 43,
    /// 44: a window is empty or goes past the week.
    Window = 44,
    /// 45: a window starts before the preceding one ends.
    WindowOrder = 45,
}

impl Refusal {
    /// All refusals, by rising number.
    pub const ALL: [Refusal; 41] = [
        Refusal::UnderNineBytes,
        Refusal::Mark,
        Refusal::Version,
        Refusal::LetterCount,
        Refusal::FieldCount,
        Refusal::PairCount,
        Refusal::RuleCount,
        Refusal::ByteMissing,
        Refusal::BytesLeftOver,
        Refusal::Letter,
        Refusal::Limit,
        Refusal::SymbolCount,
        Refusal::Symbol,
        Refusal::Width,
        Refusal::Coefficient,
        Refusal::FillingSize,
        Refusal::Length,
        Refusal::LetterNumber,
        Refusal::PastTheLength,
        Refusal::PairNumber,
        Refusal::Side,
        Refusal::BufferTooShort,
        Refusal::BufferBelowFilling,
        Refusal::LineNumber,
        Refusal::BufferBelowLine,
        Refusal::ReplySize,
        Refusal::LineEnd,
        Refusal::UnknownLine,
        Refusal::StatusLine,
        Refusal::Zero,
        Refusal::VariableNumber,
        Refusal::VariableTwice,
        Refusal::PlaceValue,
        Refusal::LetterAfterBlank,
        Refusal::NoClash,
        Refusal::BookMark,
        Refusal::BookFault,
        Refusal::BufferBelowList,
        Refusal::HoursFault,
        Refusal::Window,
        Refusal::WindowOrder,
    ];

    /// Its number in document 01 or 02.
    pub fn number(self) -> u8 {
        self as u8
    }

    /// The refusal that has a number, if one has.
    ///
    /// ```
    /// use lunthegyr::Refusal;
    ///
    /// assert_eq!(Refusal::from_number(14), Some(Refusal::Width));
    /// assert_eq!(Refusal::from_number(16), None);
    /// ```
    pub fn from_number(number: u8) -> Option<Refusal> {
        Refusal::ALL
            .into_iter()
            .find(|refusal| refusal.number() == number)
    }

    /// What is wrong, in words, with the ranges of documents 01 and 02.
    pub fn words(self) -> &'static str {
        match self {
            Refusal::UnderNineBytes => "the sheet has fewer than 9 bytes",
            Refusal::Mark => "the sheet does not start with the three bytes TPL",
            Refusal::Version => "the version, which is the two bytes after TPL, is not 1",
            Refusal::LetterCount => "the letter count is not 1 to 8",
            Refusal::FieldCount => "the field count is not 0 to 6",
            Refusal::PairCount => "the pair count is not 1 to 4",
            Refusal::RuleCount => "the rule count is not 0 to 4",
            Refusal::ByteMissing => "the sheet ends before all that its counts announce has come",
            Refusal::BytesLeftOver => "the sheet goes on after all that its counts announce has come",
            Refusal::Letter => "a letter is not a byte from 33 to 126, or is not above the letter before it",
            Refusal::Limit => "a field's limit is not 0 to 8",
            Refusal::SymbolCount => "a template's symbol count is not 0 to 12",
            Refusal::Symbol => "a symbol is neither a letter's number nor 128 plus a field's number",
            Refusal::Width => {
                "a template is wider than 24: its letters, plus the limit of each field as often as the field stands in it"
            }
            Refusal::Coefficient => "a rule's coefficient is not -4 to 4",
            Refusal::FillingSize => "the filling does not have 9 bytes for each field of the sheet",
            Refusal::Length => "a field's text is longer than the field's limit",
            Refusal::LetterNumber => "a field's text has a letter number that is not below the letter count",
            Refusal::PastTheLength => "a place past the length of a field's text is not 255",
            Refusal::PairNumber => "no pair has this number: pairs count from 0, up to the pair count less 1",
            Refusal::Side => "the side is not 0 (left) or 1 (right)",
            Refusal::BufferTooShort => "the buffer is shorter than the text; 24 bytes are always enough",
            Refusal::BufferBelowFilling => "the buffer is shorter than 9 bytes for each field; 54 bytes are always enough",
            Refusal::LineNumber => "no line has this number: lines count from 0 up to the clause count",
            Refusal::BufferBelowLine => {
                "the buffer is shorter than the line, for which 80 bytes are always enough, or than the clause file"
            }
            Refusal::ReplySize => "the reply has more than 65,536 bytes",
            Refusal::LineEnd => "the reply's last byte is not a line feed",
            Refusal::UnknownLine => {
                "a line of the reply does not start with c, is not `s SATISFIABLE`, and is not v and numbers, each after one space"
            }
            Refusal::StatusLine => "the reply does not have just one line `s SATISFIABLE`, or has a v line before it",
            Refusal::Zero => "the reply's v lines have no number 0, or a number after it",
            Refusal::VariableNumber => "the reply has a number above the variable count, or below minus that",
            Refusal::VariableTwice => "the reply gives a variable twice",
            Refusal::PlaceValue => "the reply does not make just one value true at some place of a field",
            Refusal::LetterAfterBlank => "the reply puts a letter after a blank in a field",
            Refusal::NoClash => "the filling that the reply gives does not clash",
            Refusal::BookMark => "the book does not start with the three bytes TPB and the version 1 in two bytes",
            Refusal::BookFault => {
                "a count, letter, limit, symbol or width of the book breaks its range, or bytes are missing or left over"
            }
            Refusal::BufferBelowList => {
                "the buffer is shorter than 2 bytes for each pair of templates that is listed; 240 bytes are always enough"
            }
            Refusal::HoursFault => {
                "the hours do not start with the three bytes TPH and the version 1 in two bytes, a template has more than 4 windows, or bytes are missing or left over for the book's templates"
            }
            Refusal::Window => "a window's start is not below its end, or its end is above 10,080, the minutes of a week",
            Refusal::WindowOrder => "a window starts before the preceding one of its template ends",
        }
    }
}

/// `refused`, the number, and the words.
impl fmt::Display for Refusal {
    fn fmt(&self, out: &mut fmt::Formatter) -> fmt::Result {
        write!(out, "refused {}: {}", self.number(), self.words())
    }
}

impl std::error::Error for Refusal {}

#[cfg(test)]
mod tests {
    use super::*;

    #[test]
    fn the_numbers_are_1_to_15_and_20_to_45() {
        let numbers: Vec<u8> = Refusal::ALL
            .iter()
            .map(|refusal| refusal.number())
            .collect();
        assert_eq!(numbers, (1..=15).chain(20..=45).collect::<Vec<u8>>());
    }

    #[test]
    fn a_number_leads_back_to_its_refusal() {
        for number in 0..=255 {
            let there = (1..=15).contains(&number) || (20..=45).contains(&number);
            let found = Refusal::from_number(number);
            assert_eq!(found.map(Refusal::number), Some(number).filter(|_| there));
        }
    }

    #[test]
    fn no_two_have_the_same_words() {
        for one in Refusal::ALL {
            for other in Refusal::ALL {
                assert_eq!(one == other, one.words() == other.words());
            }
        }
    }

    #[test]
    fn it_prints_its_number_and_words() {
        let error: Box<dyn std::error::Error> = Refusal::Coefficient.into();
        assert_eq!(
            error.to_string(),
            "refused 15: a rule's coefficient is not -4 to 4"
        );
    }
}
