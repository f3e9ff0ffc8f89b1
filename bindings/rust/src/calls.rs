//! The engine's ten calls, over any bytes and lent buffers. Each answers, or gives the first refusal in the order of documents 01 and 02,
//! with all that was lent to it as it was. They allocate nothing.

use crate::cause::WHY_NUMBERS;
use crate::engine;
use crate::status::{Call, OF_BOOK, OF_SHEET};
use crate::Refusal;

pub use crate::answers::{Checked, ClauseCounts, Counts, Searched};
pub use crate::cause::Cause;

/// Reads a sheet of any bytes: its counts, or one of the refusals 1 to 15.
///
/// ```
/// use lunthegyr::{calls, Refusal};
///
/// let mut sheet = *b"TPL\x00\x01\x01\x01\x01\x00A\x01\x01\x01\x80\x00";
/// assert_eq!(calls::read(&sheet)?.fields, 1);
/// sheet[0] = b'?';
/// assert_eq!(calls::read(&sheet), Err(Refusal::Mark));
/// # Ok::<(), Refusal>(())
/// ```
pub fn read(sheet: &[u8]) -> Result<Counts, Refusal> {
    const CALL: Call = Call {
        name: "tpl_read",
        greatest: 0,
        reads: OF_SHEET,
        own: &[],
    };
    let mut counts = [0; 4];
    CALL.outcome(engine::read(sheet, &mut counts))?;
    let [letters, fields, pairs, rules] = counts.map(|count| count as usize);
    Ok(Counts {
        letters,
        fields,
        pairs,
        rules,
    })
}

/// Checks a filling of any bytes: whether it clashes, and why if it does not; or one of the refusals 1 to 15 and 20 to 23.
///
/// ```
/// use lunthegyr::calls::{self, Cause, Checked};
/// use lunthegyr::Side;
///
/// let sheet = b"TPL\x00\x01\x01\x01\x01\x00A\x01\x01\x01\x80\x00";
/// let is_empty = [0, 255, 255, 255, 255, 255, 255, 255, 255];
/// let cause = Cause::PairDiffers { pair: 0, agreeing: 0, side: Side::Right, rest: 1 }; // nothing against A
/// assert_eq!(calls::check(sheet, &is_empty), Ok(Checked::NoClash(cause)));
/// ```
pub fn check(sheet: &[u8], filling: &[u8]) -> Result<Checked, Refusal> {
    const CALL: Call = Call {
        name: "tpl_check",
        greatest: 1,
        reads: OF_SHEET,
        own: &[20, 21, 22, 23],
    };
    let mut why = [0; WHY_NUMBERS];
    match CALL.outcome(engine::check(sheet, filling, &mut why))? {
        0 => Ok(Checked::NoClash(Cause::of(why))),
        _ => Ok(Checked::Clash),
    }
}

/// Spells the template of a pair (counted from 0) and a side (0 left, 1 right) under a filling, in the sheet's letters. Answers the text's
/// length, with the text in the first bytes of `text` and the later ones as they were; or one of the refusals 1 to 15 and 20 to 26.
/// A buffer of [`TEXT_MOST`](crate::TEXT_MOST) is always long enough.
///
/// ```
/// use lunthegyr::{calls, Refusal, TEXT_MOST};
///
/// let sheet = b"TPL\x00\x01\x01\x01\x01\x00A\x01\x01\x01\x80\x00";
/// let is_a = [1, 0, 255, 255, 255, 255, 255, 255, 255];
/// let mut text = [0; TEXT_MOST];
/// let length = calls::spell(sheet, 0, 1, &is_a, &mut text)?;
/// assert_eq!(text[..length], *b"A");
/// assert_eq!(calls::spell(sheet, 0, 2, &is_a, &mut text), Err(Refusal::Side));
/// # Ok::<(), Refusal>(())
/// ```
pub fn spell(
    sheet: &[u8],
    pair: u64,
    side: u64,
    filling: &[u8],
    text: &mut [u8],
) -> Result<usize, Refusal> {
    let call = Call {
        name: "tpl_spell",
        greatest: text.len(),
        reads: OF_SHEET,
        own: &[20, 21, 22, 23, 24, 25, 26],
    };
    call.outcome(engine::spell(sheet, pair, side, filling, text))
}

/// Searches a sheet for a filling that clashes. Answers [`Searched::Clash`] with the first such filling, in the order that
/// [`Sheet::search`](crate::Sheet::search) tells, in the first 9 bytes per field of `filling` and the later ones as they were; or
/// [`Searched::Apart`] or one of the refusals 1 to 15 and 27, with all bytes as they were. A buffer of
/// [`FILLING_MOST`](crate::FILLING_MOST) is always long enough. The slowest sheets that are known take some hundredths of a second.
///
/// ```
/// use lunthegyr::{calls, calls::Searched, FILLING_MOST};
///
/// let mut filling = [0; FILLING_MOST];
/// let searched = calls::search(b"TPL\x00\x01\x01\x01\x01\x00A\x01\x01\x01\x80\x00", &mut filling);
/// assert_eq!(searched, Ok(Searched::Clash));
/// assert_eq!(filling[..9], [1, 0, 255, 255, 255, 255, 255, 255, 255]);
/// ```
pub fn search(sheet: &[u8], filling: &mut [u8]) -> Result<Searched, Refusal> {
    const CALL: Call = Call {
        name: "tpl_search",
        greatest: 1,
        reads: OF_SHEET,
        own: &[27],
    };
    match CALL.outcome(engine::search(sheet, filling))? {
        0 => Ok(Searched::Apart),
        _ => Ok(Searched::Clash),
    }
}

/// Counts what is in a sheet's clause file, or gives one of the refusals 1 to 15.
///
/// ```
/// let counts = lunthegyr::calls::count(b"TPL\x00\x01\x01\x01\x01\x00A\x01\x01\x01\x80\x00")?;
/// assert_eq!((counts.variables, counts.clauses, counts.bytes), (6, 8, 69));
/// # Ok::<(), lunthegyr::Refusal>(())
/// ```
pub fn count(sheet: &[u8]) -> Result<ClauseCounts, Refusal> {
    const CALL: Call = Call {
        name: "tpl_count",
        greatest: 0,
        reads: OF_SHEET,
        own: &[],
    };
    let mut counts = [0; 3];
    CALL.outcome(engine::count(sheet, &mut counts))?;
    let [variables, clauses, bytes] = counts;
    Ok(ClauseCounts {
        variables,
        clauses,
        bytes,
    })
}

/// Writes one line of a sheet's clause file, with its line feed. Lines count from 0, `p cnf` and two counts, to the number of clauses.
/// Answers the line's length, with the line in the first bytes of `text` and the later ones as they were; or one of the refusals 1 to 15,
/// 28 and 29. A buffer of [`LINE_MOST`](crate::LINE_MOST) is always long enough.
///
/// ```
/// use lunthegyr::{calls, LINE_MOST};
///
/// let mut text = [0; LINE_MOST];
/// let length = calls::line(b"TPL\x00\x01\x01\x01\x01\x00A\x01\x01\x01\x80\x00", 0, &mut text)?;
/// assert_eq!(text[..length], *b"p cnf 6 8\n");
/// # Ok::<(), lunthegyr::Refusal>(())
/// ```
pub fn line(sheet: &[u8], line: u64, text: &mut [u8]) -> Result<usize, Refusal> {
    let call = Call {
        name: "tpl_line",
        greatest: text.len(),
        reads: OF_SHEET,
        own: &[28, 29],
    };
    call.outcome(engine::line(sheet, line, text))
}

/// Writes a sheet's whole clause file, all lines one after the other. Answers the file's length, which is the [`bytes`](ClauseCounts::bytes)
/// that [`count`] gives, with the file in the first bytes of `buffer` and the later ones as they were; or one of the refusals 1 to 15 and 29,
/// with all bytes as they were.
///
/// ```
/// use lunthegyr::calls;
///
/// let sheet = b"TPL\x00\x01\x01\x01\x01\x00A\x00\x01\x01\x80\x00";
/// let mut buffer = vec![0; calls::count(sheet)?.bytes as usize];
/// assert_eq!(calls::file(sheet, &mut buffer), Ok(19));
/// assert_eq!(buffer, b"p cnf 2 2\n1 0\n-1 0\n");
/// # Ok::<(), lunthegyr::Refusal>(())
/// ```
pub fn file(sheet: &[u8], buffer: &mut [u8]) -> Result<usize, Refusal> {
    let call = Call {
        name: "tpl_file",
        greatest: buffer.len(),
        reads: OF_SHEET,
        own: &[29],
    };
    call.outcome(engine::file(sheet, buffer))
}

/// Reads a SAT solver's reply to a sheet's clause file, and believes none of it: what is accepted is a filling that clashes. It is put
/// in the first 9 bytes per field of `filling`, and the later ones stay as they were. Or it gives one of the refusals 1 to 15, 27 and 30
/// to 39. A buffer of [`FILLING_MOST`](crate::FILLING_MOST) is always long enough.
///
/// ```
/// use lunthegyr::{calls, Refusal, FILLING_MOST};
///
/// let sheet = b"TPL\x00\x01\x01\x01\x01\x00A\x01\x01\x01\x80\x00";
/// let mut filling = [0; FILLING_MOST];
/// calls::reply(sheet, b"s SATISFIABLE\nv 1 -2 3 -4 -5 6 0\n", &mut filling)?;
/// assert_eq!(filling[..2], [1, 0]);
/// let lie = b"s SATISFIABLE\nv -1 2 3 -4 -5 6 0\n";
/// assert_eq!(calls::reply(sheet, lie, &mut filling), Err(Refusal::NoClash));
/// # Ok::<(), Refusal>(())
/// ```
pub fn reply(sheet: &[u8], reply: &[u8], filling: &mut [u8]) -> Result<(), Refusal> {
    const CALL: Call = Call {
        name: "tpl_reply",
        greatest: 0,
        reads: OF_SHEET,
        own: &[27, 30, 31, 32, 33, 34, 35, 36, 37, 38, 39],
    };
    CALL.outcome(engine::reply(sheet, reply, filling))?;
    Ok(())
}

/// Lists which templates of a book of any bytes clash. Answers how many pairs of templates do, each as two bytes in the first bytes of `list`,
/// in the order that [`Book::clashes`](crate::Book::clashes) tells, and the later ones as they were; or one of the refusals 40 to 42, with
/// all bytes as they were. A buffer of [`LIST_MOST`](crate::LIST_MOST) is always long enough.
///
/// ```
/// use lunthegyr::{calls, LIST_MOST};
///
/// // One letter, A; three templates: a field of at most one letter, A, and AA.
/// let book = b"TPB\x00\x01\x01A\x03\x01\x01\x01\x80\x00\x01\x00\x00\x02\x00\x00";
/// let mut list = [0; LIST_MOST];
/// let pairs = calls::book(book, &mut list)?;
/// assert_eq!(list[..2 * pairs], [0, 1]);
/// # Ok::<(), lunthegyr::Refusal>(())
/// ```
pub fn book(book: &[u8], list: &mut [u8]) -> Result<usize, Refusal> {
    let call = Call {
        name: "tpl_book",
        greatest: list.len() / 2,
        reads: OF_BOOK,
        own: &[42],
    };
    call.outcome(engine::book(book, list))
}

/// Lists which templates of a book of any bytes clash and share a minute, by hours of any bytes. Answers how many pairs of templates do, in `list`
/// as [`book`] has them; or one of the refusals 40 to 45, with all bytes as they were. A buffer of [`LIST_MOST`](crate::LIST_MOST) is
/// always long enough. [`Hours`](crate::Hours) tells what the bytes of hours are.
///
/// ```
/// use lunthegyr::{calls, Refusal, LIST_MOST};
///
/// // One letter, A; three templates, each a field of at most one letter: all of them clash.
/// let book = b"TPB\x00\x01\x01A\x03\x01\x01\x01\x80\x01\x01\x01\x80\x01\x01\x01\x80";
/// // The first is sent in the minutes 0 to 59 and 600 to 659, the second in 60 to 599, the third in 50 to 69.
/// let hours = b"TPH\x00\x01\x02\x00\x00\x00\x3C\x02\x58\x02\x94\x01\x00\x3C\x02\x58\x01\x00\x32\x00\x46";
/// let mut list = [0; LIST_MOST];
/// let pairs = calls::book_hours(book, hours, &mut list)?;
/// assert_eq!(list[..2 * pairs], [0, 2, 1, 2]);
/// assert_eq!(calls::book_hours(book, &hours[..9], &mut list), Err(Refusal::HoursFault));
/// # Ok::<(), Refusal>(())
/// ```
pub fn book_hours(book: &[u8], hours: &[u8], list: &mut [u8]) -> Result<usize, Refusal> {
    let call = Call {
        name: "tpl_book_hours",
        greatest: list.len() / 2,
        reads: OF_BOOK,
        own: &[42, 43, 44, 45],
    };
    call.outcome(engine::book_hours(book, hours, list))
}

#[cfg(test)]
mod tests {
    use super::*;
    use crate::samples::{sheet_of, BOOK, HOURS, P, PAIRS_AND_RULES, P_FILE};
    use crate::{Filling, Side};

    const IS_A: [u8; 9] = [1, 0, 255, 255, 255, 255, 255, 255, 255];
    const GOOD: &[u8] = b"s SATISFIABLE\nv 1 0\n";

    #[test]
    fn every_call_reads_the_sheet_first() {
        let refused = Refusal::PairCount;
        let mut sheet = P;
        sheet[7] = 0;
        assert_eq!(read(&sheet), Err(refused));
        assert_eq!(check(&sheet, &[]), Err(refused));
        assert_eq!(spell(&sheet, 9, 9, &[], &mut []), Err(refused));
        assert_eq!(search(&sheet, &mut []), Err(refused));
        assert_eq!(count(&sheet), Err(refused));
        assert_eq!(line(&sheet, 9, &mut []), Err(refused));
        assert_eq!(file(&sheet, &mut []), Err(refused));
        assert_eq!(reply(&sheet, &[], &mut []), Err(refused));
    }

    #[test]
    fn a_book_is_read_before_its_buffer_is_looked_at() {
        let mut marked = BOOK;
        marked[2] = b'L';
        assert_eq!(book(&marked, &mut []), Err(Refusal::BookMark));
        assert_eq!(book(&BOOK[..4], &mut []), Err(Refusal::BookMark));
        assert_eq!(book(&BOOK[..5], &mut []), Err(Refusal::BookFault));
        assert_eq!(
            book(&BOOK[..BOOK.len() - 1], &mut []),
            Err(Refusal::BookFault)
        );
        assert_eq!(book(&BOOK, &mut []), Err(Refusal::BufferBelowList));
    }

    #[test]
    fn a_book_comes_before_its_hours_and_both_before_the_buffer() {
        let refused = |book: &[u8], hours: &[u8]| book_hours(book, hours, &mut []);
        let short = &HOURS[..HOURS.len() - 1];
        assert_eq!(refused(&BOOK[..4], short), Err(Refusal::BookMark));
        assert_eq!(refused(&BOOK[..5], short), Err(Refusal::BookFault));
        assert_eq!(refused(&BOOK, &[]), Err(Refusal::HoursFault));
        assert_eq!(refused(&BOOK, short), Err(Refusal::HoursFault));
        let with = |offset: usize, byte: u8| {
            let mut hours = HOURS;
            hours[offset] = byte;
            refused(&BOOK, &hours)
        };
        assert_eq!(with(0, b'?'), Err(Refusal::HoursFault));
        assert_eq!(with(3, 1), Err(Refusal::HoursFault));
        assert_eq!(with(5, 5), Err(Refusal::HoursFault));
        // The first window of template 0 ends at 0; its second one starts a minute before the first ends.
        assert_eq!(with(9, 0), Err(Refusal::Window));
        assert_eq!(with(11, 59), Err(Refusal::WindowOrder));
        assert_eq!(refused(&BOOK, &HOURS), Err(Refusal::BufferBelowList));
    }

    #[test]
    fn a_buffer_that_is_too_short_stays_as_it_was() {
        let mut short = [b'.'; P_FILE.len() - 1];
        assert_eq!(file(&P, &mut short), Err(Refusal::BufferBelowLine));
        assert_eq!(short, [b'.'; P_FILE.len() - 1]);
        let mut buffer = [b'.'; 8];
        assert_eq!(book(&BOOK, &mut buffer[..3]), Err(Refusal::BufferBelowList));
        assert_eq!(
            book_hours(&BOOK, &HOURS, &mut buffer[..1]),
            Err(Refusal::BufferBelowList)
        );
        assert_eq!(
            spell(&P, 0, 0, &IS_A, &mut buffer[..0]),
            Err(Refusal::BufferTooShort)
        );
        assert_eq!(search(&P, &mut buffer), Err(Refusal::BufferBelowFilling));
        assert_eq!(line(&P, 0, &mut buffer), Err(Refusal::BufferBelowLine));
        assert_eq!(
            reply(&P, GOOD, &mut buffer),
            Err(Refusal::BufferBelowFilling)
        );
        assert_eq!(buffer, [b'.'; 8]);
    }

    #[test]
    fn the_bytes_after_an_answer_stay_as_they_were() {
        let mut text = [b'.'; 24];
        assert_eq!(spell(&P, 0, 0, &IS_A, &mut text), Ok(1));
        assert_eq!(text, *b"A.......................");
        let mut line_0 = [b'.'; 12];
        assert_eq!(line(&P, 0, &mut line_0), Ok(10));
        assert_eq!(line_0, *b"p cnf 6 8\n..");
        let mut whole = [b'.'; P_FILE.len() + 2];
        assert_eq!(file(&P, &mut whole), Ok(P_FILE.len()));
        assert_eq!(whole[..], [P_FILE, b".."].concat());
        let mut found = [b'.'; 11];
        assert_eq!(search(&P, &mut found), Ok(Searched::Clash));
        assert_eq!((&found[..9], &found[9..]), (&IS_A[..], &b".."[..]));
        let mut read = [b'.'; 11];
        assert_eq!(reply(&P, GOOD, &mut read), Ok(()));
        assert_eq!(read, found);
        let mut list = [b'.'; 6];
        assert_eq!(book(&BOOK, &mut list), Ok(2));
        assert_eq!(list, *b"\x00\x01\x01\x03..");
        let mut list = [b'.'; 4];
        assert_eq!(book_hours(&BOOK, &HOURS, &mut list), Ok(1));
        assert_eq!(list, *b"\x01\x03..");
    }

    #[test]
    fn buffers_that_are_just_long_enough_are_enough() {
        let mut exact = [0; 9];
        assert_eq!(search(&P, &mut exact), Ok(Searched::Clash));
        assert_eq!(reply(&P, GOOD, &mut exact), Ok(()));
        assert_eq!(spell(&P, 0, 1, &IS_A, &mut exact[..1]), Ok(1));
        let mut line_0 = [0; 10];
        assert_eq!(line(&P, 0, &mut line_0), Ok(10));
        let mut whole = [0; P_FILE.len()];
        assert_eq!(file(&P, &mut whole), Ok(P_FILE.len()));
        assert_eq!(whole, P_FILE);
        assert_eq!(book(&BOOK, &mut [0; 4]), Ok(2));
        // A book of one template has no pairs.
        assert_eq!(book(b"TPB\x00\x01\x01A\x01\x00\x00", &mut []), Ok(0));
        assert_eq!(book_hours(&BOOK, &HOURS, &mut [0; 2]), Ok(1));
        // No template is ever sent.
        let never = b"TPH\x00\x01\x00\x00\x00\x00";
        assert_eq!(book_hours(&BOOK, never, &mut []), Ok(0));
    }

    #[test]
    fn apart_leaves_the_buffer() {
        let mut sheet = P;
        sheet[10] = 0;
        let mut filling = [b'.'; 54];
        assert_eq!(search(&sheet, &mut filling), Ok(Searched::Apart));
        assert_eq!(filling, [b'.'; 54]);
    }

    #[test]
    fn pair_and_side_are_not_exchanged() {
        let sheet = sheet_of(include_str!("../../../tests/search.d/shared_fields.sheet"));
        let empty = [0, 255, 255, 255, 255, 255, 255, 255, 255].repeat(2);
        let mut text = [0; 24];
        assert_eq!(spell(sheet.bytes(), 0, 1, &empty, &mut text), Ok(2));
        assert_eq!(text[..2], *b"AB");
        assert_eq!(spell(sheet.bytes(), 1, 0, &empty, &mut text), Ok(0));
        assert_eq!(spell(sheet.bytes(), 2, 0, &empty, &mut text), Ok(1));
        assert_eq!(
            spell(sheet.bytes(), 3, 0, &empty, &mut text),
            Err(Refusal::PairNumber)
        );
        assert_eq!(
            spell(sheet.bytes(), 0, 2, &empty, &mut text),
            Err(Refusal::Side)
        );
        assert_eq!(
            spell(sheet.bytes(), u64::MAX, 0, &empty, &mut text),
            Err(Refusal::PairNumber)
        );
    }

    /// What checking the sheet of two pairs and two rules says, with these texts in its fields, which are x and y.
    fn checked(x: &[u8], y: &[u8]) -> Checked {
        let filling = Filling::from_letters(&[x, y]).unwrap();
        check(&PAIRS_AND_RULES, filling.bytes()).unwrap()
    }

    fn differs(pair: usize, agreeing: usize, side: Side, rest: usize) -> Checked {
        Checked::NoClash(Cause::PairDiffers {
            pair,
            agreeing,
            side,
            rest,
        })
    }

    const A: u8 = 0;
    const B: u8 = 1;

    #[test]
    fn a_filling_that_clashes_has_no_cause() {
        assert_eq!(checked(&[A], &[A]), Checked::Clash);
        assert_eq!(checked(&[A, A], &[A, A]), Checked::Clash);
    }

    #[test]
    fn the_letters_that_agree_and_the_rest_are_told() {
        // In the first letter, in the middle, and in the last.
        assert_eq!(checked(&[A, A, A], &[B, A]), differs(0, 0, Side::Left, 3));
        assert_eq!(checked(&[A, B, A], &[A, A]), differs(0, 1, Side::Left, 2));
        assert_eq!(checked(&[A, A], &[A, B]), differs(0, 1, Side::Left, 1));
        // AB against AAB: it is the left rest, though the right one is longer.
        assert_eq!(checked(&[A, B], &[A, A, B]), differs(0, 1, Side::Left, 1));
    }

    #[test]
    fn a_text_may_be_the_start_of_the_other() {
        assert_eq!(checked(&[A, B], &[A, B, A]), differs(0, 2, Side::Right, 1));
        assert_eq!(checked(&[A, B, A], &[A]), differs(0, 1, Side::Left, 2));
    }

    #[test]
    fn a_text_may_be_empty() {
        assert_eq!(checked(&[], &[A, B]), differs(0, 0, Side::Right, 2));
        assert_eq!(checked(&[A, B], &[]), differs(0, 0, Side::Left, 2));
    }

    #[test]
    fn the_first_pair_that_differs_is_told() {
        // The second pair has x and A against A and y.
        assert_eq!(checked(&[B], &[B]), differs(1, 0, Side::Left, 2));
        assert_eq!(checked(&[A, B], &[A, B]), differs(1, 1, Side::Left, 2));
        // Here both differ.
        assert_eq!(checked(&[B], &[A]), differs(0, 0, Side::Left, 1));
    }

    #[test]
    fn the_first_rule_that_does_not_hold_is_told_where_no_pair_differs() {
        let broken = |rule| Checked::NoClash(Cause::RuleBroken { rule });
        assert_eq!(checked(&[], &[]), broken(1));
        assert_eq!(checked(&[A; 3], &[A; 3]), broken(0));
        // A pair comes before a rule.
        assert_eq!(checked(&[A; 3], &[A, A, B]), differs(0, 2, Side::Left, 1));
    }

    #[test]
    fn why_is_written_only_where_a_filling_does_not_clash() {
        const BEFORE: [u64; WHY_NUMBERS] = [91, 92, 93, 94, 95];
        let why = |sheet: &[u8], filling: &[u8]| {
            let mut why = BEFORE;
            (engine::check(sheet, filling, &mut why), why)
        };
        let empty = [0, 255, 255, 255, 255, 255, 255, 255, 255];
        assert_eq!(why(&P, &IS_A), (1, BEFORE));
        assert_eq!(why(&P[..14], &empty), (-8, BEFORE));
        assert_eq!(why(&P, &empty[..8]), (-20, BEFORE));
        assert_eq!(
            why(&P, &[2, 0, 0, 255, 255, 255, 255, 255, 255]),
            (-21, BEFORE)
        );
        assert_eq!(
            why(&P, &[1, 1, 255, 255, 255, 255, 255, 255, 255]),
            (-22, BEFORE)
        );
        assert_eq!(why(&P, &[0; 9]), (-23, BEFORE));
        assert_eq!(why(&P, &empty), (0, [1, 0, 0, 1, 1]));
        assert_eq!(
            why(&PAIRS_AND_RULES, &empty.repeat(2)),
            (0, [2, 1, 0, 0, 0])
        );
    }

    #[test]
    fn each_line_is_the_files() {
        let mut text = [0; 80];
        for (number, due) in P_FILE.split_inclusive(|byte| *byte == b'\n').enumerate() {
            assert_eq!(line(&P, number as u64, &mut text), Ok(due.len()));
            assert_eq!(text[..due.len()], *due);
        }
        assert_eq!(line(&P, 9, &mut text), Err(Refusal::LineNumber));
        assert_eq!(line(&P, u64::MAX, &mut text), Err(Refusal::LineNumber));
    }

    #[test]
    fn variables_clauses_and_bytes_are_not_exchanged() {
        let counts = ClauseCounts {
            variables: 6,
            clauses: 8,
            bytes: 69,
        };
        assert_eq!(count(&P), Ok(counts));
        assert_eq!(P_FILE.len(), 69);
    }

    #[test]
    fn every_refusal_of_a_filling_comes_through() {
        let past = [0, 0, 255, 255, 255, 255, 255, 255, 255];
        let letter = [1, 1, 255, 255, 255, 255, 255, 255, 255];
        let length = [2, 0, 0, 255, 255, 255, 255, 255, 255];
        let faults: [(&[u8], u8); 4] = [(&[], 20), (&length, 21), (&letter, 22), (&past, 23)];
        for (filling, number) in faults {
            assert_eq!(check(&P, filling).map_err(Refusal::number), Err(number));
            assert_eq!(
                spell(&P, 0, 0, filling, &mut []).map_err(Refusal::number),
                Err(number)
            );
        }
    }

    #[test]
    fn every_refusal_of_a_reply_comes_through() {
        let refused = |text: &[u8]| reply(&P, text, &mut [0; 9]).map_err(Refusal::number);
        assert_eq!(refused(&[b'c'; 65537]), Err(30));
        assert_eq!(refused(b"c"), Err(31));
        assert_eq!(refused(b"\n"), Err(32));
        assert_eq!(refused(b""), Err(33));
        assert_eq!(refused(b"s SATISFIABLE\n"), Err(34));
        assert_eq!(refused(b"s SATISFIABLE\nv 7 0\n"), Err(35));
        assert_eq!(refused(b"s SATISFIABLE\nv 1 1 0\n"), Err(36));
        assert_eq!(refused(b"s SATISFIABLE\nv 0\n"), Err(37));
        assert_eq!(refused(b"s SATISFIABLE\nv 2 0\n"), Err(39));
        // P with limit 2: a blank, and then A.
        let mut sheet = P;
        sheet[10] = 2;
        let gap = reply(&sheet, b"s SATISFIABLE\nv 2 3 0\n", &mut [0; 9]);
        assert_eq!(gap, Err(Refusal::LetterAfterBlank));
    }
}
