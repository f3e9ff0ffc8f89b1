//! The parts of the test that list which templates of a book clash. What is due comes from three sides:
//! from the paper, worked out by hand; for any book from the search, on the sheets of its questions,
//! which plain code makes; and for small books from all texts of each template, without any question.

use crate::book::{self, Book, Fault, Own, MOST_LIST_BYTES};
use crate::books;
use crate::changes::each_value_of_each_byte;
use crate::engine;
use crate::fillings;
use crate::orders;
use crate::random::Random;
use crate::reader::Sheet;
use crate::report::{require, Hex};
use crate::searches::ROOMY;
use crate::sheets;
use crate::speller;
use crate::tally::Tally;
use crate::test::Test;
use std::collections::HashSet;

const GENERATED: usize = 40_000;
const DAMAGED_PERCENT: usize = 92;
const BEYOND: usize = 6000;
const WITH_NOISE: usize = 20_000;
const RANDOM_BYTES: usize = 5000;
const LONG_BOOKS: usize = 30;
const LONG: usize = 100_000;
const SMALL: usize = 2000;
/// How many questions of small books must clash, and how many be apart.
const LEAST_OF_EACH_ANSWER: usize = 2000;

pub fn run(test: &mut Test) {
    test.part("books with a known answer", known_answers);
    test.part("books with several faults at once", several_faults);
    test.part("books with buffers of all lengths", all_buffers);
    test.part("books, one byte changed or the end cut", small_changes);
    test.part("books just beyond a range", beyond);
    test.part("generated books", generated);
    test.part("starts of books, then noise", noise);
    test.part("random bytes as books", random_bytes);
    test.part("very long books", long_books);
    test.part("small books", small);
}

/// Three empty templates, with letters A and B.
pub const ALIKE: &[u8] = b"TPB\0\x01\x02AB\x03\0\0\0\0\0\0";
/// One template alone.
pub const ALONE: &[u8] = b"TPB\0\x01\x01A\x01\x01\x08\x03\x80\x80\0";
/// A hold-up, A with shop, zone and staff of limits 4, 2 and 3; a test of the line, 0 with a zone; a
/// weekly test, A with shop and zone.
pub const STORY: &[u8] = b"TPB\0\x01\x080123456A\x03\
    \x03\x04\x02\x03\x04\x07\x80\x81\x82\x01\x02\x02\0\x80\x02\x04\x02\x03\x07\x80\x81";
/// Nothing, nothing, A, X and XA, with limits 1.
pub const EMPTY: &[u8] = b"TPB\0\x01\x01A\x05\0\0\0\0\0\x01\0\x01\x01\x01\x80\x01\x01\x02\x80\0";
/// 16 empty templates, and 17.
pub const SIXTEEN: &[u8] =
    b"TPB\0\x01\x01A\x10\0\0\0\0\0\0\0\0\0\0\0\0\0\0\0\0\0\0\0\0\0\0\0\0\0\0\0\0\0\0\0\0";
const SEVENTEEN: &[u8] =
    b"TPB\0\x01\x01A\x11\0\0\0\0\0\0\0\0\0\0\0\0\0\0\0\0\0\0\0\0\0\0\0\0\0\0\0\0\0\0\0\0\0\0";

/// An accepted book by the pairs of its list, or the number of a refusal.
type Known = Result<&'static [u8], u8>;

/// What is due for a book and a buffer of this length.
const KNOWN: [(&[u8], usize, Known); 37] = [
    // The first five bytes, and nothing after them.
    (b"", 2, Err(40)),
    (b"TPB\0", 2, Err(40)),
    (b"TPB\0\x01", 2, Err(41)),
    (b"TPL\0\x01\x01A\x01\0\0", 2, Err(40)),
    (b"TPB\x01\0\x01A\x01\0\0", 2, Err(40)),
    (sheets::P, 2, Err(40)),
    // No letter, nine, no template, and too many.
    (b"TPB\0\x01\0\x01\0\0", 2, Err(41)),
    (b"TPB\0\x01\x09ABCDEFGHI\x01\0\0", 2, Err(41)),
    (b"TPB\0\x01\x01A\0", 2, Err(41)),
    (SEVENTEEN, 256, Err(41)),
    // Widths 24 and 25, and 24 beside a field that is not used.
    (b"TPB\0\x01\x01A\x01\x01\x08\x03\x80\x80\x80", 0, Ok(b"")),
    (b"TPB\0\x01\x01A\x01\x01\x08\x04\x80\x80\x80\0", 0, Err(41)),
    (
        b"TPB\0\x01\x01A\x01\x03\x08\x08\x08\x03\x80\x81\x80",
        0,
        Ok(b""),
    ),
    // Three fields, and four.
    (b"TPB\0\x01\x01A\x01\x03\x08\x08\x08\0", 0, Ok(b"")),
    (b"TPB\0\x01\x01A\x01\x04\x08\x08\x08\x08\0", 0, Err(41)),
    // Twelve symbols, and 13.
    (
        b"TPB\0\x01\x01A\x01\0\x0C\0\0\0\0\0\0\0\0\0\0\0\0",
        0,
        Ok(b""),
    ),
    (
        b"TPB\0\x01\x01A\x01\0\x0D\0\0\0\0\0\0\0\0\0\0\0\0\0",
        0,
        Err(41),
    ),
    // A field of the template before, and as a sheet would number it.
    (b"TPB\0\x01\x01A\x02\x01\x01\x01\x80\0\x01\x80", 2, Err(41)),
    (
        b"TPB\0\x01\x01A\x02\x01\x01\x01\x80\x01\x01\x01\x81",
        2,
        Err(41),
    ),
    // The buffer just too short, just long enough, and longer.
    (ALIKE, 5, Err(42)),
    (ALIKE, 6, Ok(b"\0\x01\0\x02\x01\x02")),
    (ALIKE, 9, Ok(b"\0\x01\0\x02\x01\x02")),
    (ALONE, 0, Ok(b"")),
    (ALONE, 3, Ok(b"")),
    (b"TPB\0\x01\x02AB\x02\0\x01\0\0\x01\x01", 0, Ok(b"")),
    (STORY, 1, Err(42)),
    (STORY, 2, Ok(b"\0\x02")),
    // Each template has its own X: XA and BX, X and XAB, XX and XA, of several limits.
    (
        b"TPB\0\x01\x02AB\x02\x01\x01\x02\x80\0\x01\x01\x02\x01\x80",
        2,
        Ok(b"\0\x01"),
    ),
    (
        b"TPB\0\x01\x02AB\x02\x01\x02\x01\x80\x01\0\x03\x80\0\x01",
        2,
        Ok(b"\0\x01"),
    ),
    (
        b"TPB\0\x01\x01A\x02\x01\x02\x02\x80\x80\x01\0\x02\x80\0",
        2,
        Ok(b""),
    ),
    // XYZ of limits 1, and XAYBZA of limits 0.
    (
        b"TPB\0\x01\x02AB\x02\x03\x01\x01\x01\x03\x80\x81\x82\x03\0\0\0\x06\x80\0\x81\x01\x82\0",
        2,
        Ok(b"\0\x01"),
    ),
    // XX, AB, AA, XBX and ABA, with limits 1; XAX and YY, of limits 1 and 2.
    (
        b"TPB\0\x01\x02AB\x05\x01\x01\x02\x80\x80\0\x02\0\x01\0\x02\0\0\x01\x01\x03\x80\x01\x80\
            \0\x03\0\x01\0",
        6,
        Ok(b"\0\x02\x03\x04"),
    ),
    (
        b"TPB\0\x01\x01A\x02\x01\x01\x03\x80\0\x80\x01\x02\x02\x80\x80",
        2,
        Ok(b""),
    ),
    (
        EMPTY,
        14,
        Ok(b"\0\x01\0\x03\x01\x03\x02\x03\x02\x04\x03\x04"),
    ),
    (EMPTY, 11, Err(42)),
    (SIXTEEN, 239, Err(42)),
    // AA, and X of limits 1 and 2.
    (
        b"TPB\0\x01\x01A\x03\0\x02\0\0\x01\x01\x01\x80\x01\x02\x01\x80",
        4,
        Ok(b"\0\x02\x01\x02"),
    ),
];

/// Holds what is due here to the answers worked out by hand, and the library too.
fn known_answers(test: &mut Test) {
    for (bytes, room, known) in KNOWN {
        let list = plain(bytes);
        let due = book::due(list.as_deref().map_err(|&fault| fault), room);
        require(
            due.map_err(|refusal| refusal as u8) == known,
            "worked out by hand there is another answer",
            &[
                ("book", &Hex(bytes)),
                ("buffer of", &room),
                ("answer", &format!("{due:02X?}")),
                ("due", &format!("{known:02X?}")),
            ],
        );
        compare(test, bytes, &list, &[room]);
    }
}

/// What the search says of each question, or what is wrong with the book.
fn plain(bytes: &[u8]) -> Result<Vec<u8>, Fault> {
    let book = book::read(bytes)?;
    Ok(book.list(|pair| searched(&book, pair)))
}

/// Whether the search finds that two templates clash.
pub fn searched(book: &Book, pair: [usize; 2]) -> bool {
    let sheet = sheets::encode(&book.question(pair));
    let got = engine::search(&sheet, ROOMY);
    require(
        (0..=1).contains(&got.status),
        "the search refuses the sheet of a question",
        &[("sheet", &Hex(&sheet)), ("answer", &got)],
    );
    got.status == 1
}

/// Compares in buffers of these lengths.
fn compare(test: &mut Test, bytes: &[u8], list: &Result<Vec<u8>, Fault>, rooms: &[usize]) {
    for &room in rooms {
        test.book(bytes, list.as_deref().map_err(|&fault| fault), room);
    }
}

/// Compares a book, whatever is due, in some buffers.
fn compare_any(test: &mut Test, bytes: &[u8]) {
    let list = plain(bytes);
    let rooms = rooms(&mut test.random, &list);
    compare(test, bytes, &list, &rooms);
}

/// Lengths of buffers: for a list one that just fits, a longer one, and where there is one a shorter
/// one; else any.
fn rooms(random: &mut Random, list: &Result<Vec<u8>, Fault>) -> Vec<usize> {
    let fitting = match list {
        Ok(list) => list.len(),
        Err(_) => return vec![random.one_of(&[0, 1, 2, MOST_LIST_BYTES])],
    };
    let longer = fitting + random.one_of(&[1, 2, 16, 256]);
    let mut rooms = vec![fitting, longer];
    if fitting > 0 {
        let any = random.below(fitting);
        rooms.push(random.one_of(&[0, fitting - 1, fitting - 2, any]));
    }
    rooms
}

/// A book and the length of its buffer, to be made faulty.
struct Asked {
    book: Vec<u8>,
    room: usize,
}

/// A fault: its number, and how it is made.
struct Made(u8, fn(&mut Asked));

/// In the order in which document 02 gives them.
const MADE: [Made; 9] = [
    Made(40, |asked| asked.book[0] = b't'),
    Made(40, |asked| asked.book[3] = 1),
    Made(41, |asked| asked.book[5] = 9),
    Made(41, |asked| asked.book[7] = b'A'),
    Made(41, |asked| asked.book[8] = 17),
    Made(41, |asked| asked.book[9] = 4),
    Made(41, |asked| asked.book[14] = 13),
    Made(41, |asked| asked.book.push(0)),
    Made(42, |asked| asked.room = 5),
];

/// Every choice of faults at once is answered by the first one's number.
fn several_faults(test: &mut Test) {
    for chosen in orders::choices(&MADE) {
        let mut asked = Asked {
            book: ALIKE.to_vec(),
            room: 6,
        };
        for Made(_, make) in &chosen {
            make(&mut asked);
        }
        let list = plain(&asked.book);
        let due = book::due(list.as_deref().map_err(|&fault| fault), asked.room);
        let first = chosen.first().map(|made| made.0);
        require(
            due.err().map(|refusal| refusal as u8) == first,
            "this is not the first fault's number in document 02's order",
            &[("book", &Hex(&asked.book)), ("buffer of", &asked.room)],
        );
        compare(test, &asked.book, &list, &[asked.room]);
    }
}

/// Books of which no templates clash, some, and all of 16.
fn all_buffers(test: &mut Test) {
    for bytes in [ALONE, ALIKE, STORY, EMPTY, SIXTEEN] {
        let list = plain(bytes);
        let fitting = list.as_ref().map_or(0, Vec::len);
        let rooms: Vec<usize> = (0..=fitting + 3).chain([256, 65_536]).collect();
        compare(test, bytes, &list, &rooms);
    }
}

/// Some books and a largest one: each cut; of the small ones each value of each byte.
fn small_changes(test: &mut Test) {
    let largest = books::encode(&books::largest(&mut test.random));
    for bytes in [ALIKE, STORY, EMPTY, &largest[..]] {
        for length in 0..=bytes.len() {
            compare_any(test, &bytes[..length]);
        }
    }
    for bytes in [ALIKE, STORY, EMPTY] {
        for changed in each_value_of_each_byte(bytes) {
            compare_any(test, &changed);
        }
    }
}

/// Books with one fault alone.
fn beyond(test: &mut Test) {
    for _ in 0..BEYOND {
        let mut book = books::valid(&mut test.random);
        books::go_beyond(&mut test.random, &mut book);
        let bytes = books::encode(&book);
        require(
            book::read(&bytes).is_err(),
            "the reader accepts a book that breaks a range",
            &[("book", &Hex(&bytes))],
        );
        compare_any(test, &bytes);
    }
}

/// Valid books, most of them damaged. The reader is held to what they were made from.
fn generated(test: &mut Test) {
    for _ in 0..GENERATED {
        let made = books::valid(&mut test.random);
        let mut bytes = books::encode(&made);
        if test.random.chance(DAMAGED_PERCENT) {
            sheets::damage(&mut test.random, &mut bytes);
        } else {
            require(
                book::read(&bytes).as_ref() == Ok(&made),
                "the reader does not give back the book that was made",
                &[("book", &Hex(&bytes))],
            );
        }
        compare_any(test, &bytes);
    }
}

fn noise(test: &mut Test) {
    for _ in 0..WITH_NOISE {
        let bytes = books::encode(&books::valid(&mut test.random));
        let bytes = sheets::cut_and_noise(&mut test.random, bytes);
        compare_any(test, &bytes);
    }
}

/// Short strings of any bytes, the empty one among them.
fn random_bytes(test: &mut Test) {
    for turn in 0..RANDOM_BYTES {
        let bytes = test.random.bytes(turn % 40);
        compare_any(test, &bytes);
    }
}

/// Valid books, damaged ones and nothing, each with very many bytes after it.
fn long_books(test: &mut Test) {
    for turn in 0..LONG_BOOKS {
        let mut bytes = match turn % 3 {
            0 => Vec::new(),
            _ => books::encode(&books::valid(&mut test.random)),
        };
        if turn % 3 == 1 {
            sheets::damage(&mut test.random, &mut bytes);
        }
        bytes.extend(test.random.bytes(LONG));
        compare_any(test, &bytes);
    }
}

/// Two templates clash when a text is one of each: all texts are listed, and no question is asked. The
/// search is held to that too.
fn small(test: &mut Test) {
    let mut tally = Tally::new("questions of small books", &["clash", "apart"], 0..0);
    for _ in 0..SMALL {
        let book = books::small(&mut test.random);
        let bytes = books::encode(&book);
        let texts: Vec<HashSet<Vec<u8>>> =
            book.templates.iter().map(|own| texts(&book, own)).collect();
        let list = book.list(|[i, j]| {
            let clash = !texts[i].is_disjoint(&texts[j]);
            tally.count(Ok(if clash { "clash" } else { "apart" }));
            clash
        });
        let questioned = plain(&bytes);
        require(
            questioned.as_ref() == Ok(&list),
            "the search of its questions does not give the list of a small book",
            &[
                ("book", &Hex(&bytes)),
                ("list", &Hex(&list)),
                ("questioned", &format!("{questioned:02X?}")),
            ],
        );
        let rooms = rooms(&mut test.random, &questioned);
        compare(test, &bytes, &questioned, &rooms);
    }
    tally.finish_at(LEAST_OF_EACH_ANSWER);
}

/// All texts that a template spells.
fn texts(book: &Book, own: &Own) -> HashSet<Vec<u8>> {
    let fields = Sheet {
        letters: book.letters.clone(),
        limits: own.limits.clone(),
        pairs: Vec::new(),
        rules: Vec::new(),
    };
    let fillings = fillings::all(&fields);
    let spelled = |filling| speller::text(&own.symbols, filling);
    fillings.iter().map(spelled).collect()
}
