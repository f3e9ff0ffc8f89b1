//! The parts of the test that run document 01's proved examples, (a) to (k), with what document 02, No. 5,
//! has to say of the fillings that do not clash.

use crate::fillings;
use crate::reader::{self, Sheet};
use crate::report::{require, Hex};
use crate::sheets;
use crate::speller::{self, Filling, Spelling, LEFT, RIGHT};
use crate::test::Test;
use std::fmt::Display;

pub fn run(test: &mut Test) {
    test.part("document 01's examples (a) to (h)", clashing);
    test.part("document 01's examples (i) to (k)", spelling);
}

/// A filling by the texts of its fields X, Y and Z, in letters.
pub type Texts = &'static [&'static str];

/// What is against a clash, in five numbers; nothing where a filling clashes.
pub type Why = Option<[u64; 5]>;
pub const CLASH: Why = None;
const RULE: Why = Some([2, 0, 0, 0, 0]);

/// All fillings of a sheet, each with its answer.
type Answers = &'static [(Texts, Why)];

/// An example's letter, its sheet, and the answers to all its fillings.
const CLASHING: [(char, &[u8], Answers); 8] = [
    // X and A, with limits 1 and 0.
    (
        'a',
        sheets::P,
        &[(&[""], Some([1, 0, 0, RIGHT, 1])), (&["A"], CLASH)],
    ),
    (
        'b',
        b"TPL\0\x01\x01\x01\x01\0A\0\x01\x01\x80\0",
        &[(&[""], Some([1, 0, 0, RIGHT, 1]))],
    ),
    // No fields, nothing and nothing.
    ('c', b"TPL\0\x01\x01\0\x01\0A\0\0", &[(&[], CLASH)]),
    // XX and A.
    (
        'd',
        b"TPL\0\x01\x01\x01\x01\0A\x01\x02\x01\x80\x80\0",
        &[
            (&[""], Some([1, 0, 0, RIGHT, 1])),
            (&["A"], Some([1, 0, 1, LEFT, 1])),
        ],
    ),
    // AX and XA, then with -1 × length at most -1 and at most -2.
    (
        'e',
        b"TPL\0\x01\x02\x01\x01\0AB\x01\x02\x02\0\x80\x80\0",
        &[
            (&[""], CLASH),
            (&["A"], CLASH),
            (&["B"], Some([1, 0, 0, LEFT, 2])),
        ],
    ),
    (
        'f',
        b"TPL\0\x01\x02\x01\x01\x01AB\x01\x02\x02\0\x80\x80\0\xFF\xFF\xFF",
        &[
            (&[""], RULE),
            (&["A"], CLASH),
            (&["B"], Some([1, 0, 0, LEFT, 2])),
        ],
    ),
    (
        'g',
        b"TPL\0\x01\x02\x01\x01\x01AB\x01\x02\x02\0\x80\x80\0\xFF\xFF\xFE",
        &[
            (&[""], RULE),
            (&["A"], RULE),
            (&["B"], Some([1, 0, 0, LEFT, 2])),
        ],
    ),
    // X and A, X and B.
    (
        'h',
        b"TPL\0\x01\x02\x01\x02\0AB\x01\x01\x01\x80\0\x01\x01\x80\x01",
        &[
            (&[""], Some([1, 0, 0, RIGHT, 1])),
            (&["A"], Some([1, 1, 0, LEFT, 1])),
            (&["B"], Some([1, 0, 0, LEFT, 1])),
        ],
    ),
];

/// An example's letter, its sheet, a filling that clashes, and what both sides spell.
const SPELLING: [(char, &[u8], Texts, &str); 3] = [
    // XabY and aXYb.
    (
        'i',
        b"TPL\0\x01\x02\x02\x01\0ab\x01\x01\x04\x04\x80\0\x01\x81\0\x80\x81\x01",
        &["a", "b"],
        "aabb",
    ),
    // aZXb and aXaY.
    (
        'j',
        b"TPL\0\x01\x02\x03\x01\0ab\x01\x01\x01\x04\x04\0\x82\x80\x01\0\x80\0\x81",
        &["a", "b", "a"],
        "aaab",
    ),
    // aXaY and aZXb.
    (
        'k',
        b"TPL\0\x01\x02\x03\x01\0ab\x01\x01\x01\x04\x04\0\x80\0\x81\0\x82\x80\x01",
        &["", "b", "a"],
        "aab",
    ),
];

/// The sheets of all examples.
pub fn sheets() -> Vec<&'static [u8]> {
    let clashing = CLASHING.map(|(_, sheet, _)| sheet);
    let spelling = SPELLING.map(|(_, sheet, _, _)| sheet);
    [&clashing[..], &spelling[..]].concat()
}

/// All fillings have the answers that are listed.
fn clashing(test: &mut Test) {
    for (name, bytes, listed) in CLASHING {
        let sheet = reader::accepted(bytes);
        let fillings = listed.iter().map(|(texts, _)| filling(&sheet, texts));
        require(
            fillings.eq(fillings::all(&sheet)),
            "the example has other fillings",
            &[("example", &name), ("sheet", &Hex(bytes))],
        );
        for (texts, why) in listed {
            require_known(test, &name, bytes, &encoded(bytes, texts), *why);
        }
    }
}

/// Both sides spell the text that is listed.
fn spelling(test: &mut Test) {
    for (name, bytes, texts, text) in SPELLING {
        let filling = encoded(bytes, texts);
        require_known(test, &name, bytes, &filling, CLASH);
        for side in [0, 1] {
            let asked = Spelling {
                sheet: bytes,
                pair: 0,
                side,
                filling: &filling,
                room: 24,
            };
            test.spell(asked);
            require(
                speller::spell(asked).as_deref() == Ok(text.as_bytes()),
                "the example spells another text",
                &[("example", &name), ("asked", &asked), ("due", &text)],
            );
        }
    }
}

/// The filling of these texts.
fn filling(sheet: &Sheet, texts: Texts) -> Filling {
    let place = |byte: u8| sheet.letters.iter().position(|&letter| letter == byte);
    let number = |byte: u8| place(byte).expect("an example's text is in its sheet's letters") as u8;
    let numbers = |text: &&str| text.bytes().map(number).collect();
    texts.iter().map(numbers).collect()
}

/// The bytes of the filling of these texts.
pub fn encoded(sheet: &[u8], texts: Texts) -> Vec<u8> {
    fillings::encode(&filling(&reader::accepted(sheet), texts))
}

/// Holds both checkers to the answer that is known of a filling.
pub fn require_known(test: &mut Test, name: &dyn Display, sheet: &[u8], filling: &[u8], due: Why) {
    test.check(sheet, filling);
    let answer = speller::check(sheet, filling).map(|verdict| verdict.why());
    require(
        answer == Ok(due),
        "the example has another answer",
        &[
            ("example", name),
            ("sheet", &Hex(sheet)),
            ("filling", &Hex(filling)),
            ("answer", &format!("{answer:?}")),
            ("due", &format!("{due:?}")),
        ],
    );
}
