//! Hand-made fillings with the whole answer of a check, worked out from documents 01 and 02 (No. 5)
//! apart from the code: for texts that are spelled in several ways, and for whole sheets.

use crate::examples::{self, require_known, Texts, Why, CLASH};
use crate::fillings;
use crate::reader::{Pair, Rule, Sheet, Symbol, Template};
use crate::sheets;
use crate::speller::{Filling, LEFT, RIGHT};
use crate::test::Test;

pub fn run(test: &mut Test) {
    test.part("hand-made texts, spelled in three ways", texts);
    test.part("hand-made sheets", whole_sheets);
}

/// The texts of each pair, left and right; of each rule whether it holds (+) or breaks (-); and what is
/// against a clash.
struct Known(&'static [[&'static str; 2]], &'static str, Why);

const KNOWN: [Known; 58] = [
    // Nothing is left over.
    Known(&[["", ""]], "", CLASH),
    Known(&[["a", "a"]], "", CLASH),
    Known(&[["abcd", "abcd"]], "", CLASH),
    // Both texts go on, with other letters: the left rest, be it the shorter or the longer one.
    Known(&[["ab", "acd"]], "", Some([1, 0, 1, LEFT, 1])),
    Known(&[["acd", "ab"]], "", Some([1, 0, 1, LEFT, 2])),
    Known(&[["ab", "acdd"]], "", Some([1, 0, 1, LEFT, 1])),
    Known(&[["acdd", "ab"]], "", Some([1, 0, 1, LEFT, 3])),
    Known(&[["abcd", "abcc"]], "", Some([1, 0, 3, LEFT, 1])),
    Known(&[["abab", "abba"]], "", Some([1, 0, 2, LEFT, 2])),
    Known(&[["aab", "ab"]], "", Some([1, 0, 1, LEFT, 2])),
    Known(&[["ab", "aab"]], "", Some([1, 0, 1, LEFT, 1])),
    Known(&[["a", "b"]], "", Some([1, 0, 0, LEFT, 1])),
    Known(&[["b", "a"]], "", Some([1, 0, 0, LEFT, 1])),
    Known(&[["ab", "cd"]], "", Some([1, 0, 0, LEFT, 2])),
    Known(&[["a", "ba"]], "", Some([1, 0, 0, LEFT, 1])),
    Known(&[["ba", "a"]], "", Some([1, 0, 0, LEFT, 2])),
    // Letters that agree later do not count.
    Known(&[["ab", "cb"]], "", Some([1, 0, 0, LEFT, 2])),
    Known(&[["abcdd", "accdd"]], "", Some([1, 0, 1, LEFT, 4])),
    // The left text is used up: the right rest.
    Known(&[["ab", "abc"]], "", Some([1, 0, 2, RIGHT, 1])),
    Known(&[["ab", "abcd"]], "", Some([1, 0, 2, RIGHT, 2])),
    Known(&[["a", "abcd"]], "", Some([1, 0, 1, RIGHT, 3])),
    Known(&[["aaa", "aaaa"]], "", Some([1, 0, 3, RIGHT, 1])),
    Known(&[["", "a"]], "", Some([1, 0, 0, RIGHT, 1])),
    Known(&[["", "abcd"]], "", Some([1, 0, 0, RIGHT, 4])),
    // The right text is used up, and the left one is not.
    Known(&[["abc", "ab"]], "", Some([1, 0, 2, LEFT, 1])),
    Known(&[["abcd", "ab"]], "", Some([1, 0, 2, LEFT, 2])),
    Known(&[["abcd", "a"]], "", Some([1, 0, 1, LEFT, 3])),
    Known(&[["aaaa", "aaa"]], "", Some([1, 0, 3, LEFT, 1])),
    Known(&[["a", ""]], "", Some([1, 0, 0, LEFT, 1])),
    Known(&[["abcd", ""]], "", Some([1, 0, 0, LEFT, 4])),
    // The first pair that differs is told, whatever the later ones do.
    Known(&[["ab", "ab"], ["ab", "acd"]], "", Some([1, 1, 1, LEFT, 1])),
    Known(&[["ab", "acd"], ["ab", "ab"]], "", Some([1, 0, 1, LEFT, 1])),
    Known(
        &[["ab", "acd"], ["ab", "abc"]],
        "",
        Some([1, 0, 1, LEFT, 1]),
    ),
    Known(
        &[["ab", "abc"], ["ab", "acd"]],
        "",
        Some([1, 0, 2, RIGHT, 1]),
    ),
    Known(&[["", ""], ["", "a"]], "", Some([1, 1, 0, RIGHT, 1])),
    Known(&[["", "a"], ["a", ""]], "", Some([1, 0, 0, RIGHT, 1])),
    Known(
        &[["a", "a"], ["", ""], ["ab", "ab"], ["abc", "ab"]],
        "",
        Some([1, 3, 2, LEFT, 1]),
    ),
    Known(
        &[["a", "a"], ["b", "b"], ["a", "ab"], ["b", "a"]],
        "",
        Some([1, 2, 1, RIGHT, 1]),
    ),
    Known(
        &[["a", "a"], ["b", "a"], ["a", "a"], ["a", "b"]],
        "",
        Some([1, 1, 0, LEFT, 1]),
    ),
    Known(
        &[["a", "a"], ["", ""], ["ab", "ab"], ["abc", "abc"]],
        "",
        CLASH,
    ),
    // All texts are the same, and the first rule that breaks is told.
    Known(&[["ab", "ab"]], "+", CLASH),
    Known(&[["ab", "ab"]], "++++", CLASH),
    Known(&[["ab", "ab"]], "-", Some([2, 0, 0, 0, 0])),
    Known(&[["", ""]], "-", Some([2, 0, 0, 0, 0])),
    Known(&[["", ""]], "+-", Some([2, 1, 0, 0, 0])),
    Known(&[["ab", "ab"]], "-+", Some([2, 0, 0, 0, 0])),
    Known(&[["ab", "ab"]], "--", Some([2, 0, 0, 0, 0])),
    Known(&[["ab", "ab"]], "++-", Some([2, 2, 0, 0, 0])),
    Known(&[["ab", "ab"]], "+--+", Some([2, 1, 0, 0, 0])),
    Known(&[["ab", "ab"]], "+++-", Some([2, 3, 0, 0, 0])),
    Known(&[["ab", "ab"]], "----", Some([2, 0, 0, 0, 0])),
    Known(&[["a", "a"], ["b", "b"]], "+-", Some([2, 1, 0, 0, 0])),
    // A pair comes before every rule.
    Known(&[["ab", "acd"]], "-", Some([1, 0, 1, LEFT, 1])),
    Known(&[["ab", "abc"]], "----", Some([1, 0, 2, RIGHT, 1])),
    Known(&[["ab", "abc"]], "++++", Some([1, 0, 2, RIGHT, 1])),
    Known(&[["", "a"]], "+-", Some([1, 0, 0, RIGHT, 1])),
    Known(&[["a", "a"], ["a", ""]], "-", Some([1, 1, 0, LEFT, 1])),
    Known(&[["a", ""], ["a", "a"]], "-+", Some([1, 0, 0, LEFT, 1])),
];

/// The letters of all texts.
const LETTERS: &[u8] = b"abcd";

/// A way to spell texts: the fields, with their texts and limits, and the template for a text.
struct Way {
    filling: Filling,
    limits: Vec<u8>,
    template: fn(&Filling, &[u8]) -> Template,
}

/// Without fields; with an empty field of limit 2 before and after each text; and with a field for each
/// text, of a limit that is one above its length.
fn ways(known: &Known) -> [Way; 3] {
    let mut texts: Filling = known.0.iter().flatten().map(|text| numbers(text)).collect();
    texts.sort();
    texts.dedup();
    [
        Way {
            filling: vec![],
            limits: vec![],
            template: |_, text| letters(text),
        },
        Way {
            filling: vec![vec![]],
            limits: vec![2],
            template: |_, text| {
                let empty = [Symbol::Field(0)];
                [&empty, &letters(text)[..], &empty].concat()
            },
        },
        Way {
            limits: texts.iter().map(|text| text.len() as u8 + 1).collect(),
            filling: texts,
            template: |texts, text| {
                let field = texts.iter().position(|other| other == text);
                vec![Symbol::Field(field.expect("a field for each text") as u8)]
            },
        },
    ]
}

/// A text in letter numbers.
fn numbers(text: &str) -> Vec<u8> {
    text.bytes().map(|letter| letter - LETTERS[0]).collect()
}

/// The template that is a text's letters.
fn letters(text: &[u8]) -> Template {
    text.iter().map(|&letter| Symbol::Letter(letter)).collect()
}

impl Way {
    /// The sheet whose templates spell the known texts. A rule allows all texts of the filling their
    /// length, or one letter less.
    fn sheet(&self, known: &Known) -> Sheet {
        let template = |text: &str| (self.template)(&self.filling, &numbers(text));
        let pair = |[left, right]: &[&str; 2]| Pair {
            left: template(left),
            right: template(right),
        };
        let length = self.filling.concat().len() as i16;
        let rule = |sign| Rule {
            coefficients: vec![1; self.filling.len()],
            limit: if sign == '+' { length } else { length - 1 },
        };
        Sheet {
            letters: LETTERS.to_vec(),
            limits: self.limits.clone(),
            pairs: known.0.iter().map(pair).collect(),
            rules: known.1.chars().map(rule).collect(),
        }
    }
}

/// Texts, spelled in each way, have the answers that are known.
fn texts(test: &mut Test) {
    for known in &KNOWN {
        for way in ways(known) {
            let sheet = sheets::encode(&way.sheet(known));
            let filling = fillings::encode(&way.filling);
            let name = format!("{:?}, rules {:?}", known.0, known.1);
            require_known(test, &name, &sheet, &filling, known.2);
        }
    }
}

/// With letters a and b and fields X and Y, both of limit 8: XXX and XXY, XXX and nothing, nothing and
/// XXX.
const LONG: &[u8] = b"TPL\0\x01\x02\x02\x01\0ab\x08\x08\x03\x03\x80\x80\x80\x80\x80\x81";
const LONG_LEFT: &[u8] = b"TPL\0\x01\x02\x02\x01\0ab\x08\x08\x03\0\x80\x80\x80";
const LONG_RIGHT: &[u8] = b"TPL\0\x01\x02\x02\x01\0ab\x08\x08\0\x03\x80\x80\x80";

/// With letters a and b and fields X and Y of limit 4: aX and Yb; X is to be no longer than Y, and no
/// longer than 1.
const RULED: &[u8] = b"TPL\0\x01\x02\x02\x01\x02ab\x04\x04\x02\x02\0\x80\x81\x01\
    \x01\xFF\0\0\x01\0\0\x01";

/// With letters a and b and fields X and Y of limit 2: X and Y, XY and YX, nothing and nothing, XX and
/// abab.
const FOUR: &[u8] = b"TPL\0\x01\x02\x02\x04\0ab\x02\x02\x01\x01\x80\x81\
    \x02\x02\x80\x81\x81\x80\0\0\x02\x04\x80\x80\0\x01\0\x01";

/// A sheet, the texts of its fields, and what is against a clash.
const SHEETS: [(&[u8], Texts, Why); 22] = [
    (LONG, &["aaaaaaaa", "aaaaaaaa"], CLASH),
    (LONG, &["aaaaaaaa", "aaaaaaab"], Some([1, 0, 23, LEFT, 1])),
    (LONG, &["aaaaaaaa", "aaaaaaa"], Some([1, 0, 23, LEFT, 1])),
    (LONG, &["aaaaaaaa", "baaaaaaa"], Some([1, 0, 16, LEFT, 8])),
    (LONG, &["aaaaaaaa", ""], Some([1, 0, 16, LEFT, 8])),
    (LONG, &["aaaaaaa", "aaaaaaaa"], Some([1, 0, 21, RIGHT, 1])),
    (LONG, &["ab", "abababab"], Some([1, 0, 6, RIGHT, 6])),
    (LONG, &["", "aaaaaaaa"], Some([1, 0, 0, RIGHT, 8])),
    (LONG_LEFT, &["abababab", "b"], Some([1, 0, 0, LEFT, 24])),
    (LONG_LEFT, &["", "b"], CLASH),
    (LONG_RIGHT, &["abababab", "b"], Some([1, 0, 0, RIGHT, 24])),
    (LONG_RIGHT, &["", "b"], CLASH),
    (RULED, &["b", "a"], CLASH),
    (RULED, &["bb", "ab"], Some([2, 1, 0, 0, 0])),
    (RULED, &["bbbb", "abbb"], Some([2, 1, 0, 0, 0])),
    (RULED, &["", ""], Some([1, 0, 0, LEFT, 1])),
    (RULED, &["", "a"], Some([1, 0, 1, RIGHT, 1])),
    // Both rules break too.
    (RULED, &["bb", "a"], Some([1, 0, 2, LEFT, 1])),
    (FOUR, &["ab", "ab"], CLASH),
    (FOUR, &["a", "ab"], Some([1, 0, 1, RIGHT, 1])),
    (FOUR, &["b", "b"], Some([1, 3, 0, LEFT, 2])),
    (FOUR, &["", ""], Some([1, 3, 0, RIGHT, 4])),
];

/// Whole sheets have the answers that are known.
fn whole_sheets(test: &mut Test) {
    for (sheet, texts, due) in SHEETS {
        let filling = examples::encoded(sheet, texts);
        require_known(test, &format!("{texts:?}"), sheet, &filling, due);
    }
}
