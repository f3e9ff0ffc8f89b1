//! Hand-written replies with the answer that document 01 gives each, and the order of the refusals:
//! every choice of faults at once, answered by the number of the first.

use crate::orders;
use crate::replies::{self, Replies};
use crate::reply::{Asked, MOST_BYTES};
use crate::sheets;
use crate::speller::FIELD_BYTES;

/// Letters A and B, fields X, Y and Z of limits 2, 1 and 0, and the pair X and A, so that Y and Z
/// are in no template. X has the variables 1 to 6 (A, B and blank at place 0, then at place 1), Y
/// has 7 to 9, and S has 10 to 15.
pub const UNUSED: &[u8] = b"TPL\0\x01\x02\x03\x01\0AB\x02\x01\0\x01\x01\x80\0";

/// The pair XY and YX of fields of limit 2, with two letters: X has 1 to 6, Y has 7 to 12.
const TWO: &[u8] = b"TPL\0\x01\x02\x02\x01\0AB\x02\x02\x02\x02\x80\x81\x81\x80";

/// X, of limit 1 and in no template, is to be no longer than 0: X has 1 and 2, S has 3, T has 4 to
/// 6.
const RULE: &[u8] = b"TPL\0\x01\x01\x01\x01\x01A\x01\0\0\x01\0\0";

/// No fields: nothing and nothing, with one variable, and A and nothing, with two.
pub const NOTHING: &[u8] = b"TPL\0\x01\x01\0\x01\0A\0\0";
pub const NEVER: &[u8] = b"TPL\0\x01\x01\0\x01\0A\x01\0\0";

/// Texts to one sheet, each with its answer: a refusal's number, or 0 for this filling.
struct Known {
    sheet: &'static [u8],
    filling: &'static [u8],
    /// What all the texts start with.
    start: &'static [u8],
    texts: &'static [(u8, &'static [u8])],
}

const IS_A: &[u8] = b"\x01\0\xFF\xFF\xFF\xFF\xFF\xFF\xFF";
const A_AND_EMPTY: &[u8] = b"\x01\0\xFF\xFF\xFF\xFF\xFF\xFF\xFF\
    \0\xFF\xFF\xFF\xFF\xFF\xFF\xFF\xFF\0\xFF\xFF\xFF\xFF\xFF\xFF\xFF\xFF";
const STARTED: &[u8] = b"s SATISFIABLE\n";

/// Whole texts to P, in which X has the variables 1 (A) and 2 (blank), and S has 3 to 6.
const WHOLE: &[(u8, &[u8])] = &[
    (0, b"s SATISFIABLE\nv 1 0\n"),
    (
        0,
        b"c\ncs SATISFIABLE\ncv 7 7\nc\rc\ns SATISFIABLE\nc v\nv 1 0\ncomment \xFF\0\n",
    ),
    // The last byte ends a line.
    (31, b" "),
    (31, b"c"),
    (31, b"\n\n\r"),
    (31, b"s SATISFIABLE\nv 1 0"),
    (31, b"s SATISFIABLE\nv 1 0\n\0"),
    (31, b"s SATISFIABLE\nv 1 0\nc"),
    // A line of no known form, where a status is due.
    (32, b"\n"),
    (32, b"\n\n"),
    (32, b"\ns SATISFIABLE\nv 1 0\n"),
    (32, b"s SATISFIABLE\n\nv 1 0\n"),
    (32, b"s SATISFIABLE\nv 1 0\n\n"),
    (32, b"s SATISFIABLE\r\nv 1 0\r\n"),
    (32, b"s SATISFIABLE \nv 1 0\n"),
    (32, b"s SATISFIABLE\0\nv 1 0\n"),
    (32, b"s SATISFIABLEs\nv 1 0\n"),
    (32, b"s SATISFIABL\nv 1 0\n"),
    (32, b"s SATISFIABLE v 1 0\n"),
    (32, b"s  SATISFIABLE\nv 1 0\n"),
    (32, b"s\tSATISFIABLE\nv 1 0\n"),
    (32, b"sSATISFIABLE\nv 1 0\n"),
    (32, b"s satisfiable\nv 1 0\n"),
    (32, b"S SATISFIABLE\nv 1 0\n"),
    (32, b" s SATISFIABLE\nv 1 0\n"),
    (32, b"SATISFIABLE\nv 1 0\n"),
    (32, b"SAT\n1 0\n"),
    (32, b"s\nv 1 0\n"),
    (32, b"s UNSATISFIABLE\n"),
    (32, b"s UNSATISFIABLE\nv 1 0\n"),
    (32, b"s UNKNOWN\n"),
    (32, b"s SATISFIABLE\nv 1 0\ns UNSATISFIABLE\n"),
    (32, b" c\ns SATISFIABLE\nv 1 0\n"),
    (32, b"C\ns SATISFIABLE\nv 1 0\n"),
    (32, b"p cnf 6 8\ns SATISFIABLE\nv 1 0\n"),
    // Just one status, and no values before it.
    (33, b""),
    (33, b"c\n"),
    (33, b"c s SATISFIABLE\nc v 1 0\n"),
    (33, b"v\n"),
    (33, b"v 1 0\n"),
    (33, b"v 1 0\ns SATISFIABLE\n"),
    (33, b"v 1\ns SATISFIABLE\nv 0\n"),
    (33, b"v\ns SATISFIABLE\nv 1 0\n"),
    (33, b"s SATISFIABLE\ns SATISFIABLE\nv 1 0\n"),
    (33, b"s SATISFIABLE\nv 1 0\ns SATISFIABLE\n"),
    (34, b"s SATISFIABLE\n"),
    (34, b"s SATISFIABLE\nc v 1 0\n"),
];

/// Texts to P after the status.
const VALUES: &[(u8, &[u8])] = &[
    // All variables, in order or not, or only the true K; S of any values.
    (0, b"v 1 -2 3 -4 -5 6 0\n"),
    (0, b"v 6 -5 -4 3 -2 1 0\n"),
    (0, b"v 1 -3 4 5 -6 0\n"),
    (0, b"v 1 -3 -4 -5 -6 0\n"),
    (0, b"v -2 1 0\n"),
    // Over many lines, with lines that list nothing, also after the 0.
    (0, b"v 1\nv 0\n"),
    (0, b"v 1\nv -2\nv 3\nv 0\n"),
    (0, b"v\nv\nv 1\nv\nc\nv 0\nv\nv\n"),
    (0, b"c\nc 0\nv 1 0\nc 1\n"),
    // v lines of no known form.
    (32, b"v 1 0\r\n"),
    (32, b"v 1\r\nv 0\n"),
    (32, b"v\r\nv 1 0\n"),
    (32, b"v \nv 1 0\n"),
    (32, b"v 1 0\nv \n"),
    (32, b"v 1 0 \n"),
    (32, b"v  1 0\n"),
    (32, b"v 1  0\n"),
    (32, b"v\t1 0\n"),
    (32, b"v 1\t0\n"),
    (32, b"v1 0\n"),
    (32, b"v0\n"),
    (32, b"v-1 0\n"),
    (32, b"vv 1 0\n"),
    (32, b"vc\nv 1 0\n"),
    (32, b"V 1 0\n"),
    (32, b" v 1 0\n"),
    (32, b"version\nv 1 0\n"),
    (32, b"1 0\n"),
    (32, b"v 1\n0\n"),
    (32, b"v 1\n-2 0\n"),
    // What is no number.
    (32, b"v 1 -0\n"),
    (32, b"v 1 -0 0\n"),
    (32, b"v +1 0\n"),
    (32, b"v 1 +0\n"),
    (32, b"v 1 00\n"),
    (32, b"v 1 000000000\n"),
    (32, b"v 01 0\n"),
    (32, b"v -02 1 0\n"),
    (32, b"v 1 - 0\n"),
    (32, b"v 1 --2 0\n"),
    (32, b"v 1 2- 0\n"),
    (32, b"v 1 -2-3 0\n"),
    (32, b"v 1 -+2 0\n"),
    (32, b"v 1,0\n"),
    (32, b"v 1.0 0\n"),
    (32, b"v 1e0 0\n"),
    (32, b"v 0x1 0\n"),
    (32, b"v 1 a 0\n"),
    (32, b"v 1 / 0\n"),
    (32, b"v 1 : 0\n"),
    (32, b"v 1\0 0\n"),
    (32, b"v 1\xA00\n"),
    (32, b"v \xB9 0\n"),
    (32, b"v 1000000000 0\n"),
    (32, b"v -1000000000 0\n"),
    (32, b"v 4294967297 0\n"),
    (32, b"v 0000000001 0\n"),
    (32, b"v 18446744073709551617 0\n"),
    // One 0, and no number after it.
    (34, b""),
    (34, b"v\n"),
    (34, b"v 1\n"),
    (34, b"v 1 -2 3 -4 -5 6\n"),
    (34, b"v 1 0 0\n"),
    (34, b"v 0 0\n"),
    (34, b"v 0 1\n"),
    (34, b"v 0\nv 1\n"),
    (34, b"v 1 0\nv 0\n"),
    (34, b"v 1 0\nv\nv -2\n"),
    (34, b"v 1 0 7\n"),
    // P has six variables.
    (35, b"v 7 0\n"),
    (35, b"v 1 -7 0\n"),
    (35, b"v 1 7 7 0\n"),
    (35, b"v 1 1 7 0\n"),
    (35, b"v 1 10 0\n"),
    (35, b"v 1 257 0\n"),
    (35, b"v 1 -65537 0\n"),
    (35, b"v 1 999999999 0\n"),
    (35, b"v 1 -999999999 0\n"),
    (35, b"v 999999999\nv 0\n"),
    // A variable twice, with either sign.
    (36, b"v 1 1 0\n"),
    (36, b"v 1 -1 0\n"),
    (36, b"v -1 1 0\n"),
    (36, b"v -2 1 -2 0\n"),
    (36, b"v 1\nv 1\nv 0\n"),
    (36, b"v 1 6 -6 0\n"),
    (36, b"v 3 4 5 3 0\n"),
    // Not just one true value.
    (37, b"v 0\n"),
    (37, b"v -1 0\n"),
    (37, b"v -1 -2 0\n"),
    (37, b"v 1 2 0\n"),
    (37, b"v 3 4 5 6 0\n"),
    (39, b"v 2 0\n"),
    (39, b"v -1 2 3 4 5 6 0\n"),
];

const KNOWN: [Known; 9] = [
    Known {
        sheet: sheets::P,
        filling: IS_A,
        start: b"",
        texts: WHOLE,
    },
    Known {
        sheet: sheets::P,
        filling: IS_A,
        start: STARTED,
        texts: VALUES,
    },
    // X is A, and Y is empty; then Y is B.
    Known {
        sheet: UNUSED,
        filling: A_AND_EMPTY,
        start: STARTED,
        texts: &[
            (0, b"v 1 6 9 0\n"),
            (0, b"v 9 6 1 0\n"),
            (0, b"v 1 -2 -3 -4 -5 6 -7 -8 9 10 11 12 13 14 15 0\n"),
            (35, b"v 1 6 9 16 0\n"),
            (36, b"v 1 6 9 15 -15 0\n"),
            // In X, in Y, which no template has, and in both.
            (37, b"v 6 9 0\n"),
            (37, b"v 1 9 0\n"),
            (37, b"v 1 6 0\n"),
            (37, b"v 1 6 8 9 0\n"),
            (37, b"v 1 3 6 9 0\n"),
            // In Y, after X has a letter after a blank.
            (37, b"v 3 4 0\n"),
            (37, b"v 3 4 7 8 9 0\n"),
            (38, b"v 3 4 9 0\n"),
            (38, b"v 3 5 7 0\n"),
            // X is empty, AA, AB, B.
            (39, b"v 3 6 9 0\n"),
            (39, b"v 1 4 9 0\n"),
            (39, b"v 1 5 9 0\n"),
            (39, b"v 2 6 9 0\n"),
        ],
    },
    Known {
        sheet: UNUSED,
        filling: b"\x01\0\xFF\xFF\xFF\xFF\xFF\xFF\xFF\
            \x01\x01\xFF\xFF\xFF\xFF\xFF\xFF\xFF\0\xFF\xFF\xFF\xFF\xFF\xFF\xFF\xFF",
        start: STARTED,
        texts: &[(0, b"v 1 6 8 0\n"), (0, b"v 8\nv 6\nv 1\nv 0\n")],
    },
    // X is B and Y is BB.
    Known {
        sheet: TWO,
        filling: b"\x01\x01\xFF\xFF\xFF\xFF\xFF\xFF\xFF\x02\x01\x01\xFF\xFF\xFF\xFF\xFF\xFF",
        start: STARTED,
        texts: &[
            (0, b"v 2 6 8 11 0\n"),
            // A letter after a blank in X or in Y, before or after what else is wrong.
            (37, b"v 3 5 8 0\n"),
            (37, b"v 5 9 11 0\n"),
            (38, b"v 3 5 8 11 0\n"),
            (38, b"v 2 6 9 11 0\n"),
            (38, b"v 1 6 9 11 0\n"),
            (39, b"v 1 6 8 11 0\n"),
        ],
    },
    // X is empty, as the rule asks.
    Known {
        sheet: RULE,
        filling: b"\0\xFF\xFF\xFF\xFF\xFF\xFF\xFF\xFF",
        start: STARTED,
        texts: &[
            (0, b"v 2 0\n"),
            (0, b"v -1 2 -3 -4 -5 -6 0\n"),
            (35, b"v 2 7 0\n"),
            (37, b"v 6 0\n"),
            (39, b"v 1 0\n"),
            (39, b"v 1 -2 3 4 5 -6 0\n"),
        ],
    },
    Known {
        sheet: NOTHING,
        filling: b"",
        start: STARTED,
        texts: &[
            (0, b"v 0\n"),
            (0, b"v 1 0\n"),
            (0, b"v -1\nv 0\nv\n"),
            (32, b"v -0\n"),
            (34, b""),
            (35, b"v 2 0\n"),
            (36, b"v 1 -1 0\n"),
        ],
    },
    Known {
        sheet: NEVER,
        filling: b"",
        start: STARTED,
        texts: &[
            (35, b"v 3 0\n"),
            (36, b"v 2 2 0\n"),
            (39, b"v 0\n"),
            (39, b"v 1 2 0\n"),
        ],
    },
    // P with a byte left over.
    Known {
        sheet: b"TPL\0\x01\x01\x01\x01\0A\x01\x01\x01\x80\0\0",
        filling: b"",
        start: b"",
        texts: &[(9, b"s SATISFIABLE\nv 1 0\n"), (9, b""), (9, b"x")],
    },
];

pub fn known(replies: &mut Replies) {
    for known in KNOWN {
        let asked = Asked::new(known.sheet);
        for &(number, text) in known.texts {
            let due = match number {
                0 => Ok(known.filling),
                _ => Err(number),
            };
            let text = [known.start, text].concat();
            replies::require_plain(&asked, &text, asked.filling_bytes(), due);
            replies.compare(&asked, &text);
        }
    }
}

/// A reply to a sheet, to be made faulty.
struct Given {
    sheet: Vec<u8>,
    room: usize,
    /// Before the numbers.
    lines: Vec<String>,
    numbers: Vec<i64>,
    /// After them.
    end: &'static str,
}

/// Nothing wrong: X is A and Y is empty.
fn faultless() -> Given {
    Given {
        sheet: UNUSED.to_vec(),
        room: 3 * FIELD_BYTES,
        lines: vec!["s SATISFIABLE".to_string()],
        numbers: vec![1, -2, -3, -4, -5, 6, -7, -8, 9, 0],
        end: "\n",
    }
}

impl Given {
    fn text(&self) -> Vec<u8> {
        let numbers: String = self
            .numbers
            .iter()
            .map(|number| format!(" {number}"))
            .collect();
        format!("{}\nv{numbers}{}", self.lines.join("\n"), self.end).into_bytes()
    }

    /// Gives these variables, which are listed, these signs.
    fn sign(&mut self, signed: &[i64]) {
        for &number in signed {
            let mut listed = self.numbers.iter_mut();
            let found = listed.find(|listed| listed.abs() == number.abs());
            *found.expect("a variable that is listed") = number;
        }
    }
}

/// A fault: its number, and how it is made.
struct Fault(u8, fn(&mut Given));

/// In the order in which document 01 gives them.
const FAULTS: [Fault; 12] = [
    Fault(9, |given| given.sheet.push(0)),
    Fault(27, |given| given.room -= 1),
    Fault(30, |given| given.lines.push("c".repeat(MOST_BYTES))),
    Fault(31, |given| given.end = "\nc"),
    Fault(32, |given| given.lines.push("s UNSATISFIABLE".to_string())),
    Fault(33, |given| given.lines.insert(0, "v".to_string())),
    Fault(34, |given| given.numbers.push(15)),
    Fault(35, |given| given.numbers.insert(0, 16)),
    Fault(36, |given| {
        given.numbers.splice(0..0, [14, -14]).for_each(drop)
    }),
    Fault(37, |given| given.sign(&[-9])),
    Fault(38, |given| given.sign(&[-1, 3, 4, -6])),
    Fault(39, |given| given.sign(&[4, -6])),
];

pub fn several_faults(replies: &mut Replies) {
    for chosen in orders::choices(&FAULTS) {
        let mut given = faultless();
        for Fault(_, make) in &chosen {
            make(&mut given);
        }
        let due = chosen.first().map_or(Ok(A_AND_EMPTY), |fault| Err(fault.0));
        let asked = Asked::new(&given.sheet);
        let text = given.text();
        replies::require_plain(&asked, &text, given.room, due);
        replies.compare_in(&asked, &text, &[given.room]);
    }
}
