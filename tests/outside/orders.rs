//! The part of the test that holds the order of refusals to document 01: every choice of faults at
//! once, answered by the number of the first.

use crate::report::require;
use crate::speller::{self, Spelling};
use crate::test::Test;

pub fn run(test: &mut Test) {
    test.part("several faults at once", several_faults);
}

/// What is asked for, to be made faulty.
struct Asked {
    sheet: Vec<u8>,
    pair: u64,
    side: u64,
    filling: Vec<u8>,
    room: usize,
}

/// Nothing wrong: letters A and B, fields X and Y of limits 2 and 1, the pair XY and YX. X is AB and
/// Y is B, and ABB has a buffer of 3.
fn faultless() -> Asked {
    Asked {
        sheet: b"TPL\0\x01\x02\x02\x01\0AB\x02\x01\x02\x02\x80\x81\x81\x80".to_vec(),
        pair: 0,
        side: 0,
        filling: b"\x02\0\x01\xFF\xFF\xFF\xFF\xFF\xFF\x01\x01\xFF\xFF\xFF\xFF\xFF\xFF\xFF".to_vec(),
        room: 3,
    }
}

/// A fault: its number, whether only spelling knows it, and how it is made.
struct Fault(u8, bool, fn(&mut Asked));

/// In the order in which document 01 gives them.
const FAULTS: [Fault; 11] = [
    Fault(9, false, |asked| asked.sheet.push(0)),
    Fault(24, true, |asked| asked.pair = 1),
    Fault(25, true, |asked| asked.side = 2),
    Fault(20, false, |asked| asked.filling.push(255)),
    Fault(21, false, |asked| asked.filling[0] = 3),
    Fault(22, false, |asked| asked.filling[1] = 2),
    Fault(23, false, |asked| asked.filling[8] = 0),
    Fault(21, false, |asked| asked.filling[9] = 2),
    Fault(22, false, |asked| asked.filling[10] = 2),
    Fault(23, false, |asked| asked.filling[17] = 0),
    Fault(26, true, |asked| asked.room = 2),
];

/// Every choice of some faults, in their order.
pub fn choices<T>(faults: &[T]) -> impl Iterator<Item = Vec<&T>> {
    (0..1 << faults.len()).map(move |choice: usize| {
        let chosen = (0..faults.len()).filter(|fault| choice >> fault & 1 == 1);
        chosen.map(|fault| &faults[fault]).collect()
    })
}

fn several_faults(test: &mut Test) {
    for chosen in choices(&FAULTS) {
        let mut asked = faultless();
        for Fault(_, _, make) in &chosen {
            make(&mut asked);
        }
        compare(test, &asked, &chosen);
    }
}

/// Holds both calls' answers to the first fault that each knows (0: none).
fn compare(test: &mut Test, asked: &Asked, faults: &[&Fault]) {
    let spelling = Spelling {
        sheet: &asked.sheet,
        pair: asked.pair,
        side: asked.side,
        filling: &asked.filling,
        room: asked.room,
    };
    test.check(&asked.sheet, &asked.filling);
    test.spell(spelling);
    let checked = speller::check(&asked.sheet, &asked.filling);
    let spelled = speller::spell(spelling);
    let number = |fault: Option<&&Fault>| fault.map_or(0, |fault| fault.0);
    let answers = [
        ("check", checked.err(), faults.iter().find(|fault| !fault.1)),
        ("spell", spelled.err(), faults.first()),
    ];
    for (call, answer, first) in answers {
        let answer = answer.map_or(0, |refusal| refusal as u8);
        require(
            answer == number(first),
            "this is not the first fault's number in document 01's order",
            &[
                ("call", &call),
                ("asked", &spelling),
                ("answer", &answer),
                ("due", &number(first)),
            ],
        );
    }
}
