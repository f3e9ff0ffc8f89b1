//! The parts of the test that read sheets.

use crate::changes::each_value_of_each_byte;
use crate::reader::{self, Sheet};
use crate::report::{require, Hex};
use crate::sheets;
use crate::test::Test;

const GENERATED: usize = 300_000;
const DAMAGED_PERCENT: usize = 85;
const WITH_NOISE: usize = 40_000;
const RANDOM_BYTES: usize = 10_000;
const LONG_SHEETS: usize = 60;
const LONG: usize = 100_000;

pub fn run(test: &mut Test) {
    test.part("sheets with a known answer", known_answers);
    test.part("sheets, one byte changed or the end cut", small_changes);
    test.part("generated sheets", generated);
    test.part("starts of sheets, then noise", noise);
    test.part("random bytes", random_bytes);
    test.part("very long sheets", long_sheets);
}

/// Sheets with the answer that document 01 gives them (0: accepted).
const KNOWN: [(u8, &[u8]); 8] = [
    (1, b""),
    (0, sheets::P),
    // P with its last byte missing, and with a 16th byte.
    (8, b"TPL\0\x01\x01\x01\x01\0A\x01\x01\x01\x80"),
    (9, b"TPL\0\x01\x01\x01\x01\0A\x01\x01\x01\x80\0\0"),
    // Widths 24 and 25.
    (0, b"TPL\0\x01\x01\x01\x01\0A\x08\x03\0\x80\x80\x80"),
    (14, b"TPL\0\x01\x01\x01\x01\0A\x08\x04\0\x80\x80\x80\0"),
    // Coefficients 0xFC and 0xFB.
    (0, b"TPL\0\x01\x01\x01\x01\x01A\x08\0\0\xFC\0\0"),
    (15, b"TPL\0\x01\x01\x01\x01\x01A\x08\0\0\xFB\0\0"),
];

/// Holds the reader itself to document 01's own answers, and the library too.
fn known_answers(test: &mut Test) {
    for (number, sheet) in KNOWN {
        let answer = reader::read(sheet).map_or_else(|refusal| refusal as u8, |_| 0);
        require(
            answer == number,
            "document 01 has another answer",
            &[
                ("sheet", &Hex(sheet)),
                ("answer", &answer),
                ("due", &number),
            ],
        );
        test.read(sheet);
    }
}

/// P, a sheet of middle size and a largest one: each value of each byte, and each cut.
fn small_changes(test: &mut Test) {
    let largest = sheets::encode(&sheets::largest(&mut test.random));
    for sheet in [sheets::P, sheets::MIDDLE, &largest[..]] {
        for changed in each_value_of_each_byte(sheet) {
            test.read(&changed);
        }
        for length in 0..=sheet.len() {
            test.read(&sheet[..length]);
        }
    }
}

/// Valid sheets, most of them damaged.
fn generated(test: &mut Test) {
    for _ in 0..GENERATED {
        let made = sheets::valid(&mut test.random);
        if test.random.chance(DAMAGED_PERCENT) {
            let mut bytes = sheets::encode(&made);
            sheets::damage(&mut test.random, &mut bytes);
            test.read(&bytes);
        } else {
            compare_valid(test, &made);
        }
    }
}

/// Reads a sheet that was made to be valid, and holds the reader to what it was made from.
fn compare_valid(test: &mut Test, made: &Sheet) {
    let bytes = sheets::encode(made);
    require(
        reader::read(&bytes).as_ref() == Ok(made),
        "the reader does not give back the sheet that was made",
        &[("sheet", &Hex(&bytes))],
    );
    test.read(&bytes);
}

fn noise(test: &mut Test) {
    for _ in 0..WITH_NOISE {
        let sheet = sheets::start_and_noise(&mut test.random);
        test.read(&sheet);
    }
}

/// Short strings of any bytes, the empty one among them.
fn random_bytes(test: &mut Test) {
    for turn in 0..RANDOM_BYTES {
        let bytes = test.random.bytes(turn % 40);
        test.read(&bytes);
    }
}

/// Valid sheets, damaged ones and nothing, each with very many bytes after it.
fn long_sheets(test: &mut Test) {
    for turn in 0..LONG_SHEETS {
        let mut sheet = match turn % 3 {
            0 => Vec::new(),
            _ => sheets::encode(&sheets::valid(&mut test.random)),
        };
        if turn % 3 == 1 {
            sheets::damage(&mut test.random, &mut sheet);
        }
        sheet.extend(test.random.bytes(LONG));
        test.read(&sheet);
    }
}
