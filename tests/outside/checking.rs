//! The parts of the test that check fillings and spell templates.

use crate::changes::each_value_of_each_byte;
use crate::fillings;
use crate::planted;
use crate::random::Random;
use crate::reader::{self, Pair, Sheet, Symbol, GREATEST_WIDTH};
use crate::sheets;
use crate::speller::{self, Filling, Spelling, FIELD_BYTES, NO_LETTER};
use crate::test::Test;

const GENERATED: usize = 270_000;
const AGAINST: usize = 100_000;
const LONG_PERCENT: usize = 30;
const PLANTED_PERCENT: usize = 80;
const SPOILED_PERCENT: usize = 35;
const DAMAGED_SHEETS_PERCENT: usize = 20;
const DAMAGED_FILLINGS_PERCENT: usize = 30;
const BAD_NUMBER_PERCENT: usize = 8;

pub fn run(test: &mut Test) {
    test.part("all pair and side numbers and buffers", all_numbers);
    test.part("fillings, one byte or the size changed", small_changes);
    test.part("generated fillings", generated);
    test.part(
        "fillings with pairs that differ and rules that break",
        against,
    );
}

/// Pair numbers at and beside the ends of what there is, and ones that a narrower type would cut.
fn pair_numbers(e: usize) -> [u64; 8] {
    let e = e as u64;
    [
        e - 1,
        e,
        e + 1,
        256,
        1 << 32,
        (1 << 32) + 1,
        1 << 63,
        u64::MAX,
    ]
}

/// Likewise for sides.
const SIDES: [u64; 8] = [0, 1, 2, 256, 1 << 32, (1 << 32) + 1, 1 << 63, u64::MAX];

/// Lengths of buffers for a text of this length.
fn rooms(text: usize) -> [usize; 6] {
    [0, text.saturating_sub(1), text, text + 1, 24, 64]
}

/// Each pair number with each side and each buffer.
fn all_numbers(test: &mut Test) {
    for sheet in [sheets::P, sheets::MIDDLE] {
        let accepted = reader::accepted(sheet);
        let filling = fillings::encode(&fillings::full(&mut test.random, &accepted));
        for pair in pair_numbers(accepted.pairs.len()) {
            for side in SIDES {
                spell_into_each_buffer(test, sheet, pair, side, &filling);
            }
        }
    }
}

fn spell_into_each_buffer(test: &mut Test, sheet: &[u8], pair: u64, side: u64, filling: &[u8]) {
    let asked = Spelling {
        sheet,
        pair,
        side,
        filling,
        room: usize::MAX,
    };
    for room in rooms(text_length(asked)) {
        test.spell(Spelling { room, ..asked });
    }
}

/// The length of the text to be spelled, 0 where that is refused.
fn text_length(asked: Spelling) -> usize {
    speller::spell(asked).map_or(0, |text| text.len())
}

/// Full, empty and other fillings of a sheet of middle size and a largest one: each value of each
/// byte, and each size up to ten bytes too many.
fn small_changes(test: &mut Test) {
    let largest = sheets::largest(&mut test.random);
    for sheet in [reader::accepted(sheets::MIDDLE), largest] {
        let empty: Filling = vec![Vec::new(); sheet.limits.len()];
        let full = fillings::full(&mut test.random, &sheet);
        let legal = fillings::legal(&mut test.random, &sheet);
        for filling in [empty, full, legal] {
            change_little(test, &sheet, &fillings::encode(&filling));
        }
    }
}

fn change_little(test: &mut Test, sheet: &Sheet, filling: &[u8]) {
    let bytes = sheets::encode(sheet);
    let e = sheet.pairs.len();
    for changed in each_value_of_each_byte(filling) {
        check_and_spell(test, &bytes, e, &changed);
    }
    for size in 0..=filling.len() + FIELD_BYTES + 1 {
        let mut changed = filling.to_vec();
        changed.resize(size, NO_LETTER);
        check_and_spell(test, &bytes, e, &changed);
    }
}

/// Sheets and fillings of which many clash or nearly do, and many are damaged.
fn generated(test: &mut Test) {
    for _ in 0..GENERATED {
        let random = &mut test.random;
        let (made, filling) = sheet_and_filling(random);
        let mut sheet = sheets::encode(&made);
        let mut filling = fillings::encode(&filling);
        if random.chance(DAMAGED_SHEETS_PERCENT) {
            sheets::damage(random, &mut sheet);
        }
        if random.chance(DAMAGED_FILLINGS_PERCENT) {
            fillings::damage(random, &made, &mut filling);
        }
        check_and_spell(test, &sheet, made.pairs.len(), &filling);
    }
}

fn sheet_and_filling(random: &mut Random) -> (Sheet, Filling) {
    let mut sheet = sheets::valid(random);
    let mut filling = fillings::legal(random, &sheet);
    if random.chance(PLANTED_PERCENT) {
        planted::plant(random, &mut sheet, &filling);
        if random.chance(SPOILED_PERCENT) {
            planted::spoil(random, &mut sheet);
        }
        if random.chance(SPOILED_PERCENT) {
            fillings::change_text(random, &sheet, &mut filling);
        }
    }
    (sheet, filling)
}

/// Fillings that clash but for some pairs and some rules, of which any may be the first.
fn against(test: &mut Test) {
    for _ in 0..AGAINST {
        let random = &mut test.random;
        let (mut sheet, filling) = if random.chance(LONG_PERCENT) {
            long_texts(random)
        } else {
            planted::clashing(random, sheets::valid)
        };
        planted::differ(random, &mut sheet, &filling);
        test.check(&sheets::encode(&sheet), &fillings::encode(&filling));
    }
}

/// A sheet in which a full filling clashes, with long texts, and where a field's limit allows it with a
/// longest one.
fn long_texts(random: &mut Random) -> (Sheet, Filling) {
    let mut sheet = sheets::valid(random);
    let lengths = sheet.limits.clone();
    let filling = planted::plant_parts(random, &mut sheet, &lengths);
    let divides = |&limit: &u8| limit > 1 && GREATEST_WIDTH % usize::from(limit) == 0;
    if let Some(field) = lengths.iter().position(divides) {
        let times = GREATEST_WIDTH / usize::from(lengths[field]);
        let template = vec![Symbol::Field(field as u8); times];
        let pair = random.below(sheet.pairs.len());
        sheet.pairs[pair] = Pair {
            left: template.clone(),
            right: template,
        };
    }
    (sheet, filling)
}

/// Checks a filling, and spells a template with it, of one of `e` pairs or of none.
fn check_and_spell(test: &mut Test, sheet: &[u8], e: usize, filling: &[u8]) {
    test.check(sheet, filling);
    let random = &mut test.random;
    let asked = Spelling {
        sheet,
        pair: pair(random, e),
        side: side(random),
        filling,
        room: usize::MAX,
    };
    let room = random.one_of(&rooms(text_length(asked)));
    test.spell(Spelling { room, ..asked });
}

fn pair(random: &mut Random, e: usize) -> u64 {
    if random.chance(BAD_NUMBER_PERCENT) {
        random.one_of(&pair_numbers(e))
    } else {
        random.below(e) as u64
    }
}

fn side(random: &mut Random) -> u64 {
    if random.chance(BAD_NUMBER_PERCENT) {
        random.one_of(&SIDES)
    } else {
        random.below(2) as u64
    }
}
