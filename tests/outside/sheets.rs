//! Makes sheets to test with: valid ones over the whole range of the format (version 1), and ways
//! to damage their bytes. It knows the layout, and nothing of which refusal a damage leads to.

use crate::random::Random;
use crate::reader::*;
use std::ops::RangeInclusive;

/// Document 01's sheet P: one field of limit 1 against the letter A.
pub const P: &[u8] = b"TPL\x00\x01\x01\x01\x01\x00A\x01\x01\x01\x80\x00";

/// A sheet of middle size: letters A and B, fields of limits 8 and 3, two pairs and a rule.
pub const MIDDLE: &[u8] = b"TPL\0\x01\x02\x02\x02\x01AB\x08\x03\
    \x04\x01\x80\x81\0\x80\x81\x01\x02\x81\0\x01\xFC\x04\xFF\xFE";

/// Values at and beside the ends of the format's ranges.
const EDGES: [u8; 23] = [
    0, 1, 4, 5, 6, 7, 8, 9, 12, 13, 32, 33, 126, 127, 128, 133, 134, 0xFA, 0xFB, 0xFC, 0xFD, 0xFE,
    0xFF,
];

/// The bytes of a sheet.
pub fn encode(sheet: &Sheet) -> Vec<u8> {
    let mut bytes = MARK.to_vec();
    bytes.extend(VERSION.to_be_bytes());
    bytes.extend(sheet.counts().map(|count| count as u8));
    bytes.extend(&sheet.letters);
    bytes.extend(&sheet.limits);
    for pair in &sheet.pairs {
        bytes.push(pair.left.len() as u8);
        bytes.push(pair.right.len() as u8);
        bytes.extend(pair.left.iter().chain(&pair.right).map(symbol_byte));
    }
    for rule in &sheet.rules {
        bytes.extend(
            rule.coefficients
                .iter()
                .map(|&coefficient| coefficient as u8),
        );
        bytes.extend(rule.limit.to_be_bytes());
    }
    bytes
}

pub fn symbol_byte(symbol: &Symbol) -> u8 {
    match *symbol {
        Symbol::Letter(letter) => letter,
        Symbol::Field(field) => FIRST_FIELD_SYMBOL + field,
    }
}

/// The most fillings of a small sheet: of three fields of limit 2, with three letters.
const MOST_FILLINGS: usize = 2197;
/// The most fillings of any sheet of which all are tried.
const MOST_TRIED: usize = 20_000;

/// How large a sheet is to be.
struct Size {
    /// Of letters, fields, pairs and rules.
    counts: [usize; 4],
    greatest_limit: u8,
    /// Of a template, the least and the most.
    symbols: [usize; 2],
}

/// A valid sheet; about one in eight is as large as a sheet can be.
pub fn valid(random: &mut Random) -> Sheet {
    if random.chance(12) {
        return largest(random);
    }
    let l = count(random, 1, MOST_LETTERS);
    let v = count(random, 0, MOST_FIELDS);
    let e = count(random, 1, MOST_PAIRS);
    let r = count(random, 0, MOST_RULES);
    let size = Size {
        counts: [l, v, e, r],
        greatest_limit: GREATEST_LIMIT,
        symbols: [0, MOST_SYMBOLS],
    };
    sheet_of(random, &size)
}

/// A valid sheet with every count at its greatest: 159 bytes.
pub fn largest(random: &mut Random) -> Sheet {
    let size = Size {
        counts: [MOST_LETTERS, MOST_FIELDS, MOST_PAIRS, MOST_RULES],
        greatest_limit: GREATEST_LIMIT,
        symbols: [MOST_SYMBOLS, MOST_SYMBOLS],
    };
    sheet_of(random, &size)
}

/// A valid sheet with at most 2197 fillings.
pub fn small(random: &mut Random) -> Sheet {
    let l = random.within(1, 3);
    let v = random.within(0, 3);
    let e = random.within(1, 3);
    let r = random.within(0, 2);
    let size = Size {
        counts: [l, v, e, r],
        greatest_limit: 2,
        symbols: [0, 4],
    };
    sheet_of(random, &size)
}

/// A valid sheet with at most 2197 fillings, with any counts and limits that allow it.
pub fn of_few_fillings(random: &mut Random) -> Sheet {
    of_fillings(random, 0..=MOST_FILLINGS, 6)
}

/// A valid sheet with counts and limits that allow more fillings, but at most 20,000.
pub fn of_more_fillings(random: &mut Random) -> Sheet {
    of_fillings(random, MOST_FILLINGS + 1..=MOST_TRIED, 8)
}

/// A valid sheet with counts and limits that allow so many fillings, and templates of at most so
/// many symbols.
fn of_fillings(random: &mut Random, fillings: RangeInclusive<usize>, symbols: usize) -> Sheet {
    let (l, v, greatest_limit) = loop {
        let l = count(random, 1, MOST_LETTERS);
        let v = count(random, 1, MOST_FIELDS);
        let limit = count(random, 1, usize::from(GREATEST_LIMIT));
        if fillings.contains(&filling_count(l, v, limit)) {
            break (l, v, limit as u8);
        }
    };
    let e = count(random, 1, MOST_PAIRS);
    let r = count(random, 0, MOST_RULES);
    let size = Size {
        counts: [l, v, e, r],
        greatest_limit,
        symbols: [0, symbols],
    };
    sheet_of(random, &size)
}

/// How many fillings there are for `l` letters and `v` fields of one limit.
fn filling_count(l: usize, v: usize, limit: usize) -> usize {
    let texts: usize = (0..=limit as u32).map(|length| l.pow(length)).sum();
    texts.saturating_pow(v as u32)
}

/// All lengths, or all limits, together.
pub fn total(lengths: &[u8]) -> usize {
    lengths.iter().map(|&length| usize::from(length)).sum()
}

/// A number from `least` to `most`, often one of the two.
pub fn count(random: &mut Random, least: usize, most: usize) -> usize {
    if random.chance(30) {
        random.one_of(&[least, most])
    } else {
        random.within(least, most)
    }
}

/// A valid sheet of this size.
fn sheet_of(random: &mut Random, size: &Size) -> Sheet {
    let [l, v, e, r] = size.counts;
    let letters = letters(random, l);
    let greatest_limit = usize::from(size.greatest_limit);
    let limits: Vec<u8> = (0..v)
        .map(|_| count(random, 0, greatest_limit) as u8)
        .collect();
    let [least, most] = size.symbols;
    let side = |random: &mut Random| {
        let symbols = count(random, least, most);
        template(random, symbols, l, &limits)
    };
    let pairs = (0..e)
        .map(|_| Pair {
            left: side(random),
            right: side(random),
        })
        .collect();
    let rules = (0..r).map(|_| rule(random, v)).collect();
    Sheet {
        letters,
        limits,
        pairs,
        rules,
    }
}

/// `l` letters, rising: next to each other, or from the whole range.
pub fn letters(random: &mut Random, l: usize) -> Vec<u8> {
    let all: Vec<u8> = (LEAST_LETTER..=GREATEST_LETTER).collect();
    if random.chance(30) {
        let first = count(random, 0, all.len() - l);
        return all[first..first + l].to_vec();
    }
    let mut chosen = Vec::new();
    while chosen.len() < l {
        let letter = all[count(random, 0, all.len() - 1)];
        if !chosen.contains(&letter) {
            chosen.push(letter);
        }
    }
    chosen.sort();
    chosen
}

/// A template of this many symbols and a width of at most 24, often just 24.
pub fn template(random: &mut Random, symbols: usize, l: usize, limits: &[u8]) -> Template {
    let mut template = Vec::new();
    for to_come in (0..symbols).rev() {
        // Room for a letter is kept for each symbol to come, so that the width never ends above 24.
        let room = GREATEST_WIDTH - width(&template, limits) - to_come;
        let field = random.below(limits.len() + 1);
        let fits = field < limits.len() && usize::from(limits[field]) <= room;
        template.push(if fits && random.chance(80) {
            Symbol::Field(field as u8)
        } else {
            Symbol::Letter(count(random, 0, l - 1) as u8)
        });
    }
    template
}

fn rule(random: &mut Random, v: usize) -> Rule {
    let coefficients = (0..v)
        .map(|_| count(random, 0, 8) as i8 - GREATEST_COEFFICIENT)
        .collect();
    let limit = if random.chance(30) {
        random.one_of(&[0, -1, i16::MIN, i16::MAX])
    } else {
        random.bits() as i16
    };
    Rule {
        coefficients,
        limit,
    }
}

/// Damages a sheet in one to three places.
pub fn damage(random: &mut Random, sheet: &mut Vec<u8>) {
    for _ in 0..random.within(1, 3) {
        damage_once(random, sheet);
    }
}

/// Changes, removes or inserts a byte, or cuts the end off, or adds bytes to it.
fn damage_once(random: &mut Random, sheet: &mut Vec<u8>) {
    if sheet.is_empty() {
        sheet.push(random.byte());
        return;
    }
    let place = place(random, sheet.len());
    match random.below(16) {
        0 => {
            sheet.remove(place);
        }
        1 => sheet.insert(place, new_byte(random, sheet[place])),
        2 => sheet.truncate(place),
        3 => {
            let extra = random.within(1, 4);
            sheet.extend(random.bytes(extra));
        }
        _ => sheet[place] = new_byte(random, sheet[place]),
    }
}

/// An offset below `n`, which is not 0; the header's offsets come up more often than others.
fn place(random: &mut Random, n: usize) -> usize {
    if random.chance(15) {
        random.below(n.min(HEADER_BYTES))
    } else {
        random.below(n)
    }
}

/// Any byte, or one at the end of a range, or a neighbour of the old one.
fn new_byte(random: &mut Random, old: u8) -> u8 {
    match random.below(3) {
        0 => random.byte(),
        1 => random.one_of(&EDGES),
        _ => random.one_of(&[old.wrapping_sub(1), old.wrapping_add(1)]),
    }
}

/// The start of a valid sheet, followed by noise.
pub fn start_and_noise(random: &mut Random) -> Vec<u8> {
    let sheet = encode(&valid(random));
    cut_and_noise(random, sheet)
}

/// The start of some bytes, followed by bytes of which most are small or at the end of a range.
pub fn cut_and_noise(random: &mut Random, mut bytes: Vec<u8>) -> Vec<u8> {
    bytes.truncate(random.below(bytes.len()));
    for _ in 0..random.below(40) {
        let small = random.below(4) as u8;
        bytes.push(if random.chance(50) {
            small
        } else {
            new_byte(random, small)
        });
    }
    bytes
}
