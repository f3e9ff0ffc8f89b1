//! Makes replies to test with: true assignments, listed and set out in many ways, and ways to
//! damage them. It knows the form, and nothing of which refusal a damage leads to.

use crate::assignment::Numbered;
use crate::fillings;
use crate::random::Random;
use crate::reader::{Sheet, Symbol};
use crate::speller::{self, Filling};
use crate::writer::{self, Cell, Variable};

/// The numbers of all variables as a solver lists them that found this filling, minus for false, and
/// the 0.
pub fn listing(sheet: &Sheet, filling: &Filling) -> Vec<i64> {
    let signed = |(variable, number): (Variable, i64)| {
        if is_true(sheet, filling, variable) {
            number
        } else {
            -number
        }
    };
    let variables = writer::variables(sheet).into_iter().zip(1..);
    variables.map(signed).chain([0]).collect()
}

fn is_true(sheet: &Sheet, filling: &Filling, variable: Variable) -> bool {
    match variable {
        Variable::K(f, c, a) => a == value(sheet, filling, f, c),
        Variable::S(p, i, j) => {
            let pair = &sheet.pairs[p];
            rest(sheet, filling, &pair.left, i) == rest(sheet, filling, &pair.right, j)
        }
        Variable::T(r, k, s) => s == speller::sum(&sheet.rules[r], &filling[..k].to_vec()),
    }
}

/// What a place holds: a letter's number, or the one after the last letter's for a blank.
fn value(sheet: &Sheet, filling: &Filling, field: usize, place: usize) -> usize {
    let letter = filling[field].get(place);
    letter.map_or(sheet.letters.len(), |&letter| usize::from(letter))
}

/// What a template's cells spell from one of them on.
fn rest(sheet: &Sheet, filling: &Filling, template: &[Symbol], from: usize) -> Vec<usize> {
    let held = |cell: Cell| match cell {
        Cell::Letter(letter) => letter,
        Cell::Place(field, place) => value(sheet, filling, field, place),
    };
    let cells = writer::cells(template, &sheet.limits).into_iter();
    let values = cells.skip(from).map(held);
    values.filter(|&a| a < sheet.letters.len()).collect()
}

/// Lists the same values of all places in another way.
pub fn vary(random: &mut Random, sheet: &Numbered, numbers: &mut Vec<i64>) {
    let is_place = |number: i64| number.unsigned_abs() as usize <= place_variables(&sheet.sheet);
    match random.below(5) {
        0 => numbers.retain(|&number| number >= 0),
        1 => numbers.retain(|&number| number == 0 || number > 0 && is_place(number)),
        2 => {
            for number in numbers.iter_mut().filter(|number| !is_place(**number)) {
                *number *= random.one_of(&[1, -1]);
            }
        }
        3 => {
            let last = numbers.len() - 1;
            for place in 0..last {
                numbers.swap(place, random.below(last));
            }
        }
        _ => {}
    }
}

/// How many K there are.
fn place_variables(sheet: &Sheet) -> usize {
    let places: usize = sheet.limits.iter().map(|&limit| usize::from(limit)).sum();
    places * (sheet.letters.len() + 1)
}

pub const STATUS: &[u8] = b"s SATISFIABLE";

/// Lines that are skipped, and some that are not.
const COMMENTS: [&[u8]; 8] = [
    b"c",
    b"c ",
    b"c 1 -1 0",
    b"cv 1 0",
    b"c s SATISFIABLE",
    b"c\r",
    b"c\t\0\xFF+",
    b"comment",
];
const OTHER_LINES: [&[u8]; 21] = [
    b"",
    STATUS,
    b"s UNSATISFIABLE",
    b"s UNKNOWN",
    b"s SATISFIABLE ",
    b"s",
    b"SAT",
    b"v",
    b"v ",
    b"v 0",
    b"v -0",
    b"v 1",
    b"v -2",
    b"v\r",
    b"v1",
    b"version",
    b"0",
    b"1 0",
    b"p cnf 6 8",
    b" c",
    b"C",
];

/// A text that lists these numbers, on a line or on many, sometimes with comments and with v lines
/// that list nothing.
pub fn set_out(random: &mut Random, numbers: &[i64]) -> Vec<u8> {
    let on_a_line = random.one_of(&[1, 3, 15, usize::MAX]);
    let mut lines = vec![STATUS.to_vec()];
    for some in numbers.chunks(on_a_line) {
        let words: String = some.iter().map(|number| format!(" {number}")).collect();
        lines.push([b"v", words.as_bytes()].concat());
    }
    if random.chance(10) {
        lines.insert(random.within(1, lines.len()), b"v".to_vec());
    }
    for _ in 0..random.one_of(&[0, 0, 0, 1, 4]) {
        let comment = random.one_of(&COMMENTS);
        lines.insert(random.within(0, lines.len()), comment.to_vec());
    }
    ended(&lines)
}

/// The text of these lines.
fn ended(lines: &[Vec<u8>]) -> Vec<u8> {
    lines
        .iter()
        .flat_map(|line| [line, &b"\n"[..]].concat())
        .collect()
}

/// Damages what is listed: what places hold, or a number at the end of what there is.
pub fn damage_listing(random: &mut Random, sheet: &Numbered, numbers: &mut Vec<i64>) {
    let limits = sheet.sheet.limits.iter().enumerate();
    let fields: Vec<usize> = limits
        .filter(|limit| *limit.1 > 0)
        .map(|limit| limit.0)
        .collect();
    if fields.is_empty() || random.chance(15) {
        let count = sheet.numbers.len() as i64;
        let number = random.one_of(&[count, count + 1, count + 2]) * random.one_of(&[1, -1]);
        numbers.insert(random.below(numbers.len()), number);
        return;
    }
    let field = random.one_of(&fields);
    let limit = usize::from(sheet.sheet.limits[field]);
    let place = random.below(limit);
    let blank = sheet.sheet.letters.len();
    match random.below(6) {
        0 => hold(sheet, numbers, field, place, &[]),
        1 => {
            let two = [random.below(blank), blank];
            hold(sheet, numbers, field, place, &two);
        }
        2 => hold(sheet, numbers, field, place, &[random.below(blank)]),
        3 => hold(sheet, numbers, field, place, &[blank]),
        4 if limit > 1 => {
            let place = random.below(limit - 1);
            hold(sheet, numbers, field, place, &[blank]);
            hold(sheet, numbers, field, place + 1, &[random.below(blank)]);
        }
        _ => hold_filling(random, sheet, numbers),
    }
}

/// Lists these values as the true ones of a place.
fn hold(sheet: &Numbered, numbers: &mut Vec<i64>, field: usize, place: usize, values: &[usize]) {
    for a in 0..=sheet.sheet.letters.len() {
        let number = sheet.numbers[&Variable::K(field, place, a)] as i64;
        numbers.retain(|listed| listed.abs() != number);
        let signed = if values.contains(&a) { number } else { -number };
        numbers.insert(0, signed);
    }
}

/// Lists another filling, which may or may not clash.
fn hold_filling(random: &mut Random, sheet: &Numbered, numbers: &mut Vec<i64>) {
    let filling = fillings::legal(random, &sheet.sheet);
    for (field, &limit) in sheet.sheet.limits.iter().enumerate() {
        for place in 0..usize::from(limit) {
            let value = value(&sheet.sheet, &filling, field, place);
            hold(sheet, numbers, field, place, &[value]);
        }
    }
}

/// Damages the text of a reply in one to three places: in a number of a v line, in its lines, or in
/// its bytes.
pub fn damage(random: &mut Random, text: &mut Vec<u8>) {
    for _ in 0..random.one_of(&[1, 1, 1, 2, 3]) {
        match random.below(3) {
            0 => damage_word(random, text),
            1 => damage_line(random, text),
            _ => damage_byte(random, text),
        }
    }
}

/// The lines of a text; after the last end there is a line of no bytes, or one that has no end.
fn lines(text: &[u8]) -> Vec<Vec<u8>> {
    text.split(|&byte| byte == b'\n')
        .map(<[u8]>::to_vec)
        .collect()
}

/// What may come of a number: other numbers, and what is none.
const WORDS: [fn(&[u8]) -> Vec<Vec<u8>>; 19] = [
    |_| vec![],
    |word| vec![word.to_vec(); 2],
    |word| vec![word.to_vec(), opposite(word)],
    |word| vec![opposite(word), word.to_vec()],
    |word| vec![opposite(word)],
    |word| vec![b"0".to_vec(), word.to_vec()],
    |word| vec![word.to_vec(), b"0".to_vec()],
    |word| vec![word.to_vec(), b"1".to_vec()],
    |_| vec![b"999999999".to_vec()],
    |_| vec![b"-999999999".to_vec()],
    |_| vec![b"1000000001".to_vec()],
    |_| vec![b"-0".to_vec()],
    |_| vec![b"-".to_vec()],
    |word| vec![[b"0", word].concat()],
    |word| vec![[b"+", word].concat()],
    |word| vec![[b"-", word].concat()],
    |word| vec![[b"\t", word].concat()],
    |word| vec![Vec::new(), word.to_vec()],
    |word| vec![word.to_vec(), Vec::new()],
];

/// A number with the other sign.
fn opposite(word: &[u8]) -> Vec<u8> {
    match word.strip_prefix(b"-") {
        Some(digits) => digits.to_vec(),
        None => [b"-", word].concat(),
    }
}

/// Changes a number of a v line, or where there is none, any line.
fn damage_word(random: &mut Random, text: &mut Vec<u8>) {
    let mut all = lines(text);
    let listing = all.iter_mut().filter(|line| line.starts_with(b"v "));
    let mut listing: Vec<&mut Vec<u8>> = listing.collect();
    if listing.is_empty() {
        return damage_line(random, text);
    }
    let chosen = random.below(listing.len());
    let line = &mut listing[chosen];
    let mut words: Vec<Vec<u8>> = line
        .split(|&byte| byte == b' ')
        .map(<[u8]>::to_vec)
        .collect();
    let place = random.within(1, words.len() - 1);
    let changed = random.one_of(&WORDS)(&words[place]);
    words.splice(place..=place, changed);
    **line = words.join(&b' ');
    *text = all.join(&b'\n');
}

/// Drops, doubles, swaps, adds or changes a line, or ends lines in another way.
fn damage_line(random: &mut Random, text: &mut Vec<u8>) {
    let mut all = lines(text);
    let place = random.below(all.len());
    let other = random.below(all.len());
    match random.below(10) {
        0 => {
            all.remove(place);
        }
        1 => all.insert(place, all[other].clone()),
        2 => all.swap(place, other),
        3 => all.insert(place, random.one_of(&OTHER_LINES).to_vec()),
        4 => all[place] = random.one_of(&OTHER_LINES).to_vec(),
        5 => all[place].push(random.one_of(b" \r\t0")),
        6 => all[place].insert(0, random.one_of(b" \tcsv")),
        7 => all.iter_mut().for_each(|line| line.push(b'\r')),
        8 => {
            let status = all.iter().position(|line| line == STATUS);
            all.swap(status.unwrap_or(0), other);
        }
        _ => {
            all.pop();
        }
    }
    *text = all.join(&b'\n');
}

/// Bytes that a reply has, or that stand where they do.
const USUAL: &[u8] = b"\n\n  \t\r0019-+csv.";

/// Changes, drops, doubles or swaps a byte, or cuts the end off.
fn damage_byte(random: &mut Random, text: &mut Vec<u8>) {
    if text.is_empty() {
        text.push(random.one_of(USUAL));
        return;
    }
    let place = random.below(text.len());
    match random.below(8) {
        0 => text[place] = random.byte(),
        1 | 2 => text[place] = random.one_of(USUAL),
        3 => {
            text.remove(place);
        }
        4 => text.insert(place, text[place]),
        5 => text.insert(place, random.one_of(USUAL)),
        6 => text.swap(place.saturating_sub(1), place),
        _ => text.truncate(place),
    }
}
