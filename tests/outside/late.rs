//! Large sheets of which ranges of lengths tell little: walks along their templates go far before
//! they meet a place that is open, or meet one at once at both ends; and what keeps a sheet apart
//! stands in the middle, in several pairs together, or in the count of a letter.

use crate::planted;
use crate::random::Random;
use crate::reader::*;
use crate::sheets;
use crate::writer;

pub struct Family {
    pub name: &'static str,
    pub make: fn(&mut Random) -> Sheet,
}

pub const FAMILIES: [Family; 7] = [
    Family {
        name: "long common ends",
        make: common_ends,
    },
    Family {
        name: "full fields on both sides",
        make: full_fields,
    },
    Family {
        name: "a letter in the middle",
        make: middle,
    },
    Family {
        name: "fields shared crosswise",
        make: crosswise,
    },
    Family {
        name: "rules that leave ranges wide",
        make: wide_rules,
    },
    Family {
        name: "long texts",
        make: long_texts,
    },
    Family {
        name: "letters to be counted",
        make: counted,
    },
];

const SPOILED_PERCENT: usize = 50;
const TOTAL_PERCENT: usize = 70;
/// How many symbols a side of a pair has where letters are to be counted.
const HAND: usize = 6;

/// Both templates of a pair start the same and end the same. Between they have the same symbols in
/// another order.
fn common_ends(random: &mut Random) -> Sheet {
    let mut sheet = bare(random, 5, [3, 6]);
    for _ in 0..random.within(1, 3) {
        let left = long(random, &sheet);
        let third = left.len() / 3;
        let (start, rest) = left.split_at(third);
        let (middle, end) = rest.split_at(rest.len() - third);
        let right = [start, &planted::shuffled(random, middle), end].concat();
        sheet.pairs.push(Pair { left, right });
    }
    finished(random, sheet)
}

/// Few fields, with limits of 7 and 8, three in each template. Most walks stop at once at both ends.
fn full_fields(random: &mut Random) -> Sheet {
    let v = random.within(3, 5);
    let mut sheet = bare(random, v, [7, 8]);
    for _ in 0..random.within(1, MOST_PAIRS) {
        let fields = fields(random, v, 3);
        let left = with_letters(random, &sheet, &fields, 3);
        let right = planted::shuffled(random, &left);
        sheet.pairs.push(Pair { left, right });
    }
    finished(random, sheet)
}

/// Before a letter in the middle, and after it, both templates have the same symbols in another
/// order.
fn middle(random: &mut Random) -> Sheet {
    let mut sheet = bare(random, 5, [3, 8]);
    for _ in 0..random.within(1, 2) {
        let mut left = long(random, &sheet);
        let half = left.len() / 2;
        left[half] = letter(random, &sheet);
        let before = planted::shuffled(random, &left[..half]);
        let after = planted::shuffled(random, &left[half + 1..]);
        let right = [&before[..], &left[half..=half], &after].concat();
        sheet.pairs.push(Pair { left, right });
    }
    finished(random, sheet)
}

/// Each pair has all six fields, three on a side, dealt anew.
fn crosswise(random: &mut Random) -> Sheet {
    let mut sheet = bare(random, MOST_FIELDS, [5, 8]);
    let all: Template = (0..MOST_FIELDS as u8).map(Symbol::Field).collect();
    for _ in 0..random.one_of(&[2, 2, 3]) {
        let fields = planted::shuffled(random, &all);
        let (left, right) = fields.split_at(MOST_FIELDS / 2);
        let left = with_letters(random, &sheet, left, 1);
        let right = with_letters(random, &sheet, right, 1);
        sheet.pairs.push(Pair { left, right });
    }
    of_a_total(random, sheet)
}

/// One of the sheets above, with rules that exclude many lengths together and few of one field.
fn wide_rules(random: &mut Random) -> Sheet {
    let makers = [common_ends, full_fields, middle, crosswise];
    let mut sheet = random.one_of(&makers)(random);
    for _ in 0..random.within(1, MOST_RULES - 1) {
        let coefficients = sheet.limits.iter();
        let mut rule = Rule {
            coefficients: coefficients
                .map(|_| random.one_of(&[-2, -1, -1, 0, 1, 1, 2]))
                .collect(),
            limit: 0,
        };
        let sums = writer::sums(&rule, &sheet.limits, sheet.limits.len());
        let middle = (sums.start() + sums.end()) / 2;
        rule.limit = middle as i16 - random.below(8) as i16;
        sheet.rules.push(rule);
    }
    sheet
}

/// A filling of long texts clashes, or does so but for a letter in the middle of a template; a rule
/// asks for texts about as long.
fn long_texts(random: &mut Random) -> Sheet {
    let v = random.within(4, MOST_FIELDS);
    let mut sheet = bare(random, v, [6, 8]);
    for _ in 0..random.within(2, MOST_PAIRS) {
        sheet.pairs.push(Pair {
            left: Vec::new(),
            right: Vec::new(),
        });
    }
    let limits = sheet.limits.iter();
    let lengths: Vec<u8> = limits.map(|&limit| limit - random.below(3) as u8).collect();
    planted::plant_parts(random, &mut sheet, &lengths);
    ask_for(&mut sheet, sheets::total(&lengths) - random.below(6));
    spoil(random, &mut sheet);
    sheet
}

/// Of all pairs together, some of them turned round, both sides have the same symbols; or one side
/// has a letter in the place of another, or a field too in the place of another.
fn counted(random: &mut Random) -> Sheet {
    let v = random.within(5, MOST_FIELDS);
    let mut sheet = bare(random, v, [3, 4]);
    let pairs = random.within(1, MOST_PAIRS);
    let letters = pairs * random.within(1, 2);
    let mut symbols = fields(random, v, HAND * pairs - letters);
    symbols.extend((0..letters).map(|_| letter(random, &sheet)));
    let left = planted::shuffled(random, &symbols);
    let changed = random.below(3);
    if changed > 0 {
        planted::change_letter(random, &mut symbols, sheet.letters.len());
    }
    if changed > 1 {
        symbols[0] = fields(random, v, 1)[0];
    }
    let right = planted::shuffled(random, &symbols);
    for (left, right) in left.chunks(HAND).zip(right.chunks(HAND)) {
        let mut sides = [left.to_vec(), right.to_vec()];
        sides.rotate_left(random.below(2));
        let [left, right] = sides;
        sheet.pairs.push(Pair { left, right });
    }
    of_a_total(random, sheet)
}

/// Can nothing clash, by a count of symbols? Of some pairs together, each as it stands or turned
/// round, one side has each field at least as often as the other, and some letter more often.
pub fn is_lopsided(sheet: &Sheet) -> bool {
    let mut surpluses = vec![[0; SYMBOLS]];
    for pair in &sheet.pairs {
        let of_pair = surplus(pair);
        let with = |all: &[i32; SYMBOLS]| {
            [-1, 0, 1].map(|factor| {
                let mut all = *all;
                for (sum, more) in all.iter_mut().zip(of_pair) {
                    *sum += factor * more;
                }
                all
            })
        };
        surpluses = surpluses.iter().flat_map(with).collect();
    }
    surpluses.iter().any(|surplus| {
        let (letters, fields) = surplus.split_at(MOST_LETTERS);
        fields.iter().all(|&more| more >= 0) && letters.iter().any(|&more| more > 0)
    })
}

/// Letters, and after them fields.
const SYMBOLS: usize = MOST_LETTERS + MOST_FIELDS;

/// How much more often each symbol stands left than right.
fn surplus(pair: &Pair) -> [i32; SYMBOLS] {
    let mut surplus = [0; SYMBOLS];
    for (template, one) in [(&pair.left, 1), (&pair.right, -1)] {
        for &symbol in template {
            let number = match symbol {
                Symbol::Letter(letter) => usize::from(letter),
                Symbol::Field(field) => MOST_LETTERS + usize::from(field),
            };
            surplus[number] += one;
        }
    }
    surplus
}

/// Letters, of which there are few in most sheets, and `v` fields with limits in this range.
fn bare(random: &mut Random, v: usize, limits: [usize; 2]) -> Sheet {
    let l = random.one_of(&[2, 2, 3, MOST_LETTERS]);
    let [least, most] = limits;
    Sheet {
        letters: (b'a'..).take(l).collect(),
        limits: (0..v).map(|_| random.within(least, most) as u8).collect(),
        pairs: Vec::new(),
        rules: Vec::new(),
    }
}

fn letter(random: &mut Random, sheet: &Sheet) -> Symbol {
    Symbol::Letter(random.below(sheet.letters.len()) as u8)
}

/// `n` of the first `v` fields.
fn fields(random: &mut Random, v: usize, n: usize) -> Template {
    (0..n)
        .map(|_| Symbol::Field(random.below(v) as u8))
        .collect()
}

/// A template of many symbols.
fn long(random: &mut Random, sheet: &Sheet) -> Template {
    let symbols = random.within(6, MOST_SYMBOLS);
    let template = sheets::template(random, symbols, sheet.letters.len(), &sheet.limits);
    planted::shuffled(random, &template)
}

/// These fields with letters between them, up to `most` if the width allows it.
fn with_letters(random: &mut Random, sheet: &Sheet, fields: &[Symbol], most: usize) -> Template {
    let room = GREATEST_WIDTH - width(fields, &sheet.limits);
    let mut template = fields.to_vec();
    for _ in 0..random.within(0, room.min(most)) {
        let place = random.below(template.len() + 1);
        template.insert(place, letter(random, sheet));
    }
    template
}

/// In some sheets the first pair gets another field, so that a count of symbols tells less, and in
/// some of these a letter in the middle is another one. In most not everything can be empty.
fn finished(random: &mut Random, mut sheet: Sheet) -> Sheet {
    if random.chance(SPOILED_PERCENT) {
        change_field(random, &mut sheet.pairs[0].right, &sheet.limits);
        spoil(random, &mut sheet);
    }
    of_a_total(random, sheet)
}

/// Makes the first field of a template, if it has one, another one that is no wider.
fn change_field(random: &mut Random, template: &mut Template, limits: &[u8]) {
    let other = random.below(limits.len());
    let mut symbols = template.iter_mut();
    let is_wider = |symbol: &&mut Symbol| match **symbol {
        Symbol::Field(field) => limits[usize::from(field)] >= limits[other],
        Symbol::Letter(_) => false,
    };
    if let Some(symbol) = symbols.find(is_wider) {
        *symbol = Symbol::Field(other as u8);
    }
}

/// Makes a letter in the middle another one in some sheets.
fn spoil(random: &mut Random, sheet: &mut Sheet) {
    if random.chance(SPOILED_PERCENT) {
        planted::spoil_middle(random, sheet);
    }
}

fn of_a_total(random: &mut Random, mut sheet: Sheet) -> Sheet {
    if random.chance(TOTAL_PERCENT) {
        let places = sheets::total(&sheet.limits);
        ask_for(&mut sheet, random.within(1, places / 2));
    }
    sheet
}

/// Adds the rule that all lengths together are at least `total`.
fn ask_for(sheet: &mut Sheet, total: usize) {
    sheet.rules.push(Rule {
        coefficients: vec![-1; sheet.limits.len()],
        limit: -(total as i16),
    });
}
