//! The parts of the test that count what is in clause files, and write their lines and whole files.

use crate::changes::each_value_of_each_byte;
use crate::random::Random;
use crate::reader::{self, Pair, Rule, Sheet, Symbol, Template, GREATEST_WIDTH, MOST_SYMBOLS};
use crate::report::{require, Hex};
use crate::sheets;
use crate::test::Test;
use crate::writer::{self, File, Line, Written};

const SMALL: usize = 4000;
const OF_ALL_SIZES: usize = 60;
const LARGEST: usize = 6;
const LOOKED_INTO: usize = 2500;
const LINES_LOOKED_INTO: usize = 40;
const DAMAGED: usize = 40_000;
const TWINS_PERCENT: usize = 8;
const WIDENED_PERCENT: usize = 12;
const NEW_LIMIT_PERCENT: usize = 80;
const ALSO_SHORT_PERCENT: usize = 10;

/// A buffer of 80 is to be long enough for every line.
pub const ROOMY: usize = 80;

pub fn run(test: &mut Test) {
    test.part("document 01's clause file of P", known_file);
    test.part("all line numbers and buffers", all_numbers);
    test.part("lines, one byte of the sheet changed", small_changes);
    test.part("all lines of small sheets", small);
    test.part("all lines of sheets of all sizes", of_all_sizes);
    test.part("all lines of largest sheets", largest);
    test.part("some lines of generated sheets", looked_into);
    test.part("lines of refused sheets", refused);
}

const FILE_OF_P: &str = "\
p cnf 6 8
1 2 0
-1 -2 0
3 0
-3 -2 5 0
-3 2 6 0
-4 -2 6 0
-4 2 0
-5 0
";

/// Variables, clauses, bytes.
const COUNTS_OF_P: [u64; 3] = [6, 8, 69];

/// Holds the writer itself to document 01's own file and document 02's size of it, and the library too.
fn known_file(test: &mut Test) {
    let written = writer::write(sheets::P);
    let bytes = accepted(&written).bytes();
    require(
        bytes == FILE_OF_P.as_bytes(),
        "document 01 has another clause file",
        &[
            ("file", &String::from_utf8_lossy(&bytes)),
            ("due", &FILE_OF_P),
        ],
    );
    let counts = accepted(&written).counts();
    require(
        counts == COUNTS_OF_P,
        "P has other counts",
        &[("counts", &format!("{counts:?}"))],
    );
    every_line(test, &written, 100);
}

/// The file of a sheet that is known to be accepted.
pub fn accepted(written: &Written) -> &File {
    written.file.as_ref().ok().expect("an accepted sheet")
}

/// Line numbers at and beside the ends of what there is, and ones that a narrower type would cut to
/// those.
fn line_numbers(c: u64) -> Vec<u64> {
    let mut numbers = vec![u64::MAX, u64::MAX - c];
    for cut in [0, 1 << 8, 1 << 16, 1 << 31, 1 << 32, 1 << 63] {
        numbers.extend([0, 1, c / 2, c - 1, c, c + 1, c + 2].map(|number| cut + number));
    }
    numbers
}

/// Lengths of buffers for a line or a file of this length.
fn rooms(length: usize) -> [usize; 8] {
    [0, 1, length - 1, length, length + 1, length + 2, ROOMY, 300]
}

/// Each line number with each buffer.
fn all_numbers(test: &mut Test) {
    let fullest = sheets::encode(&fullest());
    let empty = b"TPL\0\x01\x01\0\x01\0A\0\0";
    for sheet in [empty, sheets::P, sheets::MIDDLE, &fullest] {
        let written = writer::write(sheet);
        for number in line_numbers(accepted(&written).clauses() as u64) {
            for room in rooms(length(&written, number)) {
                test.line(&written, number, room);
            }
        }
        for room in rooms(accepted(&written).size()) {
            test.file(&written, room);
        }
        test.count(&written);
    }
}

/// The length of a line, or 10 where there is none.
fn length(written: &Written, number: u64) -> usize {
    let line = written.line(number, usize::MAX);
    line.map_or(10, |line| line.bytes.len())
}

/// Each value of each byte: all lines of what P becomes, some of what a sheet of middle size does.
fn small_changes(test: &mut Test) {
    for changed in each_value_of_each_byte(sheets::P) {
        every_line(test, &writer::write(&changed), ALSO_SHORT_PERCENT);
    }
    for changed in each_value_of_each_byte(sheets::MIDDLE) {
        some_lines(test, &writer::write(&changed), 10);
    }
}

/// What becomes of `times` sheets that `make` makes.
fn each_varied(
    test: &mut Test,
    times: usize,
    make: fn(&mut Random) -> Sheet,
    compare: impl Fn(&mut Test, &Written),
) {
    for _ in 0..times {
        let mut sheet = make(&mut test.random);
        vary(&mut test.random, &mut sheet);
        compare(test, &writer::write(&sheets::encode(&sheet)));
    }
}

fn small(test: &mut Test) {
    each_varied(test, SMALL, sheets::small, |test, written| {
        every_line(test, written, 100)
    });
}

fn of_all_sizes(test: &mut Test) {
    each_varied(test, OF_ALL_SIZES, large, |test, written| {
        every_line(test, written, ALSO_SHORT_PERCENT)
    });
}

/// Sheets with every count at its greatest, and one with the most clauses.
fn largest(test: &mut Test) {
    each_varied(test, LARGEST, sheets::largest, |test, written| {
        every_line(test, written, ALSO_SHORT_PERCENT)
    });
    let written = writer::write(&sheets::encode(&fullest()));
    every_line(test, &written, ALSO_SHORT_PERCENT);
}

/// A sheet with the most clauses: templates of fields alone, all as wide as can be, and sums that are
/// all above their rule's limit.
pub fn fullest() -> Sheet {
    let template = |field| vec![Symbol::Field(field); 3];
    let rule = |coefficient| Rule {
        coefficients: vec![coefficient; 6],
        limit: i16::MIN,
    };
    Sheet {
        letters: b"ABCDEFGH".to_vec(),
        limits: vec![8; 6],
        pairs: [(5, 4), (3, 2), (5, 5), (2, 3)]
            .map(|(left, right)| Pair {
                left: template(left),
                right: template(right),
            })
            .to_vec(),
        rules: [4, -4, 4, -4].map(rule).to_vec(),
    }
}

fn looked_into(test: &mut Test) {
    each_varied(test, LOOKED_INTO, large, |test, written| {
        some_lines(test, written, LINES_LOOKED_INTO)
    });
}

/// Damaged sheets; those that are still accepted are passed over.
fn refused(test: &mut Test) {
    for _ in 0..DAMAGED {
        let random = &mut test.random;
        let mut bytes = sheets::encode(&sheets::valid(random));
        sheets::damage(random, &mut bytes);
        if reader::read(&bytes).is_err() {
            compare_refused(test, &writer::write(&bytes));
        }
    }
}

/// A valid sheet of any size, with some templates made as wide as can be.
pub fn large(random: &mut Random) -> Sheet {
    let mut sheet = sheets::valid(random);
    for pair in &mut sheet.pairs {
        if random.chance(WIDENED_PERCENT) {
            widen(random, &mut pair.left, &sheet.limits);
            widen(random, &mut pair.right, &sheet.limits);
        }
    }
    sheet
}

/// Adds symbols, most of them fields, until the width or the symbol count is at its greatest.
fn widen(random: &mut Random, template: &mut Template, limits: &[u8]) {
    while template.len() < MOST_SYMBOLS {
        let room = GREATEST_WIDTH - reader::width(template, limits);
        if room == 0 {
            return;
        }
        let field = random.below(limits.len() + 1);
        let fits = field < limits.len() && usize::from(limits[field]) <= room;
        template.push(if fits {
            Symbol::Field(field as u8)
        } else {
            Symbol::Letter(0)
        });
    }
}

/// Puts most rules' limits to the ends of their range or near the sums that there are, and gives some
/// pairs one template twice.
pub fn vary(random: &mut Random, sheet: &mut Sheet) {
    for pair in &mut sheet.pairs {
        if random.chance(TWINS_PERCENT) {
            pair.right = pair.left.clone();
        }
    }
    for rule in &mut sheet.rules {
        if random.chance(NEW_LIMIT_PERCENT) {
            let sums = writer::sums(rule, &sheet.limits, sheet.limits.len());
            let (least, greatest) = (*sums.start(), *sums.end());
            let between = least + random.below((greatest - least + 1) as usize) as i32;
            let near = random.one_of(&[least - 1, least, greatest - 1, greatest, between]);
            rule.limit = random.one_of(&[near as i16, near as i16, i16::MIN, i16::MAX]);
        }
    }
}

/// The counts, the whole file and all lines, each in a buffer that is long enough, and in `also_short`
/// of 100 cases in one that is not.
fn every_line(test: &mut Test, written: &Written, also_short: usize) {
    let file = match &written.file {
        Ok(file) => file,
        Err(_) => return compare_refused(test, written),
    };
    compare_counts(test, written, file);
    for number in 0..=file.clauses() as u64 {
        compare_line(test, written, number);
        if test.random.chance(also_short) {
            compare_short(test, written, number);
        }
    }
}

/// The counts, the whole file and `times` lines, each in a buffer that is long enough and in one that
/// is not.
fn some_lines(test: &mut Test, written: &Written, times: usize) {
    let file = match &written.file {
        Ok(file) => file,
        Err(_) => return compare_refused(test, written),
    };
    compare_counts(test, written, file);
    for _ in 0..times {
        let number = sheets::count(&mut test.random, 0, file.clauses()) as u64;
        compare_line(test, written, number);
        compare_short(test, written, number);
    }
}

/// The counts, the whole file, and a line above those that there are.
fn compare_counts(test: &mut Test, written: &Written, file: &File) {
    let clauses = file.clauses() as u64;
    let fits = |line: &Line| line.bytes.len() <= ROOMY;
    require(
        file.lines.iter().all(fits),
        "a line is longer than 80",
        &[("sheet", &Hex(&written.sheet))],
    );
    test.count(written);
    for room in [room(test, file.size()), short_room(test, file.size())] {
        test.file(written, room);
    }
    for room in [0, ROOMY] {
        test.line(written, clauses + 1, room);
        let above = test.random.one_of(&[1 << 32, 1 << 63, u64::MAX - clauses]);
        let number = above + test.random.below(clauses as usize + 1) as u64;
        test.line(written, number, room);
    }
}

fn compare_line(test: &mut Test, written: &Written, number: u64) {
    let room = room(test, length(written, number));
    test.line(written, number, room);
}

fn compare_short(test: &mut Test, written: &Written, number: u64) {
    let room = short_room(test, length(written, number));
    test.line(written, number, room);
}

/// The length of a buffer that is long enough for so many bytes, often just so.
fn room(test: &mut Test, length: usize) -> usize {
    let longer = length + test.random.within(1, 40);
    test.random.one_of(&[length, length, length + 1, longer])
}

/// The length of a buffer that is shorter, most often by one byte.
fn short_room(test: &mut Test, length: usize) -> usize {
    let shorter = test.random.below(length);
    let short = length - 1;
    test.random.one_of(&[short, short, short, shorter])
}

/// A refused sheet's counts, its line 0 and a line that no sheet has, and its file.
fn compare_refused(test: &mut Test, written: &Written) {
    test.count(written);
    test.line(written, 0, ROOMY);
    test.line(written, u64::MAX, 0);
    for room in [0, ROOMY] {
        test.file(written, room);
    }
}
