//! The parts of the test that compare a file's size where its numbers get a digit more: on sheets in
//! which the variables of a place, a row of locations or the like end at a power of ten or beside it,
//! and on sheets with about so many clauses.

use crate::random::Random;
use crate::reader::Sheet;
use crate::report::require;
use crate::sheets;
use crate::test::Test;
use crate::writer::{self, Variable};
use crate::writing;
use std::collections::BTreeMap;
use Variable::{K, S, T};

/// So many sheets are compared for each number, and no more are tried than so many.
const OF_EACH: usize = 12;
const MOST_TRIED: usize = 400_000;

pub fn run(test: &mut Test) {
    test.part("variables around powers of ten", variables);
    test.part("clauses around powers of ten", clauses);
}

/// No sheet has as many as 10,000 variables, or 1000 of K.
const UP_TO_1000: &[usize] = &[9, 10, 11, 99, 100, 101, 999, 1000, 1001];
const UP_TO_100: &[usize] = &[9, 10, 11, 99, 100, 101];
/// The values of a place are 2 to 9, and 11 and 101 are no product of such a number and another.
const PRODUCTS: &[usize] = &[9, 10, 99, 100];
/// No sheet has as many as 100,000 clauses.
const UP_TO_10000: &[usize] = &[
    9, 10, 11, 99, 100, 101, 999, 1000, 1001, 9999, 10_000, 10_001,
];

/// What is wanted, and for which numbers.
type Numbers = (&'static str, &'static [usize]);

/// Where the number of a variable may stand: at the end of something, or inside it.
const BORDERS: [Numbers; 12] = [
    ("inside a place", UP_TO_100),
    ("at the end of a place", PRODUCTS),
    ("at the end of a field", PRODUCTS),
    ("at the end of K", PRODUCTS),
    ("inside a row of locations", UP_TO_1000),
    ("at the end of a row", UP_TO_1000),
    ("at the end of a pair", UP_TO_1000),
    ("at the end of S, before T", UP_TO_1000),
    ("inside the sums of some fields", UP_TO_1000),
    ("at the end of the sums of some fields", UP_TO_1000),
    ("at the end of a rule", UP_TO_1000),
    ("at the end of all variables", UP_TO_1000),
];
const CLAUSES: [Numbers; 1] = [("at the end of all clauses", UP_TO_10000)];

/// Where a variable stands, by the next one.
fn border(last: Variable, next: Option<Variable>) -> &'static str {
    match (last, next) {
        (_, None) => "at the end of all variables",
        (K(f, ..), Some(K(g, ..))) if f != g => "at the end of a field",
        (K(_, c, _), Some(K(_, d, _))) if c != d => "at the end of a place",
        (K(..), Some(K(..))) => "inside a place",
        (K(..), Some(_)) => "at the end of K",
        (S(p, ..), Some(S(q, ..))) if p != q => "at the end of a pair",
        (S(_, i, _), Some(S(_, j, _))) if i != j => "at the end of a row",
        (S(..), Some(S(..))) => "inside a row of locations",
        (S(..), Some(_)) => "at the end of S, before T",
        (T(r, ..), Some(T(s, ..))) if r != s => "at the end of a rule",
        (T(_, k, _), Some(T(_, l, _))) if k != l => "at the end of the sums of some fields",
        (T(..), Some(_)) => "inside the sums of some fields",
    }
}

/// What is met, and for which number.
type Met = (&'static str, usize);

/// Where each variable of a sheet stands whose number is wanted.
fn borders(sheet: &Sheet) -> Vec<Met> {
    let variables = writer::variables(sheet);
    let at = |&number: &usize| {
        let last = *variables.get(number - 1)?;
        let next = variables.get(number).copied();
        Some((border(last, next), number))
    };
    UP_TO_1000.iter().filter_map(at).collect()
}

/// How often each number that is wanted was met.
struct Wanted {
    met: BTreeMap<Met, usize>,
}

impl Wanted {
    fn new(all: &[Numbers]) -> Wanted {
        let of_one =
            |&(name, numbers): &Numbers| numbers.iter().map(move |&number| ((name, number), 0));
        Wanted {
            met: all.iter().flat_map(of_one).collect(),
        }
    }

    /// Is this wanted, and not met often enough yet?
    fn lacks(&self, met: &Met) -> bool {
        self.met.get(met).map_or(false, |&times| times < OF_EACH)
    }

    fn is_lacking(&self) -> bool {
        self.met.keys().any(|met| self.lacks(met))
    }

    fn count(&mut self, met: &[Met]) {
        for met in met {
            if let Some(times) = self.met.get_mut(met) {
                *times += 1;
            }
        }
    }

    /// Prints how often each number was met, and fails if one was met too seldom.
    fn finish(&self, all: &[Numbers]) {
        for &(name, numbers) in all {
            let times = |&number: &usize| format!("{number} {}", self.met[&(name, number)]);
            let times: Vec<String> = numbers.iter().map(times).collect();
            println!("outside: sheets with a number {name}: {}", times.join(", "));
        }
        require(
            !self.is_lacking(),
            "a number was met too seldom to be tested",
            &[("least", &OF_EACH)],
        );
    }
}

/// Sheets in which a variable stands where one of its number is wanted, until each was met often enough.
fn variables(test: &mut Test) {
    let mut wanted = Wanted::new(&BORDERS);
    for _ in 0..MOST_TRIED {
        let sheet = of_any_size(&mut test.random);
        let met = borders(&sheet);
        if met.iter().any(|met| wanted.lacks(met)) {
            compare(test, &sheet);
            wanted.count(&met);
        }
        if !wanted.is_lacking() {
            break;
        }
    }
    wanted.finish(&BORDERS);
}

/// Sheets that have a number of clauses that is wanted, or are given it by the limit of a rule.
fn clauses(test: &mut Test) {
    let [(name, numbers)] = CLAUSES;
    let mut wanted = Wanted::new(&CLAUSES);
    for _ in 0..MOST_TRIED {
        let mut sheet = of_any_size(&mut test.random);
        let more = put_none_above(&mut sheet);
        let least = writer::clause_count(&sheet);
        let reached = |&&number: &&usize| (least..=least + more).contains(&number);
        let mut numbers = numbers.iter().filter(reached);
        if let Some(&number) = numbers.find(|&&number| wanted.lacks(&(name, number))) {
            put_above(&mut sheet, number - least);
            wanted.count(&[(name, compare(test, &sheet))]);
        }
        if !wanted.is_lacking() {
            break;
        }
    }
    wanted.finish(&CLAUSES);
}

/// Gives the last rule, if there is one, a limit that no sum is above, and answers how many sums it
/// has. Each that comes to be above the limit has a clause.
fn put_none_above(sheet: &mut Sheet) -> usize {
    sheet.rules.last_mut().map_or(0, |rule| {
        let sums = writer::sums(rule, &sheet.limits, sheet.limits.len());
        rule.limit = *sums.end() as i16;
        sums.count()
    })
}

/// Lowers the limit of the last rule, if there is one, so that so many sums come to be above it.
fn put_above(sheet: &mut Sheet, sums: usize) {
    if let Some(rule) = sheet.rules.last_mut() {
        rule.limit -= sums as i16;
    }
}

fn of_any_size(random: &mut Random) -> Sheet {
    let make = random.one_of(&[sheets::small, sheets::of_few_fillings, writing::large]);
    make(random)
}

/// Compares the counts and the whole file, and answers how many clauses there are.
fn compare(test: &mut Test, sheet: &Sheet) -> usize {
    let written = writer::write(&sheets::encode(sheet));
    test.count(&written);
    let file = writing::accepted(&written);
    test.file(&written, file.size());
    file.clauses()
}
