//! Large sheets, of which nobody can try all fillings: what the search says of each is held to what
//! SAT solvers say of the library's clause file. The answers to the hard sheets are held to it too.
//! The clash that is given is held to the plain search's; no solver's clash is before it, and solvers
//! are asked as well whether there is one at sooner lengths.

use crate::assignment::{self, Numbered};
use crate::first;
use crate::hard;
use crate::late::{self, Family, FAMILIES};
use crate::met::Met;
use crate::order;
use crate::planted;
use crate::question;
use crate::random::Random;
use crate::reader::{Rule, Sheet, MOST_RULES};
use crate::report::{require, Hex};
use crate::searches::{self, Searches, ROOMY};
use crate::shapes;
use crate::sheets;
use crate::small;
use crate::solver::{self, Answer, Solver};
use crate::speller::{self, Filling, Verdict};
use crate::tally::Tally;

const SHEETS: usize = 520;
/// How many sheets of the families are asked about, where nothing else is said.
pub const OF_FAMILIES: usize = 210;
/// How many letters the fields must have room for, all together.
const LEAST_PLACES: usize = 20;
const PLANTED_PERCENT: usize = 50;
const FULL_PERCENT: usize = 40;
const SPOILED_PERCENT: usize = 55;
/// How many sheets must clash and how many be apart, and how many of both have each shape.
const LEAST_OF_EACH_ANSWER: usize = 200;
const LEAST_OF_EACH_SHAPE: usize = 20;
/// How many sheets of each family must clash and how many be apart, how many sheets must be told
/// apart by a count, of how many clashes it must be asked whether there is one sooner, and how many
/// clashes of solvers must be later ones.
const LEAST_OF_EACH_FAMILY: usize = 2;
const LEAST_LOPSIDED: usize = 20;
const LEAST_FIRST: usize = 100;
const LEAST_LATER: usize = 100;

/// What is asked, and what came up.
struct Large<'a> {
    solvers: &'a [Solver],
    searches: Searches,
    met: Met,
    clash: Tally,
    apart: Tally,
    lopsided: usize,
    first: usize,
    later: usize,
}

/// Asks solvers about large sheets, and about so many of the families too.
pub fn run(solvers: &[Solver], of_families: usize) {
    let mut large = Large::new(solvers);
    for _ in 0..SHEETS {
        let sheet = sheet(&mut large.searches.random);
        large.compare(&sheet);
    }
    for family in FAMILIES.iter().cycle().take(of_families) {
        large.compare_one_of(family);
    }
    large.finish();
    ask_about_hard_sheets(solvers);
}

impl Large<'_> {
    fn new(solvers: &[Solver]) -> Large<'_> {
        let names = FAMILIES.map(|family| family.name);
        Large {
            solvers,
            searches: Searches::new("searches of large sheets", 0..0),
            met: Met::new(shapes::OF_LARGE),
            clash: Tally::new("clashing sheets of", &names, 0..0),
            apart: Tally::new("apart sheets of", &names, 0..0),
            lopsided: 0,
            first: 0,
            later: 0,
        }
    }

    /// Compares the search with the solvers, and answers whether a sheet clashes.
    fn compare(&mut self, sheet: &Sheet) -> bool {
        let bytes = sheets::encode(sheet);
        let listings = ask(self.solvers, self.met.total(), &bytes);
        let clash = !listings.is_empty();
        let first = if clash { first::clash(sheet) } else { None };
        require(
            first.is_some() == clash,
            "the solvers find a clash, and the plain search none",
            &[("sheet", &Hex(&bytes))],
        );
        self.searches.compare_in(&bytes, first.as_ref(), &[ROOMY]);
        if let Some(first) = first {
            self.require_later(sheet, &listings, &first);
            self.require_first(sheet, &bytes, &first);
        }
        if late::is_lopsided(sheet) {
            require(
                !clash,
                "a count of symbols tells a sheet apart that clashes",
                &[("sheet", &Hex(&bytes))],
            );
            self.lopsided += 1;
        }
        self.met.count(sheet, clash);
        clash
    }

    fn compare_one_of(&mut self, family: &Family) {
        let sheet = (family.make)(&mut self.searches.random);
        let clash = self.compare(&sheet);
        let answers = if clash {
            &mut self.clash
        } else {
            &mut self.apart
        };
        answers.count(Ok(family.name));
    }

    /// Holds what the solvers list to be clashes, none of them before the first.
    fn require_later(&mut self, sheet: &Sheet, listings: &[Vec<i64>], first: &Filling) {
        let numbered = Numbered::new(sheet.clone());
        for listed in listings {
            let read = assignment::read(listed, numbered.numbers.len());
            let filling = read.and_then(|assignment| assignment.filling(&numbered));
            let fits = match &filling {
                Ok(filling) => {
                    speller::judge(sheet, filling) == Verdict::Clash
                        && order::key(filling) >= order::key(first)
                }
                Err(_) => false,
            };
            require(
                fits,
                "what a solver lists is no clash, or is before the one that the search gives",
                &[
                    ("sheet", &Hex(&sheets::encode(sheet))),
                    ("listed", &format!("{filling:?}")),
                    ("given", &format!("{first:?}")),
                ],
            );
            self.later += usize::from(filling.as_ref() != Ok(first));
        }
    }

    /// Holds the clash that is given to the first lengths at which anything clashes: the search says
    /// that nothing is sooner, and of a part of what would be so does a solver.
    fn require_first(&mut self, sheet: &Sheet, bytes: &[u8], first: &Filling) {
        let lengths: Vec<u8> = first.iter().map(|text| text.len() as u8).collect();
        let sooner = sooner(sheet, &lengths);
        if sooner.is_empty() {
            return;
        }
        let turn = self.met.total();
        let asked = sheets::encode(&sooner[turn % sooner.len()]);
        let solver = &self.solvers[turn % self.solvers.len()];
        let clash = ask_one(solver, turn, &asked, &question::clauses(&asked)).is_some();
        let mut all = sooner.iter().map(sheets::encode);
        require(
            !clash && all.all(|sheet| searches::given(&sheet).is_none()),
            "the clash that the search gives has not the first lengths",
            &[
                ("sheet", &Hex(bytes)),
                ("lengths", &format!("{lengths:?}")),
                ("asked", &Hex(&asked)),
                ("clash", &clash),
            ],
        );
        self.first += 1;
    }

    /// Prints how often each thing came up, and fails if one came up too seldom.
    fn finish(&self) {
        self.met.finish(LEAST_OF_EACH_ANSWER, LEAST_OF_EACH_SHAPE);
        self.clash.finish_on_a_line(LEAST_OF_EACH_FAMILY);
        self.apart.finish_on_a_line(LEAST_OF_EACH_FAMILY);
        require(
            self.lopsided >= LEAST_LOPSIDED
                && self.first >= LEAST_FIRST
                && self.later >= LEAST_LATER,
            "too few large sheets are told apart by a count, or too few clashes are held to be first",
            &[
                ("by a count", &self.lopsided),
                ("first", &self.first),
                ("later", &self.later),
            ],
        );
        println!(
            "outside: the search agrees with {} on {} large sheets: {} clash, {} apart; \
             the slowest search took {:.3} s",
            solver::names(self.solvers),
            self.met.total(),
            self.met.clash,
            self.met.apart,
            self.searches.slowest.as_secs_f64()
        );
        println!(
            "outside: large sheets: {} are told apart by a count of symbols; \
             nothing is sooner than {} of the clashes; the solvers' own are later {} times",
            self.lopsided, self.first, self.later
        );
    }
}

/// Sheets that have together just what in a sheet clashes sooner than at these lengths: at a smaller
/// total, or at the same with a shorter field 0, or field 1 and so on. None where everything is
/// empty, and where a sheet has no room for a rule.
fn sooner(sheet: &Sheet, lengths: &[u8]) -> Vec<Sheet> {
    let total = sheets::total(lengths) as i16;
    if total == 0 || sheet.rules.len() == MOST_RULES {
        return Vec::new();
    }
    let within = |limits: Vec<u8>, limit| {
        let coefficients = vec![1; limits.len()];
        let mut sheet = sheet.clone();
        sheet.limits = limits;
        sheet.rules.push(Rule {
            coefficients,
            limit,
        });
        sheet
    };
    let mut all = vec![within(sheet.limits.clone(), total - 1)];
    for field in (0..lengths.len()).filter(|&field| lengths[field] > 0) {
        let mut limits = sheet.limits.clone();
        limits[..field].copy_from_slice(&lengths[..field]);
        limits[field] = lengths[field] - 1;
        all.push(within(limits, total));
    }
    all
}

/// Holds the answers that are listed for the hard sheets to what the solvers say.
fn ask_about_hard_sheets(solvers: &[Solver]) {
    let all = hard::all();
    for (turn, hard) in all.iter().enumerate() {
        let clash = !ask(solvers, turn, &hard.sheet).is_empty();
        require(
            clash == hard.clash,
            "the solvers have another answer to a hard sheet",
            &[("sheet", &hard.name), ("clash", &clash)],
        );
    }
    println!("outside: hard sheets given to solvers: {}", all.len());
}

/// Asks all solvers, which are to agree, for an assignment of a sheet's clauses. Answers what they
/// list; nothing if they say that nothing clashes.
fn ask(solvers: &[Solver], turn: usize, sheet: &[u8]) -> Vec<Vec<i64>> {
    let clauses = question::clauses(sheet);
    let ask_one = |solver| ask_one(solver, turn, sheet, &clauses);
    let listings: Vec<Vec<i64>> = solvers.iter().filter_map(ask_one).collect();
    require(
        listings.is_empty() || listings.len() == solvers.len(),
        "the solvers do not agree",
        &[
            ("sheet", &Hex(sheet)),
            ("solvers", &solver::names(solvers)),
            ("clashes", &listings.len()),
        ],
    );
    listings
}

/// What a solver lists, if it does not say that nothing clashes.
fn ask_one(solver: &Solver, turn: usize, sheet: &[u8], clauses: &[u8]) -> Option<Vec<i64>> {
    let reply = solver.ask(turn, clauses);
    let answer = reply.answer();
    require(
        answer.is_ok(),
        answer.as_ref().err().unwrap_or(&""),
        &[
            ("sheet", &Hex(sheet)),
            ("solver", &solver.name),
            ("ended with", &reply.status),
            ("printed", &reply.printed),
        ],
    );
    match answer {
        Ok(Answer::Satisfiable(listed)) => Some(listed),
        _ => None,
    }
}

/// A large sheet of one of two kinds.
fn sheet(random: &mut Random) -> Sheet {
    let mut sheet = plain(random);
    if random.chance(PLANTED_PERCENT) {
        plant(random, &mut sheet);
    } else {
        shuffle(random, &mut sheet);
    }
    sheet
}

/// A sheet with places for many letters.
fn plain(random: &mut Random) -> Sheet {
    let makers: [fn(&mut Random) -> Sheet; 2] = [sheets::valid, sheets::largest];
    loop {
        let sheet = random.one_of(&makers)(random);
        if sheets::total(&sheet.limits) >= LEAST_PLACES {
            return sheet;
        }
    }
}

/// Makes a filling of long texts clash; in many sheets something is then spoiled.
fn plant(random: &mut Random, sheet: &mut Sheet) {
    let full = random.chance(FULL_PERCENT);
    let mut lengths = sheet.limits.clone();
    if !full {
        for length in &mut lengths {
            *length = random.within(usize::from(*length / 2), usize::from(*length)) as u8;
        }
    }
    planted::plant_parts(random, sheet, &lengths);
    if random.chance(SPOILED_PERCENT) {
        planted::spoil(random, sheet);
    }
    if full {
        planted::only_full(sheet);
    }
}

/// Makes the right templates the left ones in another order. Templates are short, pairs and rules
/// few, so that lengths alone exclude little.
fn shuffle(random: &mut Random, sheet: &mut Sheet) {
    sheet.pairs.truncate(random.within(1, 2));
    sheet.rules.truncate(random.within(0, 2));
    for pair in &mut sheet.pairs {
        pair.left.truncate(random.within(3, 8));
    }
    planted::shuffle(random, sheet);
    for rule in &mut sheet.rules {
        rule.limit = small::near_a_sum(random, rule, &sheet.limits);
    }
}
