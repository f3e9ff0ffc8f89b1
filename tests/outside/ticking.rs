//! Holds the counts in the tool's tables of clauses (`tools/src/ticks.rs`) to the library's count and
//! to the clauses that the plain writer lists: those of a sheet, those of each field, pair and rule by
//! their cases, and those of each location.

use crate::engine;
use crate::form::Form;
use crate::random::Random;
use crate::reader::{self, Pair, Sheet, MOST_LETTERS};
use crate::report::{require, Hex};
use crate::sheets;
use crate::tally::Tally;
use crate::ticks::{self, Kind, Ticks};
use crate::writer::{self, Cell, Clauses, Literal, Variable};
use crate::writing;
use std::fmt::{self, Display};
use std::ops::RangeInclusive;

const SMALL: usize = 4000;
const OF_ALL_SIZES: usize = 4000;
const LARGEST: usize = 300;
const DAMAGED: usize = 10_000;
/// How many locations of each kind there must be for each number of letters, and how many fields,
/// rules and sheets of each shape.
const LEAST_OF_EACH: usize = 100;

/// The kinds of location, in document 02's words and order.
const KINDS: [&str; 8] = [
    "same letter twice",
    "different letters",
    "letter then field",
    "field then letter",
    "two fields",
    "one used up, before a letter",
    "one used up, before a field",
    "both used up",
];
/// With one letter there are no two.
const DIFFERENT_LETTERS: usize = 1;

const SHAPES: [&str; 9] = [
    "a field of limit 0",
    "a field of limit 1",
    "a field of a greater limit",
    "no fields",
    "no rules",
    "an empty template",
    "a rule with no sum above its limit",
    "a rule with some sums above it",
    "a rule with all sums above it",
];

pub fn run(random: &mut Random) {
    let mut ticking = Ticking {
        sheets: 0,
        locations: [[0; MOST_LETTERS]; KINDS.len()],
        shapes: Tally::new("ticked off", &SHAPES, 0..0),
    };
    let makers: [(usize, fn(&mut Random) -> Sheet); 3] = [
        (SMALL, sheets::small),
        (OF_ALL_SIZES, writing::large),
        (LARGEST, sheets::largest),
    ];
    for (times, make) in makers {
        for _ in 0..times {
            let mut sheet = make(random);
            writing::vary(random, &mut sheet);
            ticking.compare(&sheets::encode(&sheet));
        }
    }
    ticking.compare(&sheets::encode(&writing::fullest()));
    // Damaged sheets; those that are refused are passed over.
    for _ in 0..DAMAGED {
        let mut bytes = sheets::encode(&sheets::valid(random));
        sheets::damage(random, &mut bytes);
        if reader::read(&bytes).is_ok() {
            ticking.compare(&bytes);
        }
    }
    ticking.finish();
}

/// What was compared.
struct Ticking {
    sheets: usize,
    /// Of each kind, and for each number of letters from 1.
    locations: [[usize; MOST_LETTERS]; KINDS.len()],
    shapes: Tally,
}

impl Ticking {
    /// Compares all counts of an accepted sheet.
    fn compare(&mut self, bytes: &[u8]) {
        let sheet = reader::accepted(bytes);
        let form = Form::of_accepted(bytes);
        let ticks = Ticks::of(&form);
        let listed = Listed::of(&sheet);
        let counted = engine::count(bytes);
        require(
            counted.status == 0 && counted.lent[1] == ticks.clauses(),
            "the tool's count of clauses is not the library's",
            &[
                ("sheet", &Hex(bytes)),
                ("tool", &ticks.clauses()),
                ("library", &counted),
            ],
        );
        hold(&of_tool(&ticks), &listed.counts(), bytes);
        for (listed, pair) in listed.pairs.iter().zip(&form.pairs) {
            let kinds = ticks::locations(&form, pair);
            self.locations(sheet.letters.len(), listed, &kinds, bytes);
        }
        self.sheets += 1;
        self.shapes(&sheet, &listed);
    }

    /// Compares the locations of a pair, for `l` letters.
    fn locations(&mut self, l: usize, listed: &ListedPair, kinds: &[Kind], sheet: &[u8]) {
        require(
            kinds.len() == listed.locations.len(),
            "the tool has not as many locations as there are",
            &[("sheet", &Hex(sheet)), ("tool", &kinds.len())],
        );
        for (number, (location, kind)) in listed.locations.iter().zip(kinds).enumerate() {
            let clauses = kind.clauses(l as u64);
            require(
                *kind == Kind::ALL[location.kind] && clauses == location.clauses,
                "the tool takes a location for another, or counts other clauses there",
                &[
                    ("sheet", &Hex(sheet)),
                    ("i", &(number / listed.wide)),
                    ("j", &(number % listed.wide)),
                    ("kind", &KINDS[location.kind]),
                    ("plain", &location.clauses),
                    ("tool", &clauses),
                ],
            );
            self.locations[location.kind][l - 1] += 1;
        }
    }

    fn shapes(&mut self, sheet: &Sheet, listed: &Listed) {
        let mut met = Vec::new();
        met.extend(sheet.limits.iter().map(|limit| match limit {
            0 => "a field of limit 0",
            1 => "a field of limit 1",
            _ => "a field of a greater limit",
        }));
        met.extend(sheet.limits.is_empty().then_some("no fields"));
        met.extend(sheet.rules.is_empty().then_some("no rules"));
        for Pair { left, right } in &sheet.pairs {
            let empty = left.is_empty() || right.is_empty();
            met.extend(empty.then_some("an empty template"));
        }
        for (rule, listed) in sheet.rules.iter().zip(&listed.rules) {
            let sums = writer::sums(rule, &sheet.limits, sheet.limits.len());
            met.push(match listed.above {
                0 => "a rule with no sum above its limit",
                above if above < sums.count() as u64 => "a rule with some sums above it",
                _ => "a rule with all sums above it",
            });
        }
        for shape in met {
            self.shapes.count(Ok(shape));
        }
    }

    /// Prints what came up, and fails if something came up too seldom.
    fn finish(&self) {
        for (number, (kind, times)) in KINDS.iter().zip(self.locations).enumerate() {
            println!("outside: locations by their letters, 1 to 8: {kind}: {times:?}");
            let impossible = usize::from(number == DIFFERENT_LETTERS);
            let mut possible = times.iter().skip(impossible);
            require(
                possible.all(|&times| times >= LEAST_OF_EACH),
                "locations of a kind came up too seldom to be tested",
                &[("least", &LEAST_OF_EACH)],
            );
        }
        self.shapes.finish_on_a_line(LEAST_OF_EACH);
        let locations: usize = self.locations.iter().flatten().sum();
        println!(
            "outside: the tool's tables agree on {} sheets and {locations} locations",
            self.sheets
        );
    }
}

/// What is counted, and how much there is of it.
#[derive(PartialEq)]
struct Count(String, u64);

impl Display for Count {
    fn fmt(&self, out: &mut fmt::Formatter) -> fmt::Result {
        write!(out, "{}: {}", self.0, self.1)
    }
}

/// Fails unless the tool's counts are the plain ones.
fn hold(tool: &[Count], plain: &[Count], sheet: &[u8]) {
    require(
        tool.len() == plain.len(),
        "the tool has not as many counts as there are",
        &[("sheet", &Hex(sheet))],
    );
    for (tool, plain) in tool.iter().zip(plain) {
        require(
            tool == plain,
            "the tool's count is not the plain one",
            &[("sheet", &Hex(sheet)), ("plain", plain), ("tool", tool)],
        );
    }
}

/// All counts of the tool.
fn of_tool(ticks: &Ticks) -> Vec<Count> {
    let mut counts = Vec::new();
    let mut add = |what: String, count| counts.push(Count(what, count));
    for (f, field) in ticks.fields.iter().enumerate() {
        add(format!("field {f}, a value"), field.holds.clauses());
        add(
            format!("field {f}, not two values"),
            field.not_two.clauses(),
        );
        add(format!("field {f}, blank tail"), field.blank.clauses());
        add(format!("field {f}"), field.clauses());
    }
    for (p, pair) in ticks.pairs.iter().enumerate() {
        add(format!("pair {p}, first location"), pair.first.clauses());
        for (kind, tick) in KINDS.iter().zip(pair.kinds) {
            add(format!("locations of pair {p}, {kind}"), tick.many);
            add(format!("pair {p}, {kind}"), tick.clauses());
        }
        add(format!("pair {p}"), pair.clauses());
    }
    for (r, rule) in ticks.rules.iter().enumerate() {
        add(format!("rule {r}, no fields"), rule.first.clauses());
        for (k, (sums, tick)) in rule.steps.iter().enumerate() {
            let sums = format!("{} to {}", sums.least, sums.greatest);
            add(format!("sums of rule {r}, before {k}, {sums}"), tick.many);
            add(format!("rule {r}, over {k}"), tick.clauses());
        }
        let (sums, tick) = rule.above;
        let sums = format!("{} to {}", sums.least, sums.greatest);
        add(format!("rule {r}, above, {sums}"), tick.clauses());
        add(format!("rule {r}"), rule.clauses());
    }
    add("fields".to_string(), ticks.of_fields());
    add("pairs".to_string(), ticks.of_pairs());
    add("rules".to_string(), ticks.of_rules());
    add("all".to_string(), ticks.clauses());
    counts
}

/// How many clauses the plain writer lists, by what the first literal of each speaks of.
struct Listed {
    all: u64,
    /// A value, not two values, blank tail.
    fields: Vec<[u64; 3]>,
    pairs: Vec<ListedPair>,
    rules: Vec<ListedRule>,
}

struct ListedPair {
    first: u64,
    /// By i, then j, of which there are `wide`.
    locations: Vec<Location>,
    wide: usize,
}

/// A location: the place of its kind in `KINDS`, and its clauses.
struct Location {
    kind: usize,
    clauses: u64,
}

struct ListedRule {
    first: u64,
    /// The sums of the first fields, none to all of them.
    sums: Vec<RangeInclusive<i32>>,
    /// By the field.
    steps: Vec<u64>,
    above: u64,
}

impl Clauses for Listed {
    fn clause(&mut self, kind: &'static str, literals: &[Literal]) {
        if writer::left_out(literals) {
            return;
        }
        self.all += 1;
        let variable = match literals[0] {
            Literal::Is(variable) | Literal::Not(variable) => variable,
            _ => panic!("a clause of the kind {kind} starts with no variable"),
        };
        let count = match (kind, variable) {
            ("K, one of all values", Variable::K(f, ..)) => &mut self.fields[f][0],
            ("K, not two values", Variable::K(f, ..)) => &mut self.fields[f][1],
            ("K, blank tail", Variable::K(f, ..)) => &mut self.fields[f][2],
            ("S, first location", Variable::S(p, 0, 0)) => &mut self.pairs[p].first,
            (_, Variable::S(p, i, j)) => {
                let pair = &mut self.pairs[p];
                &mut pair.locations[i * pair.wide + j].clauses
            }
            ("T, no fields", Variable::T(r, 0, 0)) => &mut self.rules[r].first,
            ("T, one field more", Variable::T(r, k, _)) => &mut self.rules[r].steps[k],
            ("T, above the limit", Variable::T(r, ..)) => &mut self.rules[r].above,
            _ => panic!("a clause of another kind: {kind}"),
        };
        *count += 1;
    }
}

impl Listed {
    fn of(sheet: &Sheet) -> Listed {
        let v = sheet.limits.len();
        let rule = |rule| ListedRule {
            first: 0,
            sums: (0..=v)
                .map(|k| writer::sums(rule, &sheet.limits, k))
                .collect(),
            steps: vec![0; v],
            above: 0,
        };
        let pairs = sheet.pairs.iter();
        let mut listed = Listed {
            all: 0,
            fields: vec![[0; 3]; v],
            pairs: pairs.map(|pair| ListedPair::new(sheet, pair)).collect(),
            rules: sheet.rules.iter().map(rule).collect(),
        };
        listed.sheet(sheet);
        listed
    }

    /// The counts that the tool is to have.
    fn counts(&self) -> Vec<Count> {
        let mut counts = Vec::new();
        let mut add = |what: String, count| counts.push(Count(what, count));
        let (mut fields, mut pairs, mut rules) = (0, 0, 0);
        for (f, field) in self.fields.iter().enumerate() {
            let cases = ["a value", "not two values", "blank tail"];
            for (case, count) in cases.iter().zip(field) {
                add(format!("field {f}, {case}"), *count);
            }
            add(format!("field {f}"), field.iter().sum());
            fields += field.iter().sum::<u64>();
        }
        for (p, pair) in self.pairs.iter().enumerate() {
            add(format!("pair {p}, first location"), pair.first);
            for (number, kind) in KINDS.iter().enumerate() {
                let locations = pair.locations.iter();
                let locations = locations.filter(|location| location.kind == number);
                let clauses = locations.clone().map(|location| location.clauses);
                let many = locations.count() as u64;
                add(format!("locations of pair {p}, {kind}"), many);
                add(format!("pair {p}, {kind}"), clauses.sum());
            }
            let locations = pair.locations.iter();
            let clauses: u64 = locations.map(|location| location.clauses).sum();
            add(format!("pair {p}"), pair.first + clauses);
            pairs += pair.first + clauses;
        }
        for (r, rule) in self.rules.iter().enumerate() {
            add(format!("rule {r}, no fields"), rule.first);
            let named = |sums: &RangeInclusive<i32>| format!("{} to {}", sums.start(), sums.end());
            for (k, (sums, step)) in rule.sums.iter().zip(&rule.steps).enumerate() {
                let many = sums.clone().count() as u64;
                add(
                    format!("sums of rule {r}, before {k}, {}", named(sums)),
                    many,
                );
                add(format!("rule {r}, over {k}"), *step);
            }
            let sums = named(&rule.sums[rule.steps.len()]);
            add(format!("rule {r}, above, {sums}"), rule.above);
            let clauses = rule.first + rule.steps.iter().sum::<u64>() + rule.above;
            add(format!("rule {r}"), clauses);
            rules += clauses;
        }
        add("fields".to_string(), fields);
        add("pairs".to_string(), pairs);
        add("rules".to_string(), rules);
        add("all".to_string(), self.all);
        counts
    }
}

impl ListedPair {
    fn new(sheet: &Sheet, pair: &Pair) -> ListedPair {
        let left = writer::cells(&pair.left, &sheet.limits);
        let right = writer::cells(&pair.right, &sheet.limits);
        let mut locations = Vec::new();
        for i in 0..=left.len() {
            for j in 0..=right.len() {
                let kind = kind(left.get(i), right.get(j));
                locations.push(Location { kind, clauses: 0 });
            }
        }
        ListedPair {
            first: 0,
            locations,
            wide: right.len() + 1,
        }
    }
}

/// The kind of a location with these cells, as its place in `KINDS`.
fn kind(left: Option<&Cell>, right: Option<&Cell>) -> usize {
    use Cell::{Letter, Place};
    match [left, right] {
        [Some(Letter(a)), Some(Letter(b))] => usize::from(a != b),
        [Some(Letter(_)), Some(Place(..))] => 2,
        [Some(Place(..)), Some(Letter(_))] => 3,
        [Some(Place(..)), Some(Place(..))] => 4,
        [None, Some(Letter(_))] | [Some(Letter(_)), None] => 5,
        [None, Some(Place(..))] | [Some(Place(..)), None] => 6,
        [None, None] => 7,
    }
}
