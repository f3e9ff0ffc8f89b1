//! How many clauses a sheet's clause file has, by the cases in which document 01 lists them: the places of a field, the locations of a pair,
//! the sums of a rule. The cases of a location are those of document 02, No. 2. The engine is not asked here.

use crate::form::{Field, Form, Pair, Rule, Symbol};
use std::iter;

/// So many of one case, with so many clauses each.
#[derive(Clone, Copy)]
pub struct Tick {
    pub many: u64,
    pub each: u64,
}

impl Tick {
    pub fn clauses(self) -> u64 {
        self.many * self.each
    }
}

fn sum(ticks: &[Tick]) -> u64 {
    ticks.iter().map(|tick| tick.clauses()).sum()
}

/// What stands on the two sides of a location, in the order of document 02, No. 2.
#[derive(Clone, Copy, PartialEq)]
pub enum Kind {
    SameLetterTwice,
    DifferentLetters,
    LetterThenField,
    FieldThenLetter,
    TwoFields,
    /// One template is used up, and the other one goes on with a letter.
    UsedUpBeforeLetter,
    UsedUpBeforeField,
    BothUsedUp,
}

impl Kind {
    pub const ALL: [Kind; 8] = [
        Kind::SameLetterTwice,
        Kind::DifferentLetters,
        Kind::LetterThenField,
        Kind::FieldThenLetter,
        Kind::TwoFields,
        Kind::UsedUpBeforeLetter,
        Kind::UsedUpBeforeField,
        Kind::BothUsedUp,
    ];

    /// The kind of a location with these cells, each by its symbol; a template that is used up has none.
    fn of(left: Option<Symbol>, right: Option<Symbol>) -> Kind {
        use Symbol::{Field, Letter};
        match (left, right) {
            (Some(Letter(a)), Some(Letter(b))) if a == b => Kind::SameLetterTwice,
            (Some(Letter(_)), Some(Letter(_))) => Kind::DifferentLetters,
            (Some(Letter(_)), Some(Field(_))) => Kind::LetterThenField,
            (Some(Field(_)), Some(Letter(_))) => Kind::FieldThenLetter,
            (Some(Field(_)), Some(Field(_))) => Kind::TwoFields,
            (Some(Letter(_)), None) | (None, Some(Letter(_))) => Kind::UsedUpBeforeLetter,
            (Some(Field(_)), None) | (None, Some(Field(_))) => Kind::UsedUpBeforeField,
            (None, None) => Kind::BothUsedUp,
        }
    }

    /// How many clauses each location of this kind has, on a sheet of `l` letters.
    pub fn clauses(self, l: u64) -> u64 {
        match self {
            Kind::SameLetterTwice => 1,
            Kind::DifferentLetters => 2,
            Kind::LetterThenField => 3,
            Kind::FieldThenLetter => l + 1,
            Kind::TwoFields => l + 3,
            Kind::UsedUpBeforeLetter => 1,
            Kind::UsedUpBeforeField => 2,
            Kind::BothUsedUp => 0,
        }
    }
}

/// The clauses of a field's places.
pub struct OfField {
    /// Each place holds a value, a letter or blank.
    pub holds: Tick,
    /// It does not hold two.
    pub not_two: Tick,
    /// A blank goes on, at each place but the last.
    pub blank: Tick,
}

impl OfField {
    fn new(l: u64, field: &Field) -> OfField {
        let places = |many, each| Tick { many, each };
        OfField {
            holds: places(field.limit, 1),
            not_two: places(field.limit, l * (l + 1) / 2),
            blank: places(field.limit.saturating_sub(1), 1),
        }
    }

    pub fn clauses(&self) -> u64 {
        sum(&[self.holds, self.not_two, self.blank])
    }
}

/// The clauses of a pair.
pub struct OfPair {
    /// S(p,0,0).
    pub first: Tick,
    /// The locations of each kind, in the order of `Kind::ALL`.
    pub kinds: [Tick; 8],
}

impl OfPair {
    fn new(form: &Form, pair: &Pair) -> OfPair {
        let l = form.letters.len() as u64;
        let locations = locations(form, pair);
        let of_kind = |kind: Kind| Tick {
            many: locations.iter().filter(|&&other| other == kind).count() as u64,
            each: kind.clauses(l),
        };
        OfPair {
            first: Tick { many: 1, each: 1 },
            kinds: Kind::ALL.map(of_kind),
        }
    }

    pub fn clauses(&self) -> u64 {
        self.first.clauses() + sum(&self.kinds)
    }
}

/// The kinds of a pair's locations (i,j), by i, then j.
pub fn locations(form: &Form, pair: &Pair) -> Vec<Kind> {
    let [left, right] = [&pair.left, &pair.right].map(|template| cells(form, template));
    let of_left = |&left: &Option<Symbol>| right.iter().map(move |&right| Kind::of(left, right));
    left.iter().flat_map(of_left).collect()
}

/// The cells of a template, each by its symbol: a letter once, a field once for each place. At the end the template is used up.
fn cells(form: &Form, template: &[Symbol]) -> Vec<Option<Symbol>> {
    let mut cells = Vec::new();
    for &symbol in template {
        let places = match symbol {
            Symbol::Letter(_) => 1,
            Symbol::Field(field) => form.fields[field].limit as usize,
        };
        cells.extend(iter::repeat(Some(symbol)).take(places));
    }
    cells.push(None);
    cells
}

/// The clauses of a rule.
pub struct OfRule {
    /// T(r,0,0).
    pub first: Tick,
    /// For each field, every sum of the fields before it with each length that it may have.
    pub steps: Vec<(Sums, Tick)>,
    /// The final sums, and those of them that are above the rule's limit.
    pub above: (Sums, Tick),
}

/// Every whole number from the least to the greatest sum of some fields.
#[derive(Clone, Copy)]
pub struct Sums {
    pub least: i64,
    pub greatest: i64,
}

impl OfRule {
    fn new(form: &Form, rule: &Rule) -> OfRule {
        let mut sums = Sums {
            least: 0,
            greatest: 0,
        };
        let mut steps = Vec::new();
        for (field, coefficient) in form.fields.iter().zip(&rule.coefficients) {
            let step = Tick {
                many: sums.above(sums.least - 1),
                each: field.limit + 1,
            };
            steps.push((sums, step));
            let longest = coefficient * field.limit as i64;
            sums.least += longest.min(0);
            sums.greatest += longest.max(0);
        }
        let above = Tick {
            many: sums.above(rule.limit.into()),
            each: 1,
        };
        OfRule {
            first: Tick { many: 1, each: 1 },
            steps,
            above: (sums, above),
        }
    }

    pub fn clauses(&self) -> u64 {
        let steps: u64 = self.steps.iter().map(|step| step.1.clauses()).sum();
        self.first.clauses() + steps + self.above.1.clauses()
    }
}

impl Sums {
    /// How many of them are above a number.
    fn above(self, number: i64) -> u64 {
        (self.greatest - number.clamp(self.least - 1, self.greatest)) as u64
    }
}

/// The clauses of a sheet.
pub struct Ticks {
    pub fields: Vec<OfField>,
    pub pairs: Vec<OfPair>,
    pub rules: Vec<OfRule>,
}

impl Ticks {
    /// Counts the clauses of a sheet that the engine has accepted.
    pub fn of(form: &Form) -> Ticks {
        let l = form.letters.len() as u64;
        let (fields, pairs, rules) = (form.fields.iter(), form.pairs.iter(), form.rules.iter());
        Ticks {
            fields: fields.map(|field| OfField::new(l, field)).collect(),
            pairs: pairs.map(|pair| OfPair::new(form, pair)).collect(),
            rules: rules.map(|rule| OfRule::new(form, rule)).collect(),
        }
    }

    pub fn of_fields(&self) -> u64 {
        self.fields.iter().map(OfField::clauses).sum()
    }

    pub fn of_pairs(&self) -> u64 {
        self.pairs.iter().map(OfPair::clauses).sum()
    }

    pub fn of_rules(&self) -> u64 {
        self.rules.iter().map(OfRule::clauses).sum()
    }

    /// C.
    pub fn clauses(&self) -> u64 {
        self.of_fields() + self.of_pairs() + self.of_rules()
    }
}
