//! Sheets of any size, for what grows with it.

use crate::reader::{
    Pair, Rule, Sheet, Symbol, Template, GREATEST_COEFFICIENT, GREATEST_WIDTH, MOST_FIELDS,
};

/// How large a sheet is: the greatest limit, and the counts of letters, pairs and rules.
#[derive(Clone, Copy)]
pub struct Size {
    pub limit: usize,
    pub letters: usize,
    pub pairs: usize,
    pub rules: usize,
}

/// The greatest size that document 01 allows.
pub const GREATEST: Size = Size {
    limit: 8,
    letters: 8,
    pairs: 4,
    rules: 4,
};

/// Six fields, and each template three times a field: of the greatest size, no sheet has more variables.
/// Rules have coefficients of one sign each, and all this limit.
fn widest(size: Size, rule_limit: i16) -> Sheet {
    let pairs = ["555 444", "333 222", "555 555", "222 333"];
    let rule = |number: usize| Rule {
        coefficients: vec![[GREATEST_COEFFICIENT, -GREATEST_COEFFICIENT][number % 2]; MOST_FIELDS],
        limit: rule_limit,
    };
    sheet(size, pairs, (0..size.rules).map(rule).collect())
}

/// The sheet of the most clauses, 45,822: all sums are above their rule's limit.
pub fn most_clauses(size: Size) -> Sheet {
    widest(size, i16::MIN)
}

/// Nearly all clauses are of rules: as the sheet of the most clauses, with one letter, and with no field
/// in a template.
pub fn mostly_rules() -> Sheet {
    let size = Size {
        letters: 1,
        ..GREATEST
    };
    Sheet {
        pairs: vec![read_pair(" ", size.letters)],
        ..most_clauses(size)
    }
}

/// Nearly all clauses are of pairs: as the sheet of the most clauses, without rules.
pub fn mostly_pairs() -> Sheet {
    most_clauses(Size {
        rules: 0,
        ..GREATEST
    })
}

/// As many variables, and no sum is above its rule's limit, so that a field's text is free where another
/// field has the same.
pub fn most_variables(size: Size) -> Sheet {
    widest(size, i16::MAX)
}

/// Two pairs that cannot agree together, though each can alone, and two that ask for nothing new. Rules
/// exclude some lengths, not many.
pub fn tangled(size: Size) -> Sheet {
    let pairs = ["01a2 34b5", "01b2 34a5", "201 534", "120 453"];
    let rules = [
        ([-1, -1, -1, -1, -1, -1], -1),
        ([1, 0, 0, -1, 0, 0], 2),
        ([0, -1, 0, 0, 1, 0], 2),
        ([0, 0, 1, 0, 0, -1], 2),
    ];
    let rules = rules.map(|(coefficients, limit)| Rule {
        coefficients: coefficients.to_vec(),
        limit,
    });
    sheet(size, pairs, rules[..size.rules].to_vec())
}

/// A sheet of six fields with the first of these pairs. The limits are those of the size, but for fields
/// that would make a template too wide.
fn sheet(size: Size, pairs: [&str; 4], rules: Vec<Rule>) -> Sheet {
    let pairs: Vec<Pair> = pairs[..size.pairs]
        .iter()
        .map(|pair| read_pair(pair, size.letters))
        .collect();
    let letters = |template: &Template| {
        template
            .iter()
            .filter(|symbol| matches!(symbol, Symbol::Letter(_)))
            .count()
    };
    let widest = |pair: &Pair| letters(&pair.left).max(letters(&pair.right));
    let most = pairs.iter().map(widest).max().unwrap_or(0);
    // Fields 2 and 5 have the room that the letters leave beside two others.
    let narrow = size.limit.min(GREATEST_WIDTH - most - 2 * size.limit);
    let limit = |field: usize| [size.limit, size.limit, narrow][field % 3] as u8;
    Sheet {
        letters: (b'a'..).take(size.letters).collect(),
        limits: (0..MOST_FIELDS).map(limit).collect(),
        pairs,
        rules,
    }
}

/// A pair by its two templates: digits are fields, and letters those of the sheet, as far as it has them.
fn read_pair(pair: &str, letters: usize) -> Pair {
    let symbol = |byte: u8| match byte {
        b'0'..=b'5' => Symbol::Field(byte - b'0'),
        _ => Symbol::Letter((byte - b'a').min(letters as u8 - 1)),
    };
    let mut sides = pair
        .split(' ')
        .map(|side| side.bytes().map(symbol).collect());
    let mut side = || sides.next().expect("two sides");
    Pair {
        left: side(),
        right: side(),
    }
}
