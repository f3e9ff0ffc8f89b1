//! A sheet by its parts, with a name for each field; and the bytes that say the same, each with the part that it comes from.
//! Nothing is judged here: parts that no sheet may have get bytes that the engine refuses.

/// What a sheet says.
pub struct Form {
    /// The letters' bytes.
    pub letters: Vec<u8>,
    pub fields: Vec<Field>,
    pub pairs: Vec<Pair>,
    pub rules: Vec<Rule>,
}

#[derive(Clone)]
pub struct Field {
    pub name: String,
    pub limit: u64,
}

/// Two templates.
pub struct Pair {
    pub left: Vec<Symbol>,
    pub right: Vec<Symbol>,
}

/// A letter or a field, by its number.
#[derive(Clone, Copy, PartialEq)]
pub enum Symbol {
    Letter(usize),
    Field(usize),
}

/// The sum of coefficient × length over all fields is at most the limit.
#[derive(Clone)]
pub struct Rule {
    pub coefficients: Vec<i64>,
    pub limit: i16,
}

#[derive(Clone, Copy, PartialEq)]
pub enum Side {
    Left,
    Right,
}

/// The part of a sheet that a byte comes from.
#[derive(Clone, Copy, PartialEq)]
pub enum Part {
    Mark,
    Version,
    LetterCount,
    FieldCount,
    PairCount,
    RuleCount,
    Letter(usize),
    Limit(usize),
    SymbolCount(usize, Side),
    /// Of a pair, a side, the symbol of a number.
    Symbol(usize, Side, usize),
    /// Of a rule, a field.
    Coefficient(usize, usize),
    RuleLimit(usize),
}

const MARK: &[u8] = b"TPL";
const VERSION: u16 = 1;
/// Field f is the symbol 128 + f.
const FIRST_FIELD_SYMBOL: usize = 128;

impl Rule {
    /// The sum at these lengths of the fields.
    pub fn sum(&self, lengths: &[usize]) -> i64 {
        let terms = self.coefficients.iter().zip(lengths);
        terms.map(|(&n, &length)| n * length as i64).sum()
    }

    pub fn holds(&self, lengths: &[usize]) -> bool {
        self.sum(lengths) <= i64::from(self.limit)
    }
}

impl Pair {
    pub fn side(&self, side: Side) -> &[Symbol] {
        match side {
            Side::Left => &self.left,
            Side::Right => &self.right,
        }
    }
}

impl Form {
    /// The sheet's bytes, each with its part. A number that no byte holds is written as the nearest that one holds, which
    /// the engine refuses like the number itself.
    pub fn bytes(&self) -> Vec<(u8, Part)> {
        let mut bytes: Vec<(u8, Part)> = MARK.iter().map(|&byte| (byte, Part::Mark)).collect();
        bytes.extend(VERSION.to_be_bytes().map(|byte| (byte, Part::Version)));
        bytes.push((count(self.letters.len()), Part::LetterCount));
        bytes.push((count(self.fields.len()), Part::FieldCount));
        bytes.push((count(self.pairs.len()), Part::PairCount));
        bytes.push((count(self.rules.len()), Part::RuleCount));
        for (number, &letter) in self.letters.iter().enumerate() {
            bytes.push((letter, Part::Letter(number)));
        }
        for (number, field) in self.fields.iter().enumerate() {
            bytes.push((field.limit.min(255) as u8, Part::Limit(number)));
        }
        for (number, pair) in self.pairs.iter().enumerate() {
            for side in [Side::Left, Side::Right] {
                bytes.push((
                    count(pair.side(side).len()),
                    Part::SymbolCount(number, side),
                ));
            }
            for side in [Side::Left, Side::Right] {
                for (place, &symbol) in pair.side(side).iter().enumerate() {
                    bytes.push((symbol_byte(symbol), Part::Symbol(number, side, place)));
                }
            }
        }
        for (number, rule) in self.rules.iter().enumerate() {
            for (field, &coefficient) in rule.coefficients.iter().enumerate() {
                let byte = coefficient.clamp(-128, 127) as i8 as u8;
                bytes.push((byte, Part::Coefficient(number, field)));
            }
            let limit = rule.limit.to_be_bytes();
            bytes.extend(limit.map(|byte| (byte, Part::RuleLimit(number))));
        }
        bytes
    }

    /// The bytes alone.
    pub fn sheet(&self) -> Vec<u8> {
        self.bytes().into_iter().map(|row| row.0).collect()
    }

    /// Reads the bytes of a sheet that the engine has accepted. Bytes know no names, so fields are f0, f1 and so on.
    pub fn of_accepted(sheet: &[u8]) -> Form {
        let mut bytes = Accepted { rest: &sheet[5..] };
        let [l, v, e, r] = [(); 4].map(|()| bytes.number());
        Form {
            letters: bytes.take(l).to_vec(),
            fields: (0..v).map(|number| bytes.field(number)).collect(),
            pairs: (0..e).map(|_| bytes.pair()).collect(),
            rules: (0..r).map(|_| bytes.rule(v)).collect(),
        }
    }
}

/// The width of a template over these fields: its letters, and the limit of each field as often as it stands there.
pub fn width(fields: &[Field], template: &[Symbol]) -> u64 {
    let width = |symbol: &Symbol| match *symbol {
        Symbol::Letter(_) => 1,
        Symbol::Field(field) => fields[field].limit,
    };
    template.iter().map(width).sum()
}

/// A count, limit or number as a byte.
pub fn count(n: usize) -> u8 {
    n.min(255) as u8
}

pub fn symbol_byte(symbol: Symbol) -> u8 {
    match symbol {
        Symbol::Letter(letter) => count(letter),
        Symbol::Field(field) => count(FIRST_FIELD_SYMBOL + field),
    }
}

/// The symbol of a byte of an accepted sheet or book.
pub fn symbol(byte: u8) -> Symbol {
    match usize::from(byte).checked_sub(FIRST_FIELD_SYMBOL) {
        Some(field) => Symbol::Field(field),
        None => Symbol::Letter(usize::from(byte)),
    }
}

/// What is left of an accepted sheet's bytes.
struct Accepted<'a> {
    rest: &'a [u8],
}

impl<'a> Accepted<'a> {
    fn take(&mut self, n: usize) -> &'a [u8] {
        let (taken, rest) = self.rest.split_at(n);
        self.rest = rest;
        taken
    }

    fn number(&mut self) -> usize {
        usize::from(self.take(1)[0])
    }

    fn field(&mut self, number: usize) -> Field {
        Field {
            name: format!("f{number}"),
            limit: self.number() as u64,
        }
    }

    fn pair(&mut self) -> Pair {
        let (left, right) = (self.number(), self.number());
        Pair {
            left: self.symbols(left),
            right: self.symbols(right),
        }
    }

    fn symbols(&mut self, n: usize) -> Vec<Symbol> {
        self.take(n).iter().map(|&byte| symbol(byte)).collect()
    }

    fn rule(&mut self, fields: usize) -> Rule {
        let bytes = self.take(fields).iter();
        let coefficients = bytes.map(|&byte| i64::from(byte as i8)).collect();
        let limit = self.take(2);
        Rule {
            coefficients,
            limit: i16::from_be_bytes([limit[0], limit[1]]),
        }
    }
}
