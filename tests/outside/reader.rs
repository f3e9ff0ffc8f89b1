//! A plain reader of sheets, version 1, written from document 01 alone ("The sheet", "Reading").
//! The library's answers are compared with it. It knows nothing of the library.

use crate::refusal::Refusal;

/// An accepted sheet.
#[derive(Clone, Debug, PartialEq)]
pub struct Sheet {
    pub letters: Vec<u8>,
    pub limits: Vec<u8>,
    pub pairs: Vec<Pair>,
    pub rules: Vec<Rule>,
}

#[derive(Clone, Debug, PartialEq)]
pub struct Pair {
    pub left: Template,
    pub right: Template,
}

pub type Template = Vec<Symbol>;

/// A letter or a field, by its number.
#[derive(Clone, Copy, Debug, PartialEq)]
pub enum Symbol {
    Letter(u8),
    Field(u8),
}

#[derive(Clone, Debug, PartialEq)]
pub struct Rule {
    pub coefficients: Vec<i8>,
    pub limit: i16,
}

pub const MARK: &[u8] = b"TPL";
pub const VERSION: u16 = 1;
pub const HEADER_BYTES: usize = 9;
pub const MOST_LETTERS: usize = 8;
pub const MOST_FIELDS: usize = 6;
pub const MOST_PAIRS: usize = 4;
pub const MOST_RULES: usize = 4;
pub const LEAST_LETTER: u8 = 33;
pub const GREATEST_LETTER: u8 = 126;
pub const GREATEST_LIMIT: u8 = 8;
pub const MOST_SYMBOLS: usize = 12;
pub const FIRST_FIELD_SYMBOL: u8 = 128;
pub const GREATEST_WIDTH: usize = 24;
pub const GREATEST_COEFFICIENT: i8 = 4;

impl Sheet {
    /// The four counts that reading answers: letters, fields, pairs, rules.
    pub fn counts(&self) -> [u64; 4] {
        [
            self.letters.len() as u64,
            self.limits.len() as u64,
            self.pairs.len() as u64,
            self.rules.len() as u64,
        ]
    }
}

/// Reads a sheet that is known to be accepted.
pub fn accepted(sheet: &[u8]) -> Sheet {
    read(sheet).expect("an accepted sheet")
}

/// Reads a whole sheet, or answers the first refusal in document 01's order.
pub fn read(sheet: &[u8]) -> Result<Sheet, Refusal> {
    let [l, v, e, r] = read_header(sheet)?;
    let mut walk = Walk {
        rest: &sheet[HEADER_BYTES..],
    };
    let letters = read_letters(&mut walk, l)?;
    let limits = read_limits(&mut walk, v)?;
    let mut pairs = Vec::new();
    for _ in 0..e {
        pairs.push(read_pair(&mut walk, l, &limits)?);
    }
    let mut rules = Vec::new();
    for _ in 0..r {
        rules.push(read_rule(&mut walk, v)?);
    }
    if !walk.rest.is_empty() {
        return Err(Refusal::BytesLeftOver);
    }
    Ok(Sheet {
        letters,
        limits,
        pairs,
        rules,
    })
}

/// The counts L, V, E and R of the first nine bytes.
fn read_header(sheet: &[u8]) -> Result<[u8; 4], Refusal> {
    if sheet.len() < HEADER_BYTES {
        return Err(Refusal::UnderNineBytes);
    }
    if &sheet[0..3] != MARK {
        return Err(Refusal::Mark);
    }
    if u16::from_be_bytes([sheet[3], sheet[4]]) != VERSION {
        return Err(Refusal::Version);
    }
    let [l, v, e, r] = [sheet[5], sheet[6], sheet[7], sheet[8]];
    if l < 1 || usize::from(l) > MOST_LETTERS {
        return Err(Refusal::LetterCount);
    }
    if usize::from(v) > MOST_FIELDS {
        return Err(Refusal::FieldCount);
    }
    if e < 1 || usize::from(e) > MOST_PAIRS {
        return Err(Refusal::PairCount);
    }
    if usize::from(r) > MOST_RULES {
        return Err(Refusal::RuleCount);
    }
    Ok([l, v, e, r])
}

/// The bytes not yet read.
pub struct Walk<'a> {
    pub rest: &'a [u8],
}

impl Walk<'_> {
    pub fn next(&mut self) -> Result<u8, Refusal> {
        let (&first, rest) = self.rest.split_first().ok_or(Refusal::ByteMissing)?;
        self.rest = rest;
        Ok(first)
    }
}

/// `l` letter bytes in range, each above the one before it.
pub fn read_letters(walk: &mut Walk, l: u8) -> Result<Vec<u8>, Refusal> {
    let mut letters: Vec<u8> = Vec::new();
    for _ in 0..l {
        let letter = walk.next()?;
        let in_range = (LEAST_LETTER..=GREATEST_LETTER).contains(&letter);
        let rising = letters.last().map_or(true, |&before| before < letter);
        if !in_range || !rising {
            return Err(Refusal::Letter);
        }
        letters.push(letter);
    }
    Ok(letters)
}

/// `v` limits in range.
pub fn read_limits(walk: &mut Walk, v: u8) -> Result<Vec<u8>, Refusal> {
    let mut limits = Vec::new();
    for _ in 0..v {
        let limit = walk.next()?;
        if limit > GREATEST_LIMIT {
            return Err(Refusal::Limit);
        }
        limits.push(limit);
    }
    Ok(limits)
}

/// Both symbol counts, the left symbols, the right symbols; then both widths are tested.
fn read_pair(walk: &mut Walk, l: u8, limits: &[u8]) -> Result<Pair, Refusal> {
    let left_count = read_symbol_count(walk)?;
    let right_count = read_symbol_count(walk)?;
    let left = read_template(walk, left_count, l, limits)?;
    let right = read_template(walk, right_count, l, limits)?;
    if width(&left, limits) > GREATEST_WIDTH || width(&right, limits) > GREATEST_WIDTH {
        return Err(Refusal::Width);
    }
    Ok(Pair { left, right })
}

pub fn read_symbol_count(walk: &mut Walk) -> Result<usize, Refusal> {
    let count = usize::from(walk.next()?);
    if count > MOST_SYMBOLS {
        return Err(Refusal::SymbolCount);
    }
    Ok(count)
}

/// `count` symbols, each one of `l` letters or a field that has a limit.
pub fn read_template(
    walk: &mut Walk,
    count: usize,
    l: u8,
    limits: &[u8],
) -> Result<Template, Refusal> {
    let mut template = Vec::new();
    for _ in 0..count {
        let byte = walk.next()?;
        if byte < l {
            template.push(Symbol::Letter(byte));
            continue;
        }
        // Below 128 there is no such field: checked_sub answers None.
        match byte.checked_sub(FIRST_FIELD_SYMBOL) {
            Some(field) if usize::from(field) < limits.len() => {
                template.push(Symbol::Field(field));
            }
            _ => return Err(Refusal::Symbol),
        }
    }
    Ok(template)
}

/// A template's letters plus the limits of its fields, repeats counted.
pub fn width(template: &[Symbol], limits: &[u8]) -> usize {
    let mut width = 0;
    for &symbol in template {
        width += match symbol {
            Symbol::Letter(_) => 1,
            Symbol::Field(field) => usize::from(limits[usize::from(field)]),
        };
    }
    width
}

/// `v` signed coefficients, then a signed limit of two bytes, the high byte first.
fn read_rule(walk: &mut Walk, v: u8) -> Result<Rule, Refusal> {
    let mut coefficients = Vec::new();
    for _ in 0..v {
        let coefficient = i8::from_be_bytes([walk.next()?]);
        if !(-GREATEST_COEFFICIENT..=GREATEST_COEFFICIENT).contains(&coefficient) {
            return Err(Refusal::Coefficient);
        }
        coefficients.push(coefficient);
    }
    let high = walk.next()?;
    let low = walk.next()?;
    Ok(Rule {
        coefficients,
        limit: i16::from_be_bytes([high, low]),
    })
}
