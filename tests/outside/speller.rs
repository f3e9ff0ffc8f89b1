//! A plain checker of fillings and speller of templates, written from document 01 alone ("The
//! sheet", "Checking a filling", "Spelling") and from document 02, No. 5. The library's answers are
//! compared with it. It knows nothing of the library.

use crate::reader::{self, Pair, Rule, Sheet, Symbol};
use crate::refusal::Refusal;

/// Each field's text, in letter numbers.
pub type Filling = Vec<Vec<u8>>;

pub const FIELD_BYTES: usize = 9;
pub const NO_LETTER: u8 = 255;
pub const LEFT: u64 = 0;
pub const RIGHT: u64 = 1;

/// Whether a filling clashes, and if not, what is first against it: a pair, with what is left over of
/// its texts, or a rule.
#[derive(Clone, Copy, Debug, PartialEq)]
pub enum Verdict {
    Clash,
    PairDiffers(usize, Rest),
    RuleBreaks(usize),
}

/// What is left over of two texts: so many letters of one side, after those that agree.
#[derive(Clone, Copy, Debug, PartialEq)]
pub struct Rest {
    pub agreeing: usize,
    pub side: u64,
    pub length: usize,
}

impl Verdict {
    /// The five numbers of what is against a clash: 1 for a pair, its number, the letters that agree,
    /// the rest's side and length; or 2 for a rule, its number, and three times 0.
    pub fn why(&self) -> Option<[u64; 5]> {
        match *self {
            Verdict::Clash => None,
            Verdict::PairDiffers(pair, rest) => {
                let [pair, agreeing, length] =
                    [pair, rest.agreeing, rest.length].map(|number| number as u64);
                Some([1, pair, agreeing, rest.side, length])
            }
            Verdict::RuleBreaks(rule) => Some([2, rule as u64, 0, 0, 0]),
        }
    }
}

/// What is to be spelled, and the length of the buffer for it.
#[derive(Clone, Copy)]
pub struct Spelling<'a> {
    pub sheet: &'a [u8],
    pub pair: u64,
    pub side: u64,
    pub filling: &'a [u8],
    pub room: usize,
}

/// Checks a filling, or answers the first refusal in document 01's order.
pub fn check(sheet: &[u8], filling: &[u8]) -> Result<Verdict, Refusal> {
    let sheet = reader::read(sheet)?;
    let filling = read_filling(&sheet, filling)?;
    Ok(judge(&sheet, &filling))
}

/// Spells a template in the sheet's letter bytes, or answers the first refusal in document 01's
/// order.
pub fn spell(asked: Spelling) -> Result<Vec<u8>, Refusal> {
    let sheet = reader::read(asked.sheet)?;
    let number = usize::try_from(asked.pair).map_err(|_| Refusal::PairNumber)?;
    let pair = sheet.pairs.get(number).ok_or(Refusal::PairNumber)?;
    let template = match asked.side {
        LEFT => &pair.left,
        RIGHT => &pair.right,
        _ => return Err(Refusal::Side),
    };
    let filling = read_filling(&sheet, asked.filling)?;
    let text = text(template, &filling);
    if asked.room < text.len() {
        return Err(Refusal::BufferTooShort);
    }
    let letter = |&number: &u8| sheet.letters[usize::from(number)];
    Ok(text.iter().map(letter).collect())
}

/// The texts of all fields, from nine bytes each.
fn read_filling(sheet: &Sheet, bytes: &[u8]) -> Result<Filling, Refusal> {
    if bytes.len() != FIELD_BYTES * sheet.limits.len() {
        return Err(Refusal::FillingSize);
    }
    let fields = bytes.chunks(FIELD_BYTES).zip(&sheet.limits);
    fields
        .map(|(field, &limit)| read_field(field, limit, sheet.letters.len()))
        .collect()
}

/// A field's text: the length, then the letter numbers, with 255 past the length.
fn read_field(field: &[u8], limit: u8, l: usize) -> Result<Vec<u8>, Refusal> {
    if field[0] > limit {
        return Err(Refusal::Length);
    }
    let (text, past) = field[1..].split_at(usize::from(field[0]));
    if text.iter().any(|&number| usize::from(number) >= l) {
        return Err(Refusal::LetterNumber);
    }
    if past.iter().any(|&place| place != NO_LETTER) {
        return Err(Refusal::PastTheLength);
    }
    Ok(text.to_vec())
}

/// Whether a legal filling clashes.
pub fn judge(sheet: &Sheet, filling: &Filling) -> Verdict {
    for (number, pair) in sheet.pairs.iter().enumerate() {
        let [left, right] = texts(pair, filling);
        if left != right {
            return Verdict::PairDiffers(number, compare(&left, &right));
        }
    }
    for (number, rule) in sheet.rules.iter().enumerate() {
        if breaks(rule, filling) {
            return Verdict::RuleBreaks(number);
        }
    }
    Verdict::Clash
}

/// Document 02, No. 5: how many letters of two texts agree from the start, and the rest, which is the
/// left one, unless the left text is used up; then it is the right one.
pub fn compare(left: &[u8], right: &[u8]) -> Rest {
    let both = left.iter().zip(right);
    let agreeing = both.take_while(|(one, other)| one == other).count();
    let used_up = agreeing == left.len();
    let (side, text) = if used_up {
        (RIGHT, right)
    } else {
        (LEFT, left)
    };
    Rest {
        agreeing,
        side,
        length: text.len() - agreeing,
    }
}

/// What both templates of a pair spell, in letter numbers.
pub fn texts(pair: &Pair, filling: &Filling) -> [Vec<u8>; 2] {
    [&pair.left, &pair.right].map(|template| text(template, filling))
}

/// What a template spells, in letter numbers.
pub fn text(template: &[Symbol], filling: &Filling) -> Vec<u8> {
    let mut text = Vec::new();
    for &symbol in template {
        match symbol {
            Symbol::Letter(letter) => text.push(letter),
            Symbol::Field(field) => text.extend(&filling[usize::from(field)]),
        }
    }
    text
}

/// Is the sum of coefficient × field length above the rule's limit?
pub fn breaks(rule: &Rule, filling: &Filling) -> bool {
    sum(rule, filling) > i32::from(rule.limit)
}

/// What a rule compares with its limit: the sum of coefficient × field length.
pub fn sum(rule: &Rule, filling: &Filling) -> i32 {
    let mut sum = 0;
    for (&coefficient, text) in rule.coefficients.iter().zip(filling) {
        sum += i32::from(coefficient) * text.len() as i32;
    }
    sum
}
