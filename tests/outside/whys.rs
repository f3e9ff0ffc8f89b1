//! Why a filling does not clash: the kinds of the five numbers that a check gives, whether such
//! numbers fit two texts, and by name what may be special about what is first against a clash, so that
//! a test that never meets it cannot pass.

use crate::listed::LONGEST_TEXT;
use crate::reader::{Sheet, MOST_PAIRS, MOST_RULES};
use crate::speller::{self, Filling, LEFT, RIGHT};
use crate::tally::Tally;

/// What is first against a clash.
pub const KINDS: [&str; 6] = [
    "left rest of the first pair",
    "right rest of the first pair",
    "left rest of a later pair",
    "right rest of a later pair",
    "the first rule",
    "a later rule",
];

/// The place in `KINDS` of five numbers, if they are all in their ranges.
pub fn kind(why: &[u64]) -> Option<usize> {
    match *why {
        [1, pair, agreeing, side, length] => {
            let fits = pair < MOST_PAIRS as u64 && side <= RIGHT && length > 0;
            let text = agreeing.saturating_add(length);
            let fits = fits && text <= LONGEST_TEXT as u64;
            fits.then_some(2 * usize::from(pair > 0) + side as usize)
        }
        [2, rule, 0, 0, 0] => {
            let fits = rule < MOST_RULES as u64;
            fits.then_some(4 + usize::from(rule > 0))
        }
        _ => None,
    }
}

/// Do these numbers fit two texts that differ? So many letters are the same, and the next ones are not,
/// or one text has no next one; and so many follow on the left, or nothing does and so many on the right.
pub fn fits(texts: &[Vec<u8>; 2], agreeing: u64, side: u64, length: u64) -> bool {
    let [left, right] = texts;
    let place = agreeing as usize;
    let same_before = left.get(..place).is_some() && left.get(..place) == right.get(..place);
    let other_next = left.get(place) != right.get(place);
    let following = |text: &[u8]| (text.len() as u64).checked_sub(agreeing);
    let rest_fits = match side {
        LEFT => following(left) == Some(length),
        RIGHT => following(left) == Some(0) && following(right) == Some(length),
        _ => false,
    };
    same_before && other_next && rest_fits && length > 0
}

/// All that is against a clash.
struct Against {
    /// The texts of each pair.
    texts: Vec<[Vec<u8>; 2]>,
    /// The numbers of the pairs that differ, and of the rules that break.
    pairs: Vec<usize>,
    rules: Vec<usize>,
    has_rules: bool,
}

impl Against {
    fn new(sheet: &Sheet, filling: &Filling) -> Against {
        let texts = sheet.pairs.iter();
        let texts: Vec<[Vec<u8>; 2]> = texts.map(|pair| speller::texts(pair, filling)).collect();
        let differs = |&pair: &usize| texts[pair][0] != texts[pair][1];
        let breaks = |&rule: &usize| speller::breaks(&sheet.rules[rule], filling);
        Against {
            pairs: (0..sheet.pairs.len()).filter(differs).collect(),
            rules: (0..sheet.rules.len()).filter(breaks).collect(),
            has_rules: !sheet.rules.is_empty(),
            texts,
        }
    }

    /// Do the texts of the first pair that differs pass the test?
    fn first(&self, test: fn(&[u8], &[u8]) -> bool) -> bool {
        let first = self.pairs.first();
        first.map_or(false, |&pair| {
            test(&self.texts[pair][0], &self.texts[pair][1])
        })
    }

    /// Is this the first pair that differs?
    fn pair_is(&self, number: usize) -> bool {
        self.pairs.first() == Some(&number)
    }

    /// Is this the first rule that breaks, and does no pair differ?
    fn rule_is(&self, number: usize) -> bool {
        self.pairs.is_empty() && self.rules.first() == Some(&number)
    }
}

/// A name, and whether it fits.
struct Special(&'static str, fn(&Against) -> bool);

/// Of the two texts of the first pair that differs.
static OF_TEXTS: [Special; 13] = [
    Special("an empty left text", |against| {
        against.first(|left, _| left.is_empty())
    }),
    Special("an empty right text", |against| {
        against.first(|_, right| right.is_empty())
    }),
    Special("a left text that the right one goes on from", |against| {
        against.first(|left, right| !left.is_empty() && right.starts_with(left))
    }),
    Special("a right text that the left one goes on from", |against| {
        against.first(|left, right| !right.is_empty() && left.starts_with(right))
    }),
    Special("two texts with no letter that agrees", |against| {
        against.first(|left, right| agreeing(left, right) == 0 && parted(left, right))
    }),
    Special("two texts that agree and then part", |against| {
        against.first(|left, right| agreeing(left, right) > 0 && parted(left, right))
    }),
    Special("two texts that part, the left shorter", |against| {
        against.first(|left, right| left.len() < right.len() && parted(left, right))
    }),
    Special("two texts that part, the right shorter", |against| {
        against.first(|left, right| left.len() > right.len() && parted(left, right))
    }),
    Special("two texts of one length", |against| {
        against.first(|left, right| left.len() == right.len())
    }),
    Special("two texts that agree again after they part", |against| {
        against.first(|left, right| {
            let both = left.iter().zip(right);
            let mut later = both.skip(agreeing(left, right));
            later.any(|(one, other)| one == other)
        })
    }),
    Special("23 letters that agree, and one left over", |against| {
        against.first(|left, right| agreeing(left, right) == LONGEST_TEXT - 1)
    }),
    Special("24 letters left over on the left", |against| {
        against.first(|left, right| left.len() == LONGEST_TEXT && agreeing(left, right) == 0)
    }),
    Special("24 letters left over on the right", |against| {
        against.first(|left, right| left.is_empty() && right.len() == LONGEST_TEXT)
    }),
];

/// Of all pairs and rules.
static OF_ALL: [Special; 14] = [
    Special("pair 1 the first to differ", |against| against.pair_is(1)),
    Special("pair 2 the first to differ", |against| against.pair_is(2)),
    Special("pair 3 the first to differ", |against| against.pair_is(3)),
    Special("a text on both sides before the pair", |against| {
        let first = against.pairs.first();
        let before = first.map_or(&[][..], |&pair| &against.texts[..pair]);
        before.iter().any(|texts| !texts[0].is_empty())
    }),
    Special("several pairs that differ", |against| {
        against.pairs.len() > 1
    }),
    Special("a later pair that differs otherwise", |against| {
        let rest =
            |&pair: &usize| speller::compare(&against.texts[pair][0], &against.texts[pair][1]);
        let mut rests = against.pairs.iter().map(rest);
        let first = rests.next();
        rests.any(|rest| Some(rest) != first)
    }),
    Special("a pair that differs, and a rule that breaks", |against| {
        !against.pairs.is_empty() && !against.rules.is_empty()
    }),
    Special("a pair that differs, and rules that hold", |against| {
        !against.pairs.is_empty() && against.has_rules && against.rules.is_empty()
    }),
    Special("only rules, rule 0 the first to break", |against| {
        against.rule_is(0)
    }),
    Special("only rules, rule 1 the first to break", |against| {
        against.rule_is(1)
    }),
    Special("only rules, rule 2 the first to break", |against| {
        against.rule_is(2)
    }),
    Special("only rules, rule 3 the first to break", |against| {
        against.rule_is(3)
    }),
    Special("only rules, several of them", |against| {
        against.pairs.is_empty() && against.rules.len() > 1
    }),
    Special("only rules, and all texts empty", |against| {
        let mut texts = against.texts.iter().flatten();
        against.pairs.is_empty() && texts.all(Vec::is_empty)
    }),
];

/// How many letters agree from the start.
fn agreeing(left: &[u8], right: &[u8]) -> usize {
    speller::compare(left, right).agreeing
}

/// Have both texts a letter where they stop to agree?
fn parted(left: &[u8], right: &[u8]) -> bool {
    agreeing(left, right) < left.len().min(right.len())
}

fn special() -> impl Iterator<Item = &'static Special> {
    OF_TEXTS.iter().chain(&OF_ALL)
}

/// A tally of all that may be special.
pub fn tally() -> Tally {
    let names: Vec<&'static str> = special().map(|special| special.0).collect();
    Tally::new("fillings that do not clash, with", &names, 0..0)
}

/// Counts all that is special about a filling that does not clash.
pub fn count(tally: &mut Tally, sheet: &Sheet, filling: &Filling) {
    let against = Against::new(sheet, filling);
    for special in special().filter(|special| special.1(&against)) {
        tally.count(Ok(special.0));
    }
}
