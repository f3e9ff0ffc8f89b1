//! Why a filling does not clash: what the five numbers mean that the library's check writes.

use crate::status::not_allowed;
use crate::{Side, PAIRS_MOST, RULES_MOST, TEXT_MOST};
use std::fmt;

/// How many numbers tell a cause, and these numbers.
pub const WHY_NUMBERS: usize = 5;
pub type Why = [u64; WHY_NUMBERS];

/// Why a filling does not clash: the first pair whose two texts differ; or else, where in every pair the two are the same, the first rule that
/// does not hold. It prints in words.
///
/// ```
/// use lunthegyr::{Cause, Side};
///
/// // The texts ab and acd: a agrees, and b is the rest. The texts ab and abc: a and b agree, and c is the rest.
/// let parting = Cause::PairDiffers { pair: 0, agreeing: 1, side: Side::Left, rest: 1 };
/// let ended = Cause::PairDiffers { pair: 0, agreeing: 2, side: Side::Right, rest: 1 };
/// assert_eq!(parting.to_string(), "the texts of pair 0 differ: 1 letter agrees, 1 is left over on the left");
/// assert_eq!(ended.to_string(), "the texts of pair 0 differ: 2 letters agree, 1 is left over on the right");
/// assert_eq!(Cause::RuleBroken { rule: 3 }.to_string(), "rule 3 does not hold");
/// ```
#[derive(Clone, Copy, Debug, PartialEq, Eq, Hash)]
pub enum Cause {
    /// The templates of a pair spell two texts that differ.
    PairDiffers {
        /// The pair; pairs count from 0.
        pair: usize,
        /// How many letters agree from the start, up to the first place where the texts part or one of them ends.
        agreeing: usize,
        /// Which text the rest is of: the left one, unless that ends where the letters agree no more.
        side: Side,
        /// How many letters the rest has: all of that text after those that agree, and so at least 1.
        rest: usize,
    },
    /// A rule does not hold; every pair's templates spell the same text.
    RuleBroken {
        /// The rule; rules count from 0.
        rule: usize,
    },
}

impl Cause {
    /// The cause that the library wrote.
    pub(crate) fn of(why: Why) -> Cause {
        match Cause::known(why) {
            Some(cause) => cause,
            None => not_allowed(&format!("tpl_check wrote {why:?}")),
        }
    }

    /// The cause of these numbers, if they are some that `include/lunthegyr.h` allows.
    fn known(why: Why) -> Option<Cause> {
        match why {
            [1, pair, agreeing, side, rest] => {
                let agreeing = within(agreeing, 0, TEXT_MOST)?;
                Some(Cause::PairDiffers {
                    pair: within(pair, 0, PAIRS_MOST - 1)?,
                    agreeing,
                    side: Side::from_number(side)?,
                    rest: within(rest, 1, TEXT_MOST - agreeing)?,
                })
            }
            [2, rule, 0, 0, 0] => Some(Cause::RuleBroken {
                rule: within(rule, 0, RULES_MOST - 1)?,
            }),
            _ => None,
        }
    }
}

/// A number, if it is not below the least or above the greatest.
fn within(number: u64, least: usize, greatest: usize) -> Option<usize> {
    let number = usize::try_from(number).ok()?;
    Some(number).filter(|number| (least..=greatest).contains(number))
}

impl fmt::Display for Cause {
    fn fmt(&self, out: &mut fmt::Formatter) -> fmt::Result {
        match *self {
            Cause::PairDiffers {
                pair,
                agreeing,
                side,
                rest,
            } => {
                let agree = match agreeing {
                    1 => "letter agrees",
                    _ => "letters agree",
                };
                let are = if rest == 1 { "is" } else { "are" };
                write!(out, "the texts of pair {pair} differ: {agreeing} {agree}, {rest} {are} left over on the {side}")
            }
            Cause::RuleBroken { rule } => write!(out, "rule {rule} does not hold"),
        }
    }
}

#[cfg(test)]
mod tests {
    use super::*;

    fn differs(pair: usize, agreeing: usize, side: Side, rest: usize) -> Cause {
        Cause::PairDiffers {
            pair,
            agreeing,
            side,
            rest,
        }
    }

    #[test]
    fn the_five_numbers_are_not_exchanged() {
        assert_eq!(Cause::of([1, 3, 2, 0, 4]), differs(3, 2, Side::Left, 4));
        assert_eq!(Cause::of([1, 0, 4, 1, 2]), differs(0, 4, Side::Right, 2));
        assert_eq!(Cause::of([2, 3, 0, 0, 0]), Cause::RuleBroken { rule: 3 });
    }

    #[test]
    fn the_longest_texts_have_a_cause() {
        assert_eq!(Cause::of([1, 0, 0, 0, 24]), differs(0, 0, Side::Left, 24));
        assert_eq!(Cause::of([1, 0, 23, 1, 1]), differs(0, 23, Side::Right, 1));
    }

    #[test]
    #[should_panic(
        expected = "tpl_check wrote [0, 0, 0, 0, 0], which lunthegyr.h does not allow: the program was linked with another library"
    )]
    fn numbers_that_nobody_wrote_are_a_panic() {
        Cause::of([0; WHY_NUMBERS]);
    }

    /// Whether the header allows these numbers, said in another way.
    fn allowed(why: Why) -> bool {
        let [cause, number, agreeing, side, rest] = why;
        let text = agreeing.checked_add(rest);
        match cause {
            1 => number <= 3 && side <= 1 && rest > 0 && text.map_or(false, |text| text <= 24),
            2 => number <= 3 && (agreeing, side, rest) == (0, 0, 0),
            _ => false,
        }
    }

    #[test]
    fn all_other_numbers_are_no_cause() {
        let ends = [0, 1, 2, 3, 4, 23, 24, 25, 256, u64::MAX];
        let mut causes = 0;
        for code in 0..ends.len().pow(5) as u32 {
            let why = [0, 1, 2, 3, 4]
                .map(|place| ends[code as usize / ends.len().pow(place) % ends.len()]);
            assert_eq!(Cause::known(why).is_some(), allowed(why), "{why:?}");
            causes += u32::from(allowed(why));
        }
        assert!(causes > 100);
    }

    #[test]
    fn it_prints_in_words() {
        let words = |cause: Cause| cause.to_string();
        assert_eq!(
            words(differs(2, 0, Side::Right, 12)),
            "the texts of pair 2 differ: 0 letters agree, 12 are left over on the right"
        );
        assert_eq!(
            words(differs(0, 1, Side::Left, 1)),
            "the texts of pair 0 differ: 1 letter agrees, 1 is left over on the left"
        );
        assert_eq!(words(Cause::RuleBroken { rule: 1 }), "rule 1 does not hold");
    }
}
