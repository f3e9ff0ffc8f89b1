//! What the calls answer where they refuse nothing, and the sides of a pair. Why a filling does not clash is in `cause.rs`.

use crate::{Cause, Refusal, LIST_MOST};
use std::fmt;

/// How many of each a sheet has.
#[derive(Clone, Copy, Debug, PartialEq, Eq, Hash)]
pub struct Counts {
    /// Letters, 1 to 8.
    pub letters: usize,
    /// Fields, 0 to 6.
    pub fields: usize,
    /// Pairs of templates, 1 to 4.
    pub pairs: usize,
    /// Rules, 0 to 4.
    pub rules: usize,
}

/// What is in a sheet's clause file.
#[derive(Clone, Copy, Debug, PartialEq, Eq, Hash)]
pub struct ClauseCounts {
    /// Variables; they are numbered from 1.
    pub variables: u64,
    /// Clauses. The file has a line for each, after line 0.
    pub clauses: u64,
    /// Bytes: the length of all lines together.
    pub bytes: u64,
}

/// Whether a filling clashes.
#[derive(Clone, Copy, Debug, PartialEq, Eq, Hash)]
pub enum Checked {
    /// In every pair both templates spell the same text, and every rule holds.
    Clash,
    /// Some pair's templates spell different texts, or some rule does not hold; the cause tells the first of these.
    NoClash(Cause),
}

/// Whether some filling of a sheet clashes.
#[derive(Clone, Copy, Debug, PartialEq, Eq, Hash)]
pub enum Searched {
    /// Some filling clashes, and the first that does was handed over.
    Clash,
    /// No filling clashes.
    Apart,
}

/// Two templates of a book that clash, by their numbers; `first` is below `second`.
#[derive(Clone, Copy, Debug, PartialEq, Eq, Hash)]
pub struct Clashing {
    /// The template on the left of the question.
    pub first: usize,
    /// The template on the right of the question.
    pub second: usize,
}

/// The pairs that a call lists, which is lent a buffer that is always long enough and answers their number.
pub(crate) fn listed(
    call: impl FnOnce(&mut [u8]) -> Result<usize, Refusal>,
) -> Result<Vec<Clashing>, Refusal> {
    let mut list = [0; LIST_MOST];
    let pairs = call(&mut list)?;
    let clashing = |pair: &[u8]| Clashing {
        first: usize::from(pair[0]),
        second: usize::from(pair[1]),
    };
    Ok(list[..2 * pairs].chunks(2).map(clashing).collect())
}

/// A side of a pair of templates.
#[derive(Clone, Copy, Debug, PartialEq, Eq, Hash)]
pub enum Side {
    /// The left template.
    Left,
    /// The right template.
    Right,
}

impl Side {
    /// Document 01's number: 0 left, 1 right.
    pub fn number(self) -> u64 {
        match self {
            Side::Left => 0,
            Side::Right => 1,
        }
    }

    /// The side of a number, if there is one.
    pub fn from_number(number: u64) -> Option<Side> {
        match number {
            0 => Some(Side::Left),
            1 => Some(Side::Right),
            _ => None,
        }
    }
}

/// `left` or `right`.
impl fmt::Display for Side {
    fn fmt(&self, out: &mut fmt::Formatter) -> fmt::Result {
        out.pad(match self {
            Side::Left => "left",
            Side::Right => "right",
        })
    }
}

#[cfg(test)]
mod tests {
    use super::*;

    #[test]
    fn a_number_leads_back_to_its_side() {
        for side in [Side::Left, Side::Right] {
            assert_eq!(Side::from_number(side.number()), Some(side));
        }
        for number in [2, 256, u64::MAX] {
            assert_eq!(Side::from_number(number), None);
        }
    }

    #[test]
    fn a_side_prints_its_name() {
        assert_eq!(
            format!("{} and {}", Side::Left, Side::Right),
            "left and right"
        );
    }
}
