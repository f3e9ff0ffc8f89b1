//! What is special about hours that are accepted, by name, so that a test that never meets it cannot
//! pass.

use crate::book::{MOST_TEMPLATES, PAIR_BYTES};
use crate::schedule::{Interval, Listed, Schedule, MOST_INTERVALS, WEEK};
use crate::schedules;
use crate::tally::Tally;

/// A book with its list, its hours, what these leave of the list, and the length of a buffer that holds
/// that.
pub struct Met<'a> {
    pub listed: &'a Listed,
    pub schedule: &'a Schedule,
    pub left: &'a [u8],
    pub room: usize,
}

/// A name, and whether it fits.
struct Span(&'static str, fn(&Met) -> bool);

const SPANS: [Span; 22] = [
    Span("nothing that clashes", |met| met.listed.list.is_empty()),
    Span("nothing left of some pairs", |met| {
        met.left.is_empty() && !met.listed.list.is_empty()
    }),
    Span("all of some pairs left", |met| {
        !met.left.is_empty() && met.left == met.listed.list
    }),
    Span("a pair left before one that is not", |met| {
        met.kept().windows(2).any(|two| two == [true, false])
    }),
    Span("a pair left after one that is not", |met| {
        met.kept().windows(2).any(|two| two == [false, true])
    }),
    Span("of two templates that are the same one left", same_but_one),
    Span("a buffer just long enough for some pairs", |met| {
        !met.left.is_empty() && met.room == met.left.len()
    }),
    Span("a buffer too short for the book's own list", |met| {
        met.room < met.listed.list.len()
    }),
    Span("no interval at all", |met| met.schedule.concat().is_empty()),
    Span("the whole week in every template", |met| {
        *met.schedule == schedules::whole_week(met.schedule.len())
    }),
    Span("four intervals in each of 16 templates", |met| {
        met.schedule.concat().len() == MOST_TEMPLATES * MOST_INTERVALS
    }),
    Span("minute 0 alone", |met| {
        met.schedule.concat().contains(&[0, 1])
    }),
    Span("the last minute alone", |met| {
        met.schedule.concat().contains(&[WEEK - 1, WEEK])
    }),
    Span("four intervals back to back", |met| {
        let meet = |two: &[Interval]| two[0][1] == two[1][0];
        let mut four = met
            .schedule
            .iter()
            .filter(|all| all.len() == MOST_INTERVALS);
        four.any(|all| all.windows(2).all(meet))
    }),
    Span("a clash of a template without intervals", |met| {
        met.any_clash(|one, other| one.is_empty() || other.is_empty())
    }),
    Span("a clash of intervals that touch and share nothing", |met| {
        let touch = |[_, end]: Interval, [start, _]: Interval| end == start;
        met.any_clash(|one, other| minutes(one, other) == 0 && any(one, other, touch))
    }),
    Span("a clash in one minute", |met| {
        met.any_clash(|one, other| minutes(one, other) == 1)
    }),
    Span("a clash in the same interval", |met| {
        met.any_clash(|one, other| any(one, other, |one, other| one == other))
    }),
    Span("a clash in an interval within another", |met| {
        let within = |one: Interval, other: Interval| one[0] < other[0] && other[1] < one[1];
        met.any_clash(|one, other| any(one, other, within))
    }),
    Span("a clash in the first intervals alone", |met| {
        met.any_clash(|one, other| is_needed(one, other, |all| &all[1..]))
    }),
    Span("a clash in the last intervals alone", |met| {
        met.any_clash(|one, other| is_needed(one, other, |all| &all[..all.len() - 1]))
    }),
    Span("minutes shared by templates that do not clash", |met| {
        let mut apart = met.listed.book.pairs();
        apart.retain(|pair| !met.pairs().contains(pair));
        met.any_of(&apart, |one, other| minutes(one, other) > 0)
    }),
];

impl Met<'_> {
    /// The pairs of the book's own list.
    fn pairs(&self) -> Vec<[usize; 2]> {
        let pairs = self.listed.list.chunks(PAIR_BYTES);
        pairs.map(|pair| [pair[0].into(), pair[1].into()]).collect()
    }

    /// Of each pair of the book's own list, whether it is left.
    fn kept(&self) -> Vec<bool> {
        let left: Vec<&[u8]> = self.left.chunks(PAIR_BYTES).collect();
        let pairs = self.listed.list.chunks(PAIR_BYTES);
        pairs.map(|pair| left.contains(&pair)).collect()
    }

    /// Do the intervals of two templates that clash pass the test?
    fn any_clash(&self, test: impl Fn(&[Interval], &[Interval]) -> bool) -> bool {
        self.any_of(&self.pairs(), test)
    }

    /// Do those of one of these pairs, in this order or the other?
    fn any_of(
        &self,
        pairs: &[[usize; 2]],
        test: impl Fn(&[Interval], &[Interval]) -> bool,
    ) -> bool {
        pairs.iter().any(|pair| {
            let [one, other] = pair.map(|template| &self.schedule[template]);
            test(one, other) || test(other, one)
        })
    }
}

/// Does a template clash with two that are the same, and of these pairs one is left?
fn same_but_one(met: &Met) -> bool {
    let templates = &met.listed.book.templates;
    let (pairs, kept) = (met.pairs(), met.kept());
    let is_like = |first: usize, second: usize| {
        let [[i, j], [k, l]] = [pairs[first], pairs[second]];
        i == k && templates[j] == templates[l] || j == l && templates[i] == templates[k]
    };
    let all = 0..pairs.len();
    let mut left = all.clone().filter(|&pair| kept[pair]);
    left.any(|pair| {
        all.clone()
            .any(|other| !kept[other] && is_like(pair, other))
    })
}

/// How many minutes two templates share.
fn minutes(one: &[Interval], other: &[Interval]) -> u16 {
    let mut sum = 0;
    for [start, end] in one {
        for [other_start, other_end] in other {
            sum += end.min(other_end).saturating_sub(*start.max(other_start));
        }
    }
    sum
}

/// Do an interval of the one and an interval of the other pass the test?
fn any(one: &[Interval], other: &[Interval], test: fn(Interval, Interval) -> bool) -> bool {
    one.iter()
        .any(|&one| other.iter().any(|&other| test(one, other)))
}

/// Do two templates of several intervals share a minute, and none without some of either?
fn is_needed(one: &[Interval], other: &[Interval], some: fn(&[Interval]) -> &[Interval]) -> bool {
    one.len() > 1
        && other.len() > 1
        && minutes(one, other) > 0
        && minutes(some(one), other) == 0
        && minutes(one, some(other)) == 0
}

/// A tally of all that may be special.
pub fn tally() -> Tally {
    Tally::new("hours with", &SPANS.map(|span| span.0), 0..0)
}

/// Counts what fits.
pub fn count(tally: &mut Tally, met: &Met) {
    for span in &SPANS {
        if span.1(met) {
            tally.count(Ok(span.0));
        }
    }
}
