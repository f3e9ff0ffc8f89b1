//! A plain reader of hours files, version 1, written from document 02's No. 6, and what hours leave of a
//! book's list. Whether two templates share a minute is told by going through all minutes of the week. It
//! knows nothing of the library.

use crate::book::{self, Book, MOST_TEMPLATES, PAIR_BYTES};
use crate::reader::{Walk, VERSION};
use crate::refusal::Refusal;

/// A window: the minute at which it starts, and the one before which it ends.
pub type Interval = [u16; 2];

/// The intervals of each template, in book order.
pub type Schedule = Vec<Vec<Interval>>;

pub const MARK: &[u8] = b"TPH";
/// The mark and the version.
pub const HEADER_BYTES: usize = 5;
pub const MOST_INTERVALS: usize = 4;
pub const INTERVAL_BYTES: usize = 4;
/// No accepted file has more.
pub const MOST_BYTES: usize = HEADER_BYTES + MOST_TEMPLATES * (1 + MOST_INTERVALS * INTERVAL_BYTES);
/// The minutes of a week.
pub const WEEK: u16 = 10_080;

/// What is wrong with an hours file.
#[derive(Clone, Copy, Debug, PartialEq)]
pub enum Fault {
    Mark,
    Version,
    Count,
    ByteMissing,
    BytesLeftOver,
    /// An interval that starts where it ends.
    NoMinute,
    /// One that starts after its end.
    Backwards,
    PastTheWeek,
    /// One that starts before the preceding one ends.
    Early,
}

/// The refusal of each fault, and a word for it.
pub const FAULTS: [(Fault, Refusal, &str); 9] = [
    (Fault::Mark, Refusal::HoursFault, "mark"),
    (Fault::Version, Refusal::HoursFault, "version"),
    (Fault::Count, Refusal::HoursFault, "count"),
    (Fault::ByteMissing, Refusal::HoursFault, "byte missing"),
    (Fault::BytesLeftOver, Refusal::HoursFault, "bytes left over"),
    (Fault::NoMinute, Refusal::Window, "start at the end"),
    (Fault::Backwards, Refusal::Window, "start after the end"),
    (Fault::PastTheWeek, Refusal::Window, "end after the week"),
    (
        Fault::Early,
        Refusal::WindowOrder,
        "start before the preceding end",
    ),
];

impl Fault {
    fn row(self) -> (Fault, Refusal, &'static str) {
        let listed = FAULTS.into_iter().find(|row| row.0 == self);
        listed.expect("a fault that is listed")
    }

    pub fn refusal(self) -> Refusal {
        self.row().1
    }

    pub fn name(self) -> &'static str {
        self.row().2
    }
}

/// Reads the hours of so many templates, or says what is wrong: with the form of the whole file, or else
/// with the first interval that is at fault.
pub fn read(hours: &[u8], templates: usize) -> Result<Schedule, Fault> {
    let schedule = read_form(hours, templates)?;
    for intervals in &schedule {
        for place in 0..intervals.len() {
            test(intervals, place)?;
        }
    }
    Ok(schedule)
}

/// The mark, the version, and of each template a count and that many intervals; nothing more.
fn read_form(hours: &[u8], templates: usize) -> Result<Schedule, Fault> {
    let mut walk = Walk { rest: hours };
    for &byte in MARK {
        if next(&mut walk)? != byte {
            return Err(Fault::Mark);
        }
    }
    if read_number(&mut walk)? != VERSION {
        return Err(Fault::Version);
    }
    let mut schedule = Vec::new();
    for _ in 0..templates {
        schedule.push(read_intervals(&mut walk)?);
    }
    if !walk.rest.is_empty() {
        return Err(Fault::BytesLeftOver);
    }
    Ok(schedule)
}

fn read_intervals(walk: &mut Walk) -> Result<Vec<Interval>, Fault> {
    let count = usize::from(next(walk)?);
    if count > MOST_INTERVALS {
        return Err(Fault::Count);
    }
    let mut intervals = Vec::new();
    for _ in 0..count {
        intervals.push([read_number(walk)?, read_number(walk)?]);
    }
    Ok(intervals)
}

/// Two bytes, the high one first.
fn read_number(walk: &mut Walk) -> Result<u16, Fault> {
    Ok(u16::from_be_bytes([next(walk)?, next(walk)?]))
}

fn next(walk: &mut Walk) -> Result<u8, Fault> {
    walk.next().map_err(|_| Fault::ByteMissing)
}

/// One interval of a template: whether it is one, then whether it comes after the preceding one.
fn test(intervals: &[Interval], place: usize) -> Result<(), Fault> {
    let [start, end] = intervals[place];
    if start == end {
        return Err(Fault::NoMinute);
    }
    if start > end {
        return Err(Fault::Backwards);
    }
    if end > WEEK {
        return Err(Fault::PastTheWeek);
    }
    match intervals[..place].last() {
        Some(&[_, preceding_end]) if start < preceding_end => Err(Fault::Early),
        _ => Ok(()),
    }
}

/// The minutes of the week, each by the templates that can be sent in it, with bit i for template i. Of
/// minutes in a row with the same templates there is one.
struct Week(Vec<u16>);

impl Week {
    fn new(schedule: &[Vec<Interval>]) -> Week {
        let mut week = vec![0; usize::from(WEEK)];
        for (template, intervals) in schedule.iter().enumerate() {
            for &[start, end] in intervals {
                for minute in &mut week[usize::from(start)..usize::from(end)] {
                    *minute |= 1 << template;
                }
            }
        }
        week.dedup();
        Week(week)
    }

    /// Can both templates be sent in some minute?
    fn has_both(&self, i: u8, j: u8) -> bool {
        let both = 1 << i | 1 << j;
        self.0.iter().any(|minute| minute & both == both)
    }
}

/// An accepted book with its list.
pub struct Listed {
    pub book: Book,
    pub list: Vec<u8>,
}

/// What is wrong: with a book, or else with its hours.
#[derive(Clone, Copy, Debug, PartialEq)]
pub enum Wrong {
    Book(book::Fault),
    Hours(Fault),
}

impl Wrong {
    pub fn refusal(self) -> Refusal {
        match self {
            Wrong::Book(fault) => fault.refusal(),
            Wrong::Hours(fault) => fault.refusal(),
        }
    }
}

/// The pairs of a list that share a minute, in their order.
pub fn kept(list: &[u8], schedule: &[Vec<Interval>]) -> Vec<u8> {
    let week = Week::new(schedule);
    let pairs = list.chunks(PAIR_BYTES);
    let kept = pairs.filter(|pair| week.has_both(pair[0], pair[1]));
    kept.flatten().copied().collect()
}

/// What is due in a buffer of `room` bytes, where so much is left of the list.
pub fn due(left: &Result<Vec<u8>, Wrong>, room: usize) -> Result<&[u8], Refusal> {
    let left = left.as_ref().map_err(|wrong| wrong.refusal())?;
    book::fitting(left, room)
}
