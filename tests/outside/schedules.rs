//! Makes hours files to test with: valid ones of every kind, in which intervals of several templates often
//! touch, share a minute or are the same, and faulty ones of every kind.

use crate::random::Random;
use crate::reader::VERSION;
use crate::schedule::{
    Interval, Schedule, HEADER_BYTES, INTERVAL_BYTES, MARK, MOST_INTERVALS, WEEK,
};
use crate::sheets::{self, count};

const SPOILED_PERCENT: usize = 30;
const TOO_MANY_PERCENT: usize = 3;
const DAMAGED_PERCENT: usize = 20;

/// The bytes of an hours file.
pub fn encode(schedule: &[Vec<Interval>]) -> Vec<u8> {
    let mut bytes = MARK.to_vec();
    bytes.extend(VERSION.to_be_bytes());
    for intervals in schedule {
        bytes.push(intervals.len() as u8);
        for minute in intervals.concat() {
            bytes.extend(minute.to_be_bytes());
        }
    }
    bytes
}

/// Every template can be sent in the whole week.
pub fn whole_week(templates: usize) -> Schedule {
    vec![vec![[0, WEEK]]; templates]
}

/// No template can be sent at all.
pub fn never(templates: usize) -> Schedule {
    vec![Vec::new(); templates]
}

/// A valid schedule of any kind.
pub fn valid(random: &mut Random, templates: usize) -> Schedule {
    match random.below(16) {
        0 => whole_week(templates),
        1 => never(templates),
        2 | 3 => around_few_minutes(random, templates, MOST_INTERVALS),
        4 | 5 => around_few_minutes(random, templates, 1),
        _ => around_few_minutes(random, templates, 0),
    }
}

/// A valid schedule in which intervals of all templates start and end at or beside a few minutes. Each
/// template has at least so many, if the minutes allow it.
fn around_few_minutes(random: &mut Random, templates: usize, least: usize) -> Schedule {
    let minutes: Vec<u16> = (0..random.within(2 + 2 * least, 12))
        .map(|_| minute(random))
        .collect();
    let intervals = |random: &mut Random| intervals(random, &minutes, least);
    (0..templates).map(|_| intervals(random)).collect()
}

/// A minute of the week or its end; often one at an end, often one early on Monday.
fn minute(random: &mut Random) -> u16 {
    match random.below(6) {
        0 => 0,
        1 => WEEK,
        2 => random.below(20) as u16,
        _ => random.within(0, usize::from(WEEK)) as u16,
    }
}

/// At least so many intervals, if the minutes allow it, that start and end at or beside some of the
/// minutes, in order and often back to back.
fn intervals(random: &mut Random, minutes: &[u16], least: usize) -> Vec<Interval> {
    let mut ends: Vec<u16> = minutes.iter().map(|&near| beside(random, near)).collect();
    ends.sort();
    ends.dedup();
    while ends.len() > least.max(1) + 1 && random.chance(40) {
        ends.remove(random.below(ends.len()));
    }
    let mut intervals: Vec<Interval> = ends.windows(2).map(|two| [two[0], two[1]]).collect();
    let most = count(random, least, MOST_INTERVALS);
    while intervals.len() > most {
        intervals.remove(random.below(intervals.len()));
    }
    intervals
}

/// A minute, or the one before or after it.
fn beside(random: &mut Random, minute: u16) -> u16 {
    match random.below(8) {
        0 => minute.saturating_sub(1),
        1 => WEEK.min(minute + 1),
        _ => minute,
    }
}

/// A way to spoil an interval: the number of the refusal that it then has, and what becomes of it. That may
/// depend on the interval that precedes it, and on there being one.
#[derive(Clone, Copy)]
pub struct Way(pub u8, fn(Interval, Option<Interval>) -> Option<Interval>);

pub const WAYS: [Way; 16] = [
    // The start at the end.
    Way(44, |[start, _], _| Some([start, start])),
    Way(44, |[_, end], _| Some([end, end])),
    // The start after the end.
    Way(44, |[start, end], _| Some([end, start])),
    Way(44, |[_, end], _| Some([end + 1, end])),
    Way(44, |[_, end], _| Some([u16::MAX, end])),
    // The end after the week.
    Way(44, |[start, _], _| Some([start, WEEK + 1])),
    Way(44, |[start, _], _| Some([start, u16::MAX])),
    Way(44, |_, _| Some([WEEK, WEEK + 1])),
    // Both at the end and after the week.
    Way(44, |_, _| Some([u16::MAX, u16::MAX])),
    // The start before the preceding end: by a minute, by all of the preceding interval, and by more.
    Way(45, |[_, end], preceding| Some([preceding?[1] - 1, end])),
    Way(45, |[_, end], preceding| Some([preceding?[0], end])),
    Way(45, |_, preceding| preceding),
    Way(45, |_, preceding| {
        let [start, _] = preceding?;
        Some([start.checked_sub(1)?, start])
    }),
    // That, and with it the start at the end, after it, or the end after the week.
    Way(44, |_, preceding| Some([preceding?[1] - 1; 2])),
    Way(44, |_, preceding| {
        let [start, end] = preceding?;
        Some([end - 1, start])
    }),
    Way(44, |_, preceding| Some([preceding?[1] - 1, WEEK + 1])),
];

impl Way {
    /// What becomes of an interval of a template, if it can be spoiled so.
    pub fn spoiled(self, intervals: &[Interval], place: usize) -> Option<Interval> {
        let preceding = intervals[..place].last().copied();
        self.1(intervals[place], preceding)
    }
}

/// All intervals of a schedule, each by its template and its place.
pub fn places(schedule: &[Vec<Interval>]) -> Vec<[usize; 2]> {
    let of_template =
        |template: usize| (0..schedule[template].len()).map(move |place| [template, place]);
    (0..schedule.len()).flat_map(of_template).collect()
}

/// A valid schedule with one to three intervals spoiled, if it has any.
fn spoil(random: &mut Random, valid: &Schedule) -> Schedule {
    let mut schedule = valid.clone();
    let places = places(valid);
    for _ in 0..places.len().min(random.within(1, 3)) {
        let [template, place] = random.one_of(&places);
        let spoiled = random.one_of(&WAYS).spoiled(&valid[template], place);
        schedule[template][place] = spoiled.unwrap_or(valid[template][place]);
    }
    schedule
}

/// Where the count of a template stands.
pub fn count_at(schedule: &[Vec<Interval>], template: usize) -> usize {
    let before = &schedule[..template];
    HEADER_BYTES + before.len() + INTERVAL_BYTES * before.concat().len()
}

/// Damages the bytes of a schedule: the mark, the version, a count, the end, or anything.
fn damage(random: &mut Random, schedule: &Schedule, bytes: &mut Vec<u8>) {
    let template = random.below(schedule.len());
    let count = count_at(schedule, template);
    let any = random.byte();
    match random.below(10) {
        0 => bytes[random.below(MARK.len())] = random.one_of(&[any, b'T', b'P', b'H', b'B', b'L']),
        1 => bytes[MARK.len()] = random.one_of(&[any, 1, 255]),
        2 => bytes[MARK.len() + 1] = random.one_of(&[any, 0, 2]),
        3 => bytes[count] = random.within(MOST_INTERVALS + 1, 255) as u8,
        4 => bytes[count] = random.within(0, MOST_INTERVALS) as u8,
        5 => bytes.truncate(random.below(bytes.len())),
        6 => {
            let extra = random.within(1, 1 + INTERVAL_BYTES);
            bytes.extend(random.bytes(extra));
        }
        7 => bytes.push(0),
        _ => sheets::damage(random, bytes),
    }
}

/// The bytes of hours for so many templates, valid or faulty in any way.
pub fn any(random: &mut Random, templates: usize) -> Vec<u8> {
    let templates = match random.below(30) {
        0 => templates + 1,
        1 if templates > 1 => templates - 1,
        _ => templates,
    };
    let mut schedule = valid(random, templates);
    if random.chance(SPOILED_PERCENT) {
        schedule = spoil(random, &schedule);
    }
    if random.chance(TOO_MANY_PERCENT) {
        let template = random.below(templates);
        let five = 0..=MOST_INTERVALS as u16;
        schedule[template] = five.map(|minute| [minute, minute + 1]).collect();
    }
    let mut bytes = encode(&schedule);
    if random.chance(DAMAGED_PERCENT) {
        damage(random, &schedule, &mut bytes);
    }
    bytes
}
