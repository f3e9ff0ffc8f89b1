//! The parts of the test with hours that are faulty in a place that is known, so that document 02's order
//! gives the number of the refusal: one fault in each place, two, and several of all kinds at once.

use crate::book::{MOST_LIST_BYTES, MOST_TEMPLATES};
use crate::changes::each_value_of_each_byte;
use crate::hours::{compare, compare_in, Shop};
use crate::lists::{ALIKE, SIXTEEN, STORY};
use crate::orders;
use crate::report::{require, Hex};
use crate::schedule::{self, Interval, Schedule, MOST_INTERVALS};
use crate::schedules::{self, WAYS};
use crate::test::Test;

pub fn run(test: &mut Test) {
    test.part("hours with several faults at once", several_faults);
    test.part("hours with a fault in each window", each_window);
    test.part("hours with faults in two windows", two_windows);
    test.part("hours with a fault in each count", each_count);
    test.part("hours, one byte changed or the end cut", small_changes);
}

/// A book, its hours and the length of its buffer, to be made faulty.
struct Asked {
    book: Vec<u8>,
    hours: Vec<u8>,
    room: usize,
}

/// A fault: its number, and how it is made.
struct Made(u8, fn(&mut Asked));

/// Windows from 10 to 20 in all of three templates, and in the first two also from 30 to 40.
const HOURS: &[u8] =
    b"TPH\0\x01\x02\0\x0A\0\x14\0\x1E\0\x28\x02\0\x0A\0\x14\0\x1E\0\x28\x01\0\x0A\0\x14";

/// In the order in which document 02 gives them.
const MADE: [Made; 14] = [
    Made(40, |asked| asked.book[4] = 2),
    Made(41, |asked| asked.book.push(0)),
    Made(43, |asked| asked.hours[1] = b'p'),
    Made(43, |asked| asked.hours[3] = 1),
    Made(43, |asked| asked.hours[23] = 5),
    Made(43, |asked| asked.hours.push(0)),
    // In the first template from 20 to 20, then to 65,320 and from 19 on.
    Made(44, |asked| asked.hours[7] = 20),
    Made(44, |asked| asked.hours[12] = 255),
    Made(45, |asked| asked.hours[11] = 19),
    // In the second template from 10 to 9, then to 10,280 and from 5 on.
    Made(44, |asked| asked.hours[18] = 9),
    Made(44, |asked| asked.hours[21] = 40),
    Made(45, |asked| asked.hours[20] = 5),
    // In the third template from 25,610 on.
    Made(44, |asked| asked.hours[24] = 100),
    Made(42, |asked| asked.room = 5),
];

/// Every choice of faults at once is answered by the first one's number.
fn several_faults(test: &mut Test) {
    for chosen in orders::choices(&MADE) {
        let mut asked = Asked {
            book: ALIKE.to_vec(),
            hours: HOURS.to_vec(),
            room: 6,
        };
        for Made(_, make) in &chosen {
            make(&mut asked);
        }
        let shop = Shop::new(&asked.book);
        let first = chosen.first().map(|made| made.0);
        compare_known(test, &shop, &asked.hours, asked.room, first);
    }
}

/// Compares where the number of the refusal is known, if there is one.
fn compare_known(test: &mut Test, shop: &Shop, hours: &[u8], room: usize, number: Option<u8>) {
    let left = shop.left(hours);
    let due = schedule::due(&left, room).map_err(|refusal| refusal as u8);
    require(
        due.err() == number,
        "this is not the first fault's number in document 02's order",
        &[
            ("book", &Hex(&shop.book)),
            ("hours", &Hex(hours)),
            ("buffer of", &room),
            ("answer", &format!("{due:02X?}")),
            ("due", &format!("{number:?}")),
        ],
    );
    compare_in(test, shop, hours, &left, room);
}

/// Four windows for each of 16 templates, some back to back, which all share minutes.
pub fn full() -> Schedule {
    let windows = |i: u16| vec![[i, 20], [20, 30 + i], [1000, 2000], [10_000, 10_080 - i]];
    (0..MOST_TEMPLATES as u16).map(windows).collect()
}

/// The bytes of a schedule with some intervals changed.
fn changed(schedule: &Schedule, changes: &[([usize; 2], Interval)]) -> Vec<u8> {
    let mut changed = schedule.clone();
    for &([template, place], interval) in changes {
        changed[template][place] = interval;
    }
    schedules::encode(&changed)
}

/// Each window of 64 is spoiled in each way, in an empty buffer and in one that is long enough.
fn each_window(test: &mut Test) {
    let (shop, full) = (Shop::new(SIXTEEN), full());
    for [template, place] in schedules::places(&full) {
        for way in WAYS {
            if let Some(spoiled) = way.spoiled(&full[template], place) {
                let hours = changed(&full, &[([template, place], spoiled)]);
                for room in [0, MOST_LIST_BYTES] {
                    compare_known(test, &shop, &hours, room, Some(way.0));
                }
            }
        }
    }
}

/// Of two windows that are spoiled the first decides. Every two of 64 are tried, each of them spoiled in a
/// way of 44 and in one of 45.
fn two_windows(test: &mut Test) {
    let (shop, full) = (Shop::new(SIXTEEN), full());
    let mut spoiled = Vec::new();
    for at in schedules::places(&full) {
        for number in [44, 45] {
            let ways = WAYS.into_iter().filter(|way| way.0 == number);
            let some: Vec<Interval> = ways
                .filter_map(|way| way.spoiled(&full[at[0]], at[1]))
                .collect();
            if !some.is_empty() {
                spoiled.push((at, test.random.one_of(&some), number));
            }
        }
    }
    for (place, &(at, interval, number)) in spoiled.iter().enumerate() {
        for &(later, other, _) in spoiled[place..].iter().filter(|later| later.0 != at) {
            let hours = changed(&full, &[(at, interval), (later, other)]);
            compare_known(test, &shop, &hours, MOST_LIST_BYTES, Some(number));
        }
    }
}

/// Every count that is too large, in every template: over four windows, and over as many as it says, all in
/// order. In every other file the first window of all is faulty.
fn each_count(test: &mut Test) {
    let (shop, full) = (Shop::new(SIXTEEN), full());
    let mut faulty = full.clone();
    faulty[0][0] = [5, 5];
    for template in 0..full.len() {
        for count in MOST_INTERVALS as u16 + 1..=255 {
            let mut long = [&full, &faulty][usize::from(count) % 2].clone();
            let mut hours = schedules::encode(&long);
            hours[schedules::count_at(&long, template)] = count as u8;
            compare_known(test, &shop, &hours, MOST_LIST_BYTES, Some(43));
            long[template] = (0..count).map(|minute| [minute, minute + 1]).collect();
            let hours = schedules::encode(&long);
            compare_known(test, &shop, &hours, MOST_LIST_BYTES, Some(43));
        }
    }
}

/// Some hours, the longest ones, and those with a faulty window at the start or at the end: each cut; of
/// the short ones each value of each byte.
fn small_changes(test: &mut Test) {
    let story: Schedule = vec![vec![[0, 480], [1080, 10_080]], vec![], vec![[480, 1081]]];
    let story = schedules::encode(&story);
    let full = full();
    let [first, last] = [[0, 0], [15, 3]].map(|at| changed(&full, &[(at, [5, 5])]));
    let full = schedules::encode(&full);
    for (book, hours, is_short) in [
        (ALIKE, HOURS, true),
        (STORY, &story, true),
        (SIXTEEN, &full, false),
        (SIXTEEN, &first, false),
        (SIXTEEN, &last, false),
    ] {
        let shop = Shop::new(book);
        for length in 0..=hours.len() {
            compare(test, &shop, &hours[..length]);
        }
        for changed in each_value_of_each_byte(hours).filter(|_| is_short) {
            compare(test, &shop, &changed);
        }
    }
}
