//! The parts of the test that try all windows with ends on a small grid, at the start of the week and at
//! its end: what they leave where they are in order, and else the refusal.

use crate::hours::Shop;
use crate::schedule::{Interval, MOST_INTERVALS, WEEK};
use crate::schedules;
use crate::test::Test;

/// Two empty templates, which clash.
const BOOK: &[u8] = b"TPB\0\x01\x01A\x02\0\0\0\0";
const ROOM: usize = 2;

const ENDS: [u16; 7] = [0, 1, 2, 3, WEEK - 2, WEEK - 1, WEEK];
/// With minutes that no window may have.
const BEYOND: [u16; 8] = [0, 1, 2, 3, WEEK - 1, WEEK, WEEK + 1, u16::MAX];
const FEW_BEYOND: [u16; 4] = [0, 1, 2, WEEK + 1];

pub fn run(test: &mut Test) {
    test.part("all windows of a grid, in order", in_order);
    test.part("all windows of a grid, in any order", in_any_order);
}

/// Every choice of windows that are in order, up to four, with every other such choice.
fn in_order(test: &mut Test) {
    let shop = Shop::new(BOOK);
    let mut choices = vec![Vec::new()];
    add_choices(&mut choices, &[]);
    for one in &choices {
        for other in &choices {
            compare(test, &shop, &[one.clone(), other.clone()]);
        }
    }
}

/// Adds all choices that start with these intervals, which are in order, and have more.
fn add_choices(choices: &mut Vec<Vec<Interval>>, intervals: &[Interval]) {
    if intervals.len() == MOST_INTERVALS {
        return;
    }
    let last = intervals.last().map_or(0, |&[_, end]| end);
    for [start, end] in windows(&ENDS) {
        if last <= start && start < end {
            let longer = [intervals, &[[start, end]]].concat();
            choices.push(longer.clone());
            add_choices(choices, &longer);
        }
    }
}

/// All windows with these ends, also those that end before they start.
fn windows(ends: &[u16]) -> Vec<Interval> {
    let from = |&start: &u16| ends.iter().map(move |&end| [start, end]);
    ends.iter().flat_map(from).collect()
}

/// Any windows: two of one template, one of each, and three of one.
fn in_any_order(test: &mut Test) {
    let shop = Shop::new(BOOK);
    let week = vec![[0, WEEK]];
    let all = windows(&BEYOND);
    for &one in &all {
        for &other in &all {
            compare(test, &shop, &[vec![one, other], week.clone()]);
            compare(test, &shop, &[vec![one], vec![other]]);
        }
    }
    let few = windows(&FEW_BEYOND);
    for &first in &few {
        for &second in &few {
            for &third in &few {
                compare(test, &shop, &[week.clone(), vec![first, second, third]]);
            }
        }
    }
}

fn compare(test: &mut Test, shop: &Shop, schedule: &[Vec<Interval>]) {
    let hours = schedules::encode(schedule);
    test.book_hours(&shop.book, &hours, &shop.left(&hours), ROOM);
}
