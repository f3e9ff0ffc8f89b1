//! The part of a turn of the fuzzer that is about hours. The plain reader says which hours are refused and
//! which templates share a minute; which templates clash is the library's list without hours.

use crate::book::{MOST_LIST_BYTES, PAIR_BYTES};
use crate::engine::Outcome;
use crate::paired::{self, BUFFERS_PERCENT, TOO_SHORT_FOR_LIST};
use crate::refusal::Refusal;
use crate::schedule::{self, Listed, MOST_BYTES};
use crate::schedules;
use crate::test;
use crate::turn::{Answers, Turn};

/// The first so many bytes of hours decide.
const DECIDING: usize = MOST_BYTES + 1;
/// How often a book is tried with the whole week and with no interval, if its list is not the longest.
const ALL_AND_NONE_PERCENT: usize = 20;

const WRONG_HOURS: i64 = -(Refusal::HoursFault as i64);

/// How much hours leave of a book's list.
pub const LEFT: [&str; 4] = [
    "nothing of nothing",
    "nothing of some pairs",
    "a part of some pairs",
    "all of some pairs",
];

/// The place in `LEFT` of what is left of a list.
fn place(left: &[u8], list: &[u8]) -> usize {
    match [left.len(), list.len()] {
        [0, 0] => 0,
        [0, _] => 1,
        [some, all] if some < all => 2,
        _ => 3,
    }
}

impl Turn<'_> {
    /// Hours are refused with what the book is refused with, or else just when something is wrong with
    /// them. A book without fault has this list.
    pub fn hours(&mut self, answers: &Answers, listed: Option<Listed>) {
        let status = answers.hours.status;
        self.later_bytes(status);
        let listed = match listed {
            Some(listed) => listed,
            None => {
                let due = answers.book.status;
                let reason = "with hours a book is refused with another number";
                return self.require(status == due, reason, status, due);
            }
        };
        self.all_and_none(&listed);
        match schedule::read(&self.input.hours, listed.book.templates.len()) {
            Err(fault) => {
                let due = test::status(fault.refusal());
                let reason = "hours with this fault have another answer";
                self.require(status == due, reason, status, due);
                self.calls.hours_faults.count(Ok(fault.name()));
            }
            Ok(schedule) => {
                let left = schedule::kept(&listed.list, &schedule);
                self.calls.left.count(Ok(LEFT[place(&left, &listed.list)]));
                self.left(&answers.hours, &left);
                self.one_byte();
            }
        }
    }

    /// Nothing behind the first 288 bytes of a book and the first 278 of its hours decides.
    fn later_bytes(&mut self, status: i64) {
        let (book, hours) = (&self.input.book[..], &self.input.hours[..]);
        let starts = [
            &book[..book.len().min(paired::DECIDING)],
            &hours[..hours.len().min(DECIDING)],
        ];
        if starts != [book, hours] {
            let [book, hours] = starts;
            let start = self.calls.book_hours(book, hours, self.input.room).status;
            let reason = "later bytes of a book or of hours decide";
            self.require(start == status, reason, status, start);
        }
    }

    /// What is left is listed. Two bytes for each pair are long enough for it, and one less is not.
    fn left(&mut self, got: &Outcome<u8>, left: &[u8]) {
        let input = self.input;
        self.require_left(got, left, input.room);
        let just = left.len();
        for room in [just, just.saturating_sub(1)] {
            if self.random.chance(BUFFERS_PERCENT) {
                let got = self.calls.book_hours(&input.book, &input.hours, room);
                self.require_left(&got, left, room);
            }
        }
    }

    /// Now and then: hours that are accepted are not so with a byte less, and with one more.
    fn one_byte(&mut self) {
        let input = self.input;
        if self.random.chance(BUFFERS_PERCENT) {
            let shorter = &input.hours[..input.hours.len() - 1];
            let longer = [&input.hours[..], &[self.random.byte()]].concat();
            for hours in [shorter, &longer] {
                let status = self.calls.book_hours(&input.book, hours, input.room).status;
                let reason = "hours with a byte less or more have another answer";
                self.require(status == WRONG_HOURS, reason, status, WRONG_HOURS);
            }
        }
    }

    /// Now and then: the whole week leaves the whole list, and no interval at all leaves nothing.
    fn all_and_none(&mut self, listed: &Listed) {
        let is_longest = listed.list.len() == MOST_LIST_BYTES;
        if !is_longest && !self.random.chance(ALL_AND_NONE_PERCENT) {
            return;
        }
        let templates = listed.book.templates.len();
        for (schedule, left, room) in [
            (
                schedules::whole_week(templates),
                &listed.list[..],
                MOST_LIST_BYTES,
            ),
            (schedules::never(templates), &[], 0),
        ] {
            let hours = schedules::encode(&schedule);
            let got = self.calls.book_hours(&self.input.book, &hours, room);
            self.require_left(&got, left, room);
        }
    }

    /// A call with a buffer of `room` bytes lists what is left, if there is room for it.
    fn require_left(&self, got: &Outcome<u8>, left: &[u8], room: usize) {
        let due = if room < left.len() {
            TOO_SHORT_FOR_LIST
        } else {
            (left.len() / PAIR_BYTES) as i64
        };
        let reason = "hours leave another number of pairs, or need another room for them";
        self.require(got.status == due, reason, got.status, due);
        let same = due < 0 || got.lent[..left.len()] == *left;
        self.require(same, "hours leave other pairs", got.status, due);
    }
}
