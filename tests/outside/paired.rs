//! The part of a turn of the fuzzer that is about books. The plain reader says which books are refused;
//! which templates clash is left to the library's search.

use crate::book::{self, Book, MOST_LIST_BYTES, PAIR_BYTES};
use crate::engine::Outcome;
use crate::refusal::Refusal;
use crate::schedule::Listed;
use crate::searches::ROOMY;
use crate::sheets;
use crate::test;
use crate::turn::Turn;

/// The first so many bytes of a book decide.
pub const DECIDING: usize = 288;
/// How often it is tried whether the length of a buffer is just what it must be, and how often all
/// questions of a book are asked.
pub const BUFFERS_PERCENT: usize = 15;
const ALL_QUESTIONS_PERCENT: usize = 5;

pub const TOO_SHORT_FOR_LIST: i64 = -(Refusal::BufferBelowList as i64);

impl Turn<'_> {
    /// A book is refused just when something is wrong with it, and by nothing behind its first 288
    /// bytes; else its list is held to the search, and answered with the book.
    pub fn book(&mut self, got: &Outcome<u8>) -> Option<Listed> {
        let input = self.input;
        let bytes = &input.book[..];
        let status = got.status;
        if bytes.len() > DECIDING {
            let start = self.calls.book(&bytes[..DECIDING], input.room).status;
            self.require(
                start == status,
                "later bytes of a book decide",
                status,
                start,
            );
        }
        match book::read(bytes) {
            Err(fault) => {
                let due = test::status(fault.refusal());
                let reason = "a book with this fault has another answer";
                self.require(status == due, reason, status, due);
                self.calls.book_faults.count(Ok(fault.name()));
                None
            }
            Ok(book) => {
                let accepted = status >= 0 || status == TOO_SHORT_FOR_LIST;
                self.require(accepted, "a good book is refused", status, status);
                let list = self.list(got);
                self.questions(&book, &list);
                Some(Listed { book, list })
            }
        }
    }

    /// The list of an accepted book. Two bytes for each pair are long enough for it, and one less is not.
    fn list(&mut self, got: &Outcome<u8>) -> Vec<u8> {
        let bytes = &self.input.book[..];
        let reason = "a buffer is too short for a list that it holds, or the other way round";
        let mut list = got.lent.clone();
        let mut pairs = got.status;
        if pairs < 0 {
            let roomy = self.calls.book(bytes, MOST_LIST_BYTES);
            list = roomy.lent;
            pairs = roomy.status;
            let size = PAIR_BYTES as i64 * pairs;
            self.require(size > self.input.room as i64, reason, got.status, pairs);
        }
        list.truncate(PAIR_BYTES * pairs as usize);
        if self.random.chance(BUFFERS_PERCENT) {
            let just = self.calls.book(bytes, list.len());
            self.require(just.status == pairs, reason, pairs, just.status);
            let same = just.lent == list;
            let reason = "the list is another one in a longer buffer";
            self.require(same, reason, pairs, just.status);
        }
        if pairs > 0 && self.random.chance(BUFFERS_PERCENT) {
            let short = self.calls.book(bytes, list.len() - 1).status;
            self.require(short == TOO_SHORT_FOR_LIST, reason, pairs, short);
        }
        list
    }

    /// One question of a book, now and then all: the search finds a clash just where a pair is listed.
    fn questions(&mut self, book: &Book, list: &[u8]) {
        let mut pairs = book.pairs();
        let known = |pair: &[u8]| pairs.iter().any(|some| some.map(|n| n as u8) == pair);
        let all_known = list.chunks(PAIR_BYTES).all(known);
        self.require(all_known, "a template that is not there is listed", 0, 0);
        if pairs.len() > 1 && !self.random.chance(ALL_QUESTIONS_PERCENT) {
            pairs = vec![pairs[self.random.below(pairs.len())]];
        }
        for pair in pairs {
            let sheet = sheets::encode(&book.question(pair));
            let search = self.calls.search(&sheet, ROOMY).status;
            let numbers = pair.map(|number| number as u8);
            let listed = list.chunks(PAIR_BYTES).any(|some| some == numbers);
            let reason = "the search and the list differ on two templates";
            self.require(search == i64::from(listed), reason, search, listed.into());
        }
    }
}
