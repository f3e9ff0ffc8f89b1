//! Every public call, with what must hold after it whatever it was given: the answer is one that the
//! C header lists for this call, no byte changed that the call may not write, and the same call
//! answers the same again. It knows the ranges of answers, and not which answer is right.

use crate::book::{MOST_TEMPLATES, PAIR_BYTES};
use crate::engine::{self, buffer_before, filling_bytes, Outcome, COUNTS_BEFORE, WHY_BEFORE};
use crate::listed::{self, Call, LONGEST_LINE, LONGEST_TEXT, SHORTEST_LINE};
use crate::reader::{HEADER_BYTES, MOST_FIELDS, MOST_LETTERS, MOST_PAIRS, MOST_RULES};
use crate::report::{require, Case, Hex};
use crate::speller::Spelling;
use crate::tally::Tally;
use crate::timed;
use crate::whys;
use std::fmt::Debug;

/// One call in so many is made a second time.
const AGAIN: usize = 8;
/// Where a sheet has its letter count.
const LETTER_COUNT_OFFSET: usize = 5;

/// A call with what it returned, and where that hands over a filling, the filling's size; or where a
/// check says why there is no clash, the kind of that.
pub type Reached = (Call, i64, usize);

/// The calls that were made, and what they answered.
pub struct Calls {
    pub made: usize,
    /// What was reached since this was last emptied. A sheet's refusal is `tpl_read`'s alone.
    pub reached: Vec<Reached>,
    /// Clashes that were compared with the one that the search gives, which none may be before.
    pub compared: Tally,
    /// What was wrong with the books that were refused, and with the hours.
    pub book_faults: Tally,
    pub hours_faults: Tally,
    /// How much the hours that were accepted left of a book's list.
    pub left: Tally,
    /// What was first against the fillings that do not clash.
    whys: Tally,
    tallies: Vec<Tally>,
}

impl Calls {
    pub fn new() -> Calls {
        Calls {
            made: 0,
            reached: Vec::new(),
            compared: Tally::new("other clashes", &["the search's own", "a later one"], 0..0),
            book_faults: listed::book_faults(),
            hours_faults: listed::hours_faults(),
            left: Tally::new("hours leave", &timed::LEFT, 0..0),
            whys: Tally::new("why there is no clash", &whys::KINDS, 0..0),
            tallies: listed::tallies(),
        }
    }

    /// `tpl_read`; the counts are in their ranges.
    pub fn read(&mut self, sheet: &[u8]) -> Outcome<u64> {
        let case: &Case = &[("sheet", &Hex(sheet))];
        let got = self.hold(Call::Read, &COUNTS_BEFORE, 4, case, || engine::read(sheet));
        if got.status == 0 {
            let most = [MOST_LETTERS, MOST_FIELDS, MOST_PAIRS, MOST_RULES];
            let ranges = [1, 0, 1, 0].into_iter().zip(most);
            let mut counts = ranges.zip(&got.lent);
            let fit = counts.all(|((least, most), &count)| (least..=most as u64).contains(&count));
            require(fit, "a count is out of its range", case);
        }
        got
    }

    /// `tpl_check`; where there is no clash, the five numbers are in their ranges.
    pub fn check(&mut self, sheet: &[u8], filling: &[u8]) -> Outcome<u64> {
        let case: &Case = &[("sheet", &Hex(sheet)), ("filling", &Hex(filling))];
        let got = self.hold(Call::Check, &WHY_BEFORE, WHY_BEFORE.len(), case, || {
            engine::check(sheet, filling)
        });
        if got.status == 0 {
            let kind = whys::kind(&got.lent);
            require(
                kind.is_some(),
                "no check gives these numbers",
                &[case, &[("answer", &got)]].concat(),
            );
            if let Some(kind) = kind {
                self.whys.count(Ok(whys::KINDS[kind]));
                self.reached.push((Call::Check, got.status, 1 + kind));
            }
        }
        got
    }

    /// `tpl_spell`; a text is of the sheet's letters.
    pub fn spell(&mut self, asked: Spelling) -> Outcome<u8> {
        let before = buffer_before(asked.room);
        let case: &Case = &[("asked", &asked)];
        let got = self.hold(Call::Spell, &before, LONGEST_TEXT, case, || {
            engine::spell(asked)
        });
        if got.status > 0 {
            let letters = &asked.sheet[HEADER_BYTES..][..asked.sheet[LETTER_COUNT_OFFSET].into()];
            let mut text = got.lent[..got.status as usize].iter();
            let fits = text.all(|byte| letters.contains(byte));
            require(fits, "a text has a byte that is no letter", case);
        }
        got
    }

    /// `tpl_search`; where it answers apart, nothing is written.
    pub fn search(&mut self, sheet: &[u8], room: usize) -> Outcome<u8> {
        let before = buffer_before(room);
        let case: &Case = &[("sheet", &Hex(sheet)), ("buffer of", &room)];
        let size = filling_bytes(sheet);
        let got = self.hold(Call::Search, &before, size, case, || {
            engine::search(sheet, room)
        });
        let unchanged = got.status != 0 || got.lent == before;
        require(unchanged, "apart, but the buffer changed", case);
        got
    }

    /// `tpl_count`; there are variables and clauses, and the lines have on average some bytes, and not too
    /// many.
    pub fn count(&mut self, sheet: &[u8]) -> Outcome<u64> {
        let before = &COUNTS_BEFORE[..3];
        let case: &Case = &[("sheet", &Hex(sheet))];
        let got = self.hold(Call::Count, before, 3, case, || engine::count(sheet));
        if got.status == 0 {
            let [variables, clauses, bytes] = [got.lent[0], got.lent[1], got.lent[2]];
            let length = bytes / clauses.saturating_add(1);
            let fits = (SHORTEST_LINE as u64..=LONGEST_LINE as u64).contains(&length);
            require(
                variables > 0 && clauses > 0 && fits,
                "no file has these counts",
                &[case, &[("counts", &got)]].concat(),
            );
        }
        got
    }

    /// `tpl_line`; a line ends once, line 0 has its prefix, and the others end in 0.
    pub fn line(&mut self, sheet: &[u8], number: u64, room: usize) -> Outcome<u8> {
        let before = buffer_before(room);
        let case: &Case = &[
            ("sheet", &Hex(sheet)),
            ("line", &number),
            ("buffer of", &room),
        ];
        let got = self.hold(Call::Line, &before, LONGEST_LINE, case, || {
            engine::line(sheet, number, room)
        });
        if got.status > 0 {
            let line = &got.lent[..got.status as usize];
            let ends = line.iter().filter(|&&byte| byte == b'\n').count();
            let (is_first, is_clause) = (line.starts_with(b"p cnf "), line.ends_with(b" 0\n"));
            let fits = if number == 0 {
                is_first
            } else {
                is_clause && !is_first
            };
            let fits = fits && ends == 1 && line.ends_with(b"\n");
            require(
                fits,
                "a line has no form of a line",
                &[case, &[("line", &got)]].concat(),
            );
        }
        got
    }

    /// `tpl_file`; it starts as line 0 does, and ends as a clause does.
    pub fn file(&mut self, sheet: &[u8], room: usize) -> Outcome<u8> {
        let before = buffer_before(room);
        let case: &Case = &[("sheet", &Hex(sheet)), ("buffer of", &room)];
        let got = self.hold(Call::File, &before, 0, case, || engine::file(sheet, room));
        if got.status > 0 {
            let file = &got.lent[..got.status as usize];
            require(
                file.starts_with(b"p cnf ") && file.ends_with(b" 0\n"),
                "a file has no form of a file",
                &[case, &[("file", &got)]].concat(),
            );
        }
        got
    }

    /// `tpl_reply`.
    pub fn reply(&mut self, sheet: &[u8], reply: &[u8], room: usize) -> Outcome<u8> {
        let before = buffer_before(room);
        let case: &Case = &[
            ("sheet", &Hex(sheet)),
            ("reply", &reply.escape_ascii()),
            ("buffer of", &room),
        ];
        let size = filling_bytes(sheet);
        self.hold(Call::Reply, &before, size, case, || {
            engine::reply(sheet, reply, room)
        })
    }

    /// `tpl_book`; a list is of pairs of numbers, each above the one before it.
    pub fn book(&mut self, book: &[u8], room: usize) -> Outcome<u8> {
        let before = buffer_before(room);
        let case: &Case = &[("book", &Hex(book)), ("buffer of", &room)];
        let got = self.hold(Call::Book, &before, 0, case, || engine::book(book, room));
        require_list(&got, case);
        got
    }

    /// `tpl_book_hours`; the same.
    pub fn book_hours(&mut self, book: &[u8], hours: &[u8], room: usize) -> Outcome<u8> {
        let before = buffer_before(room);
        let case: &Case = &[
            ("book", &Hex(book)),
            ("hours", &Hex(hours)),
            ("buffer of", &room),
        ];
        let got = self.hold(Call::BookHours, &before, 0, case, || {
            engine::book_hours(book, hours, room)
        });
        require_list(&got, case);
        got
    }

    /// Makes a call that is lent `before`, and that may write the first `most` values of it, or as many
    /// as it answers where it answers a length or a number of pairs, or none where a check finds a clash.
    fn hold<T: Debug + PartialEq>(
        &mut self,
        call: Call,
        before: &[T],
        most: usize,
        case: &Case,
        run: impl Fn() -> Outcome<T>,
    ) -> Outcome<T> {
        let got = run();
        let written = match call {
            _ if got.status < 0 => 0,
            Call::Check if got.status > 0 => 0,
            Call::Spell | Call::Line | Call::File => got.status as usize,
            Call::Book | Call::BookHours => PAIR_BYTES.saturating_mul(got.status as usize),
            _ => most,
        };
        let again = || self.made % AGAIN != 0 || run() == got;
        let fault = if listed::answer(call, got.status).is_none() {
            "the header lists no such answer"
        } else if !got.rest_unchanged {
            "a byte changed that the call may not write"
        } else if written > before.len() {
            "more is answered than the buffer holds"
        } else if got.lent[written..] != before[written..] {
            "a byte changed that the call says it did not write"
        } else if !again() {
            "the same call gives another answer"
        } else {
            ""
        };
        let answer: &Case = &[("call", &listed::name(call)), ("answer", &got)];
        require(fault.is_empty(), fault, &[case, answer].concat());
        self.count_answer(call, got.status, written);
        got
    }

    fn count_answer(&mut self, call: Call, status: i64, written: usize) {
        self.made += 1;
        if let Some(answer) = listed::answer(call, status) {
            self.tallies[call as usize].count(answer);
        }
        let size = match call {
            Call::Search | Call::Reply => written,
            _ => 0,
        };
        if call == Call::Read || !listed::is_of_sheet(status) {
            self.reached
                .push((call, listed::kept_for(call, status), size));
        }
    }

    /// Prints how often each answer came up, and fails if one came up less often than `least`.
    pub fn finish(&self, least: usize) {
        let beside = [
            &self.whys,
            &self.compared,
            &self.book_faults,
            &self.hours_faults,
            &self.left,
        ];
        for tally in self.tallies.iter().chain(beside) {
            tally.finish_on_a_line(least);
        }
    }
}

/// A list that is answered is of pairs of numbers, each pair above the one before it.
fn require_list(got: &Outcome<u8>, case: &Case) {
    let size = PAIR_BYTES * got.status.max(0) as usize;
    let pairs: Vec<&[u8]> = got.lent[..size].chunks(PAIR_BYTES).collect();
    let are_pairs = pairs
        .iter()
        .all(|pair| pair[0] < pair[1] && usize::from(pair[1]) < MOST_TEMPLATES);
    let rise = pairs.windows(2).all(|two| two[0] < two[1]);
    require(
        are_pairs && rise,
        "a list has no form of a list",
        &[case, &[("list", got)]].concat(),
    );
}
