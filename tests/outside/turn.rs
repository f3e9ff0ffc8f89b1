//! One turn of the fuzzer: all calls on one input, and what must hold between their answers. It
//! compares the library with itself. Plain code makes some more fillings to try. Held to it are only how
//! a filling is checked, what is wrong with books and hours, and which templates share a minute.

use crate::calls::{Calls, Reached};
use crate::engine::{filling_bytes, Outcome};
use crate::fillings;
use crate::inputs::Input;
use crate::listed::{self, LONGEST_TEXT};
use crate::order;
use crate::random::Random;
use crate::reader;
use crate::report::{require, Case, Hex};
use crate::speller::{self, Spelling, LEFT, RIGHT};
use crate::test;
use crate::whys;
use std::mem;

/// The first so many bytes of a sheet decide.
const DECIDING: usize = 160;
/// How often a filling that checks as a clash is spelled too.
const CLASH_PERCENT: usize = 20;
/// How often what is said to be against a clash is held to what is spelled.
const AGAINST_PERCENT: usize = 10;
/// How many fillings are tried of a sheet that is apart.
const FILLINGS_TRIED: usize = 3;

/// An input with what is needed to try it.
pub struct Turn<'a> {
    pub calls: &'a mut Calls,
    pub random: &'a mut Random,
    pub input: &'a Input,
}

/// What the calls on the input answered.
pub struct Answers {
    pub read: Outcome<u64>,
    pub check: Outcome<u64>,
    pub spell: i64,
    pub search: Outcome<u8>,
    pub count: Outcome<u64>,
    pub line: i64,
    pub file: i64,
    pub reply: Outcome<u8>,
    pub book: Outcome<u8>,
    pub hours: Outcome<u8>,
}

impl Turn<'_> {
    /// Makes every call on the input, then more calls on its sheet, and answers what the first ones
    /// reached.
    pub fn run(&mut self) -> Vec<Reached> {
        let answers = self.all_calls();
        let reached = mem::take(&mut self.calls.reached);
        self.sheet_refusals(&answers);
        if answers.read.status == 0 {
            self.clashes(&answers);
            self.against(&answers);
            self.beyond(&answers);
            self.buffers(&answers);
            self.lines(&answers.count.lent);
            self.files(&answers.count.lent);
        }
        let listed = self.book(&answers.book);
        self.hours(&answers, listed);
        self.calls.reached.clear();
        reached
    }

    fn all_calls(&mut self) -> Answers {
        let input = self.input;
        let sheet = &input.sheet[..];
        Answers {
            read: self.calls.read(sheet),
            check: self.check(&input.filling),
            spell: self.calls.spell(input.spelling(input.room)).status,
            search: self.calls.search(sheet, input.room),
            count: self.calls.count(sheet),
            line: self.calls.line(sheet, input.line, input.room).status,
            file: self.calls.file(sheet, input.room).status,
            reply: self.calls.reply(sheet, &input.reply, input.room),
            book: self.calls.book(&input.book, input.room),
            hours: self.calls.book_hours(&input.book, &input.hours, input.room),
        }
    }

    /// Checks a filling of the input's sheet. Plain code has to give the same answer.
    fn check(&mut self, filling: &[u8]) -> Outcome<u64> {
        let sheet = &self.input.sheet[..];
        let got = self.calls.check(sheet, filling);
        let due = test::check_due(speller::check(sheet, filling));
        require(
            got == due,
            "plain code checks a filling otherwise",
            &[
                ("sheet", &Hex(sheet)),
                ("filling", &Hex(filling)),
                ("plain", &due),
                ("library", &got),
            ],
        );
        got
    }

    /// The first 160 bytes decide, and what `tpl_read` refuses every call refuses with its number.
    fn sheet_refusals(&mut self, answers: &Answers) {
        let sheet = &self.input.sheet[..];
        let read = answers.read.status;
        if sheet.len() > DECIDING {
            let start = self.calls.read(&sheet[..DECIDING]).status;
            self.require(start == read, "later bytes decide", read, start);
        }
        for status in [
            answers.check.status,
            answers.spell,
            answers.search.status,
            answers.count.status,
            answers.line,
            answers.file,
            answers.reply.status,
        ] {
            let fits = if read < 0 {
                status == read
            } else {
                !listed::is_of_sheet(status)
            };
            self.require(fits, "tpl_read does not refuse the same", read, status);
        }
    }

    /// What clashes clashes in every call, and no sooner than what the search gives; and in a sheet that
    /// is apart nothing does.
    fn clashes(&mut self, answers: &Answers) {
        let pairs = answers.read.lent[2];
        let check = answers.check.status;
        let (search, reply) = (&answers.search, &answers.reply);
        if search.status == 1 {
            self.require_clash(&search.lent, pairs);
            if reply.status == 0 {
                self.require_first(&search.lent, &reply.lent);
            }
            if check == 1 {
                self.require_first(&search.lent, &self.input.filling);
            }
        }
        if reply.status == 0 {
            self.require_clash(&reply.lent, pairs);
        }
        if check == 1 && self.random.chance(CLASH_PERCENT) {
            self.require_clash(&self.input.filling, pairs);
        }
        if search.status == 0 {
            let none = check != 1 && reply.status != 0;
            let reason = "a clash in a sheet that is apart";
            self.require(none, reason, check, reply.status);
            self.try_fillings();
        }
    }

    /// Now and then, what is first against a clash is held to what is spelled. All pairs before the one
    /// that is told spell one text, where a rule is told all do, and what is left over fits the texts.
    fn against(&mut self, answers: &Answers) {
        let check = &answers.check;
        if check.status != 0 || !self.random.chance(AGAINST_PERCENT) {
            return;
        }
        let filling = &self.input.filling[..];
        let mut texts = |pair| [LEFT, RIGHT].map(|side| self.spelled(filling, pair, side).1);
        let same = |[left, right]: [Vec<u8>; 2]| left == right;
        let fits = match check.lent[..] {
            [1, pair, agreeing, side, length] => {
                (0..pair).all(|before| same(texts(before)))
                    && whys::fits(&texts(pair), agreeing, side, length)
            }
            _ => (0..answers.read.lent[2]).all(|pair| same(texts(pair))),
        };
        let reason = "what is said to be against a clash does not fit the texts";
        self.require(fits, reason, check.lent[0] as i64, check.lent[1] as i64);
    }

    /// No clash is before the one that the search gives.
    fn require_first(&mut self, given: &[u8], other: &[u8]) {
        let size = filling_bytes(&self.input.sheet);
        let [given, other] =
            [given, other].map(|bytes| order::key(&fillings::decode(&bytes[..size])));
        let reason = "a clash is before the one that the search gives";
        self.require(given <= other, reason, 1, 1);
        let answer = if given == other {
            "the search's own"
        } else {
            "a later one"
        };
        self.calls.compared.count(Ok(answer));
    }

    /// Fails on this input unless `holds`, with two of the answers.
    pub fn require(&self, holds: bool, reason: &str, first: i64, second: i64) {
        let input = self.input;
        let case: &Case = &[
            ("sheet", &Hex(&input.sheet)),
            ("filling", &Hex(&input.filling)),
            ("reply", &input.reply.escape_ascii()),
            ("book", &Hex(&input.book)),
            ("hours", &Hex(&input.hours)),
            ("pair", &input.pair),
            ("side", &input.side),
            ("line", &input.line),
            ("buffer of", &input.room),
            ("answer", &first),
            ("another", &second),
        ];
        require(holds, reason, case);
    }

    /// A filling that was handed over, or that checks as a clash: it checks as one, and both sides of
    /// every pair spell the same.
    fn require_clash(&mut self, handed: &[u8], pairs: u64) {
        let filling = &handed[..filling_bytes(&self.input.sheet)];
        let check = self.check(filling).status;
        self.require(
            check == 1,
            "what is handed over as a clash is none",
            1,
            check,
        );
        for pair in 0..pairs {
            let [left, right] = [LEFT, RIGHT].map(|side| self.spelled(filling, pair, side));
            self.require(
                left.0 >= 0,
                "a template of a clash is not spelled",
                left.0,
                right.0,
            );
            self.require(left == right, "a clash spells two texts", left.0, right.0);
        }
    }

    /// What spelling one side of a pair answers, and the text.
    fn spelled(&mut self, filling: &[u8], pair: u64, side: u64) -> (i64, Vec<u8>) {
        let mut got = self.calls.spell(Spelling {
            sheet: &self.input.sheet,
            pair,
            side,
            filling,
            room: LONGEST_TEXT,
        });
        got.lent.truncate(got.status.max(0) as usize);
        (got.status, got.lent)
    }

    /// Some fillings of a sheet that is apart.
    fn try_fillings(&mut self) {
        let accepted = reader::accepted(&self.input.sheet);
        for _ in 0..FILLINGS_TRIED {
            let filling = fillings::encode(&fillings::legal(self.random, &accepted));
            let check = self.check(&filling).status;
            self.require(
                check == 0,
                "a filling of a sheet that is apart clashes",
                0,
                check,
            );
        }
    }
}
