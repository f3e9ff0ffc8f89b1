//! The part of a turn of the fuzzer that is about ends: how long a buffer must be, which numbers and
//! sizes there are, and how many lines.

use crate::engine::{filling_bytes, Outcome};
use crate::listed::{LONGEST_LINE, LONGEST_TEXT};
use crate::refusal::Refusal;
use crate::reply::MOST_BYTES;
use crate::speller::FIELD_BYTES;
use crate::test;
use crate::turn::{Answers, Turn};

/// How often it is tried whether the length of a buffer is just what it must be.
const BUFFERS_PERCENT: usize = 15;
/// How often the last line and those beyond it are asked for.
const LAST_LINE_PERCENT: usize = 15;
/// How often a whole file is asked for, one of at most so many bytes and a larger one.
const SMALL_FILE: usize = 1500;
const SMALL_FILE_PERCENT: usize = 3;
const LARGE_FILE_PERCENT: usize = 1;

const TOO_SHORT_FOR_TEXT: i64 = -(Refusal::BufferTooShort as i64);
const TOO_SHORT_FOR_FILLING: i64 = -(Refusal::BufferBelowFilling as i64);
const TOO_SHORT_FOR_LINE: i64 = -(Refusal::BufferBelowLine as i64);
const NO_SUCH_LINE: i64 = -(Refusal::LineNumber as i64);

impl Turn<'_> {
    /// A number or a size beyond what `tpl_read` and `tpl_count` say there is gets its refusal, and
    /// no other one does.
    pub fn beyond(&mut self, answers: &Answers) {
        let input = self.input;
        let [fields, pairs] = [answers.read.lent[1], answers.read.lent[2]];
        let [clauses, bytes] = [answers.count.lent[1], answers.count.lent[2]];
        let size = FIELD_BYTES * fields as usize;
        let (no_pair, no_side) = (input.pair >= pairs, input.side > 1);
        let (no_room, no_size) = (input.room < size, input.filling.len() != size);
        let below_file = (input.room as u64) < bytes;
        let too_long = input.reply.len() > MOST_BYTES;
        let (search, reply) = (answers.search.status, answers.reply.status);
        let (check, spell) = (answers.check.status, answers.spell);
        for (status, refusal, due) in [
            (check, Refusal::FillingSize, no_size),
            (spell, Refusal::PairNumber, no_pair),
            (spell, Refusal::Side, !no_pair && no_side),
            (search, Refusal::BufferBelowFilling, no_room),
            (answers.line, Refusal::LineNumber, input.line > clauses),
            (answers.file, Refusal::BufferBelowLine, below_file),
            (reply, Refusal::BufferBelowFilling, no_room),
            (reply, Refusal::ReplySize, !no_room && too_long),
        ] {
            let refusal = test::status(refusal);
            let reason = "a refusal is not due, or is due and not given";
            self.require((status == refusal) == due, reason, status, refusal);
        }
        if !no_pair && !no_side {
            let same = if check < 0 {
                spell == check
            } else {
                spell >= 0 || spell == TOO_SHORT_FOR_TEXT
            };
            self.require(same, "a filling is refused by one call alone", check, spell);
        }
    }

    /// Now and then, buffers that are just long enough, and one byte shorter.
    pub fn buffers(&mut self, answers: &Answers) {
        if self.random.chance(BUFFERS_PERCENT) {
            self.text_buffers(answers.spell);
            self.line_buffers(answers.line);
            self.filling_buffers(&answers.search, &answers.reply);
        }
    }

    /// A text's own length is long enough, and one less is not.
    fn text_buffers(&mut self, spell: i64) {
        let reason = "a buffer is too short for a text that it holds, or the other way round";
        if spell == TOO_SHORT_FOR_TEXT {
            let roomy = self.calls.spell(self.input.spelling(LONGEST_TEXT)).status;
            let longer = roomy > self.input.room as i64;
            self.require(longer, reason, spell, roomy);
        }
        if spell >= 0 {
            let just = self.calls.spell(self.input.spelling(spell as usize)).status;
            self.require(just == spell, reason, spell, just);
        }
        if spell > 0 {
            let short = self
                .calls
                .spell(self.input.spelling(spell as usize - 1))
                .status;
            self.require(short == TOO_SHORT_FOR_TEXT, reason, spell, short);
        }
    }

    /// A line's own length is long enough, and one less is not.
    fn line_buffers(&mut self, line: i64) {
        let reason = "a buffer is too short for a line that it holds, or the other way round";
        let (sheet, number) = (&self.input.sheet[..], self.input.line);
        if line == TOO_SHORT_FOR_LINE {
            let roomy = self.calls.line(sheet, number, LONGEST_LINE).status;
            let longer = roomy > self.input.room as i64;
            self.require(longer, reason, line, roomy);
        }
        if line > 0 {
            let just = self.calls.line(sheet, number, line as usize).status;
            self.require(just == line, reason, line, just);
            let short = self.calls.line(sheet, number, line as usize - 1).status;
            self.require(short == TOO_SHORT_FOR_LINE, reason, line, short);
        }
    }

    /// Nine bytes per field are long enough, and one less is not. The filling is the same in a longer
    /// buffer.
    fn filling_buffers(&mut self, search: &Outcome<u8>, reply: &Outcome<u8>) {
        let reason = "a buffer is too short for a filling that it holds, or the other way round";
        let (sheet, text) = (&self.input.sheet[..], &self.input.reply[..]);
        let size = filling_bytes(sheet);
        let searched = self.calls.search(sheet, size);
        let replied = self.calls.reply(sheet, text, size);
        for (first, just) in [(search, &searched), (reply, &replied)] {
            let (before, after) = (first.status, just.status);
            let same = before == after || before == TOO_SHORT_FOR_FILLING;
            let fits = same && after != TOO_SHORT_FOR_FILLING;
            self.require(fits, reason, before, after);
            let same = before == TOO_SHORT_FOR_FILLING || first.lent[..size] == just.lent[..size];
            let reason = "the filling is another one in a longer buffer";
            self.require(same, reason, before, after);
        }
        if size > 0 {
            let searched = self.calls.search(sheet, size - 1).status;
            let replied = self.calls.reply(sheet, text, size - 1).status;
            let short = [searched, replied] == [TOO_SHORT_FOR_FILLING; 2];
            self.require(short, reason, searched, replied);
        }
    }

    /// Any line up to the last is there and no later one.
    pub fn lines(&mut self, counts: &[u64]) {
        let sheet = &self.input.sheet[..];
        let clauses = counts[1];
        let any = self.random.bits() % (clauses + 1);
        self.line(any);
        if self.random.chance(LAST_LINE_PERCENT) {
            let last = self.calls.line(sheet, clauses, LONGEST_LINE).status;
            let next = self.calls.line(sheet, clauses + 1, LONGEST_LINE).status;
            let ends = last > 0 && next == NO_SUCH_LINE;
            self.require(
                ends,
                "the last line is not the one that is counted",
                last,
                next,
            );
        }
    }

    /// A line that is counted.
    fn line(&mut self, number: u64) -> Vec<u8> {
        let sheet = &self.input.sheet[..];
        let mut got = self.calls.line(sheet, number, LONGEST_LINE);
        let status = got.status;
        self.require(
            status > 0,
            "a line that is counted is refused",
            status,
            status,
        );
        got.lent.truncate(status as usize);
        got.lent
    }

    /// Now and then, the whole file: as many bytes as are counted are long enough for it, and one less
    /// is not. Its lines are those that are asked for one by one; of a small file all, else some.
    pub fn files(&mut self, counts: &[u64]) {
        let (clauses, bytes) = (counts[1], counts[2] as usize);
        let is_small = bytes <= SMALL_FILE;
        let percent = if is_small {
            SMALL_FILE_PERCENT
        } else {
            LARGE_FILE_PERCENT
        };
        if !self.random.chance(percent) {
            return;
        }
        let file = self.file(bytes);
        let lines: Vec<&[u8]> = file.split_inclusive(|&byte| byte == b'\n').collect();
        let (listed, due) = (lines.len() as i64, clauses as i64 + 1);
        let reason = "the file has not as many lines as are counted";
        self.require(listed == due, reason, listed, due);
        let numbers: Vec<u64> = if is_small {
            (0..=clauses).collect()
        } else {
            let any = self.random.bits() % (clauses + 1);
            vec![0, any, clauses]
        };
        for number in numbers {
            let same = self.line(number) == lines[number as usize];
            let reason = "the file has another line than the one that is asked for";
            self.require(same, reason, number as i64, listed);
        }
    }

    /// The file, of so many bytes.
    fn file(&mut self, bytes: usize) -> Vec<u8> {
        let reason = "a buffer is too short for a file that it holds, or the other way round";
        let sheet = &self.input.sheet[..];
        let due = bytes as i64;
        let short = self.calls.file(sheet, bytes - 1).status;
        self.require(short == TOO_SHORT_FOR_LINE, reason, due, short);
        let just = self.calls.file(sheet, bytes);
        self.require(just.status == due, reason, due, just.status);
        let more = self.random.within(1, 40);
        let longer = self.calls.file(sheet, bytes + more);
        let same = longer.status == due && longer.lent[..bytes] == just.lent[..];
        let reason = "the file is another one in a longer buffer";
        self.require(same, reason, due, longer.status);
        just.lent
    }
}
