//! The calls of the static library under test, each wrapped so that everything a call may change is
//! looked at after it.

use crate::book::PAIR_BYTES;
use crate::lent::Lent;
use crate::speller::{Spelling, FIELD_BYTES};
use std::fmt;

extern "C" {
    /// Answers 0 and the counts L, V, E and R, or minus the refusal's number and no counts.
    fn tpl_read(sheet: *const u8, n: usize, counts: *mut u64) -> i64;

    /// Answers 1 for a clash, or 0 for none and the five numbers of what is first against it, or minus
    /// the refusal's number; the first and the last without numbers.
    fn tpl_check(sheet: *const u8, n: usize, filling: *const u8, m: usize, why: *mut u64) -> i64;

    /// Answers the text's length and the text, or minus the refusal's number and no text.
    fn tpl_spell(
        sheet: *const u8,
        n: usize,
        pair: u64,
        side: u64,
        filling: *const u8,
        m: usize,
        text: *mut u8,
        cap: usize,
    ) -> i64;

    /// Answers 1 for a clash and its filling, or 0 for none, or minus the refusal's number; the
    /// last two without a filling.
    fn tpl_search(sheet: *const u8, n: usize, filling: *mut u8, cap: usize) -> i64;

    /// Answers 0 and the counts of variables, clauses and bytes, or minus the refusal's number and no
    /// counts.
    fn tpl_count(sheet: *const u8, n: usize, counts: *mut u64) -> i64;

    /// Answers the line's length and the line, or minus the refusal's number and no line.
    fn tpl_line(sheet: *const u8, n: usize, line: u64, text: *mut u8, cap: usize) -> i64;

    /// Answers the file's length and the file, or minus the refusal's number and no file.
    fn tpl_file(sheet: *const u8, n: usize, file: *mut u8, cap: usize) -> i64;

    /// Answers 0 and the filling, or minus the refusal's number and no filling.
    fn tpl_reply(
        sheet: *const u8,
        n: usize,
        reply: *const u8,
        m: usize,
        filling: *mut u8,
        cap: usize,
    ) -> i64;

    /// Answers the number of pairs and the list, or minus the refusal's number and no list.
    fn tpl_book(book: *const u8, n: usize, list: *mut u8, cap: usize) -> i64;

    /// Answers as `tpl_book` does.
    fn tpl_book_hours(
        book: *const u8,
        n: usize,
        hours: *const u8,
        m: usize,
        list: *mut u8,
        cap: usize,
    ) -> i64;
}

/// What one call answered and left behind.
#[derive(PartialEq)]
pub struct Outcome<T> {
    pub status: i64,
    /// All that the call may write to, as it is after the call.
    pub lent: Vec<T>,
    /// All else that was lent, and all that lies around what was lent, is as it was.
    pub rest_unchanged: bool,
}

/// So many of the values that were lent are shown.
const SHOWN: usize = 400;

impl<T: fmt::Debug> fmt::Display for Outcome<T> {
    fn fmt(&self, out: &mut fmt::Formatter) -> fmt::Result {
        let shown = &self.lent[..self.lent.len().min(SHOWN)];
        write!(out, "{}, leaving {shown:02X?}", self.status)?;
        if shown.len() < self.lent.len() {
            write!(out, " and more, {} in all", self.lent.len())?;
        }
        if !self.rest_unchanged {
            write!(out, ", and other lent or near bytes changed")?;
        }
        Ok(())
    }
}

/// Where a sheet has its field count.
const FIELD_COUNT_OFFSET: usize = 6;

/// What the counts hold before a call; `tpl_count` is lent the first three.
pub const COUNTS_BEFORE: [u64; 4] = [
    u64::MAX,
    0xA5A5_A5A5_A5A5_A5A5,
    0x5A5A_5A5A_5A5A_5A5A,
    1 << 63,
];

/// What the five numbers hold before a check; it answers none of these.
pub const WHY_BEFORE: [u64; 5] = [
    0x9696_9696_9696_9696,
    u64::MAX,
    1 << 32,
    0x6969_6969_6969_6969,
    1 << 63,
];

/// What a buffer of `room` bytes holds before a call: no letter, no byte of a line or of a filling,
/// and never one byte twice in a row.
pub fn buffer_before(room: usize) -> Vec<u8> {
    (0..room).map(|place| 128 + (place % 125) as u8).collect()
}

/// How many bytes a filling of an accepted sheet has.
pub fn filling_bytes(sheet: &[u8]) -> usize {
    let fields = sheet.get(FIELD_COUNT_OFFSET);
    fields.map_or(0, |&fields| FIELD_BYTES * usize::from(fields))
}

/// The byte after a sheet is 0 and the one after a filling is 255. The format allows these nearly
/// everywhere, so that a call that reads past the end is likely to give a wrong answer.
const SHEET_MARGIN: [u8; 16] = margin(0);
const FILLING_MARGIN: [u8; 16] = margin(255);
/// Likewise the byte after a reply ends a line, and known lines follow.
const REPLY_MARGIN: &[u8; 16] = b"\nc\nv\nv 0\nv 1 0\nv";
/// Without letters and bytes of a filling, so that one written past the end shows.
const WRITTEN_MARGIN: [u8; 16] = margin(165);
const NUMBERS_MARGIN: [u64; 2] = [0x3C3C_3C3C_3C3C_3C3C, 0xC3C3_C3C3_C3C3_C3C3];

/// Sixteen bytes, no two the same.
const fn margin(first: u8) -> [u8; 16] {
    let mut margin = [first; 16];
    let mut place = 1;
    while place < margin.len() {
        margin[place] = margin[place - 1].wrapping_add(5);
        place += 1;
    }
    margin
}

/// Calls `tpl_read` on a copy of `sheet`.
pub fn read(sheet: &[u8]) -> Outcome<u64> {
    let mut bytes = Lent::to_read(sheet, &SHEET_MARGIN);
    let mut counts = Lent::to_write(&COUNTS_BEFORE, &NUMBERS_MARGIN);
    // The pointers lead to `sheet.len()` bytes and to four numbers.
    let status = unsafe { tpl_read(bytes.pointer(), sheet.len(), counts.pointer()) };
    let written = if status == 0 { 4 } else { 0 };
    Outcome {
        status,
        lent: counts.after(written),
        rest_unchanged: bytes.unchanged() && counts.margins_unchanged(),
    }
}

/// Calls `tpl_check` on copies of `sheet` and `filling`. It may write only where it answers 0.
pub fn check(sheet: &[u8], filling: &[u8]) -> Outcome<u64> {
    let mut bytes = Lent::to_read(sheet, &SHEET_MARGIN);
    let mut fields = Lent::to_read(filling, &FILLING_MARGIN);
    let mut why = Lent::to_write(&WHY_BEFORE, &NUMBERS_MARGIN);
    // The pointers lead to `sheet.len()` and `filling.len()` bytes and to five numbers.
    let status = unsafe {
        tpl_check(
            bytes.pointer(),
            sheet.len(),
            fields.pointer(),
            filling.len(),
            why.pointer(),
        )
    };
    let written = if status == 0 { WHY_BEFORE.len() } else { 0 };
    Outcome {
        status,
        lent: why.after(written),
        rest_unchanged: bytes.unchanged() && fields.unchanged() && why.margins_unchanged(),
    }
}

/// Calls `tpl_spell` on copies of the sheet and the filling.
pub fn spell(asked: Spelling) -> Outcome<u8> {
    let mut bytes = Lent::to_read(asked.sheet, &SHEET_MARGIN);
    let mut fields = Lent::to_read(asked.filling, &FILLING_MARGIN);
    let mut text = Lent::to_write(&buffer_before(asked.room), &WRITTEN_MARGIN);
    // The pointers lead to as many bytes as the number after each says.
    let status = unsafe {
        tpl_spell(
            bytes.pointer(),
            asked.sheet.len(),
            asked.pair,
            asked.side,
            fields.pointer(),
            asked.filling.len(),
            text.pointer(),
            asked.room,
        )
    };
    Outcome {
        status,
        lent: text.after(status.max(0) as usize),
        rest_unchanged: bytes.unchanged() && fields.unchanged() && text.margins_unchanged(),
    }
}

/// Calls `tpl_search` on a copy of `sheet`, with a buffer of `room` bytes.
pub fn search(sheet: &[u8], room: usize) -> Outcome<u8> {
    let mut bytes = Lent::to_read(sheet, &SHEET_MARGIN);
    let mut filling = Lent::to_write(&buffer_before(room), &WRITTEN_MARGIN);
    // The pointers lead to `sheet.len()` and `room` bytes.
    let status = unsafe { tpl_search(bytes.pointer(), sheet.len(), filling.pointer(), room) };
    let written = if status == 1 { filling_bytes(sheet) } else { 0 };
    Outcome {
        status,
        lent: filling.after(written),
        rest_unchanged: bytes.unchanged() && filling.margins_unchanged(),
    }
}

/// Calls `tpl_count` on a copy of `sheet`.
pub fn count(sheet: &[u8]) -> Outcome<u64> {
    let mut bytes = Lent::to_read(sheet, &SHEET_MARGIN);
    let mut counts = Lent::to_write(&COUNTS_BEFORE[..3], &NUMBERS_MARGIN);
    // The pointers lead to `sheet.len()` bytes and to three numbers.
    let status = unsafe { tpl_count(bytes.pointer(), sheet.len(), counts.pointer()) };
    let written = if status == 0 { 3 } else { 0 };
    Outcome {
        status,
        lent: counts.after(written),
        rest_unchanged: bytes.unchanged() && counts.margins_unchanged(),
    }
}

/// Calls `tpl_line` on a copy of `sheet`, with a buffer of `room` bytes.
pub fn line(sheet: &[u8], number: u64, room: usize) -> Outcome<u8> {
    let mut bytes = Lent::to_read(sheet, &SHEET_MARGIN);
    let mut text = Lent::to_write(&buffer_before(room), &WRITTEN_MARGIN);
    // The pointers lead to `sheet.len()` and `room` bytes.
    let status = unsafe { tpl_line(bytes.pointer(), sheet.len(), number, text.pointer(), room) };
    Outcome {
        status,
        lent: text.after(status.max(0) as usize),
        rest_unchanged: bytes.unchanged() && text.margins_unchanged(),
    }
}

/// Calls `tpl_file` on a copy of `sheet`, with a buffer of `room` bytes.
pub fn file(sheet: &[u8], room: usize) -> Outcome<u8> {
    let mut bytes = Lent::to_read(sheet, &SHEET_MARGIN);
    let mut file = Lent::to_write(&buffer_before(room), &WRITTEN_MARGIN);
    // The pointers lead to `sheet.len()` and `room` bytes.
    let status = unsafe { tpl_file(bytes.pointer(), sheet.len(), file.pointer(), room) };
    Outcome {
        status,
        lent: file.after(status.max(0) as usize),
        rest_unchanged: bytes.unchanged() && file.margins_unchanged(),
    }
}

/// Calls `tpl_reply` on copies of the sheet and the reply, with a buffer of `room` bytes.
pub fn reply(sheet: &[u8], reply: &[u8], room: usize) -> Outcome<u8> {
    let mut bytes = Lent::to_read(sheet, &SHEET_MARGIN);
    let mut text = Lent::to_read(reply, REPLY_MARGIN);
    let mut filling = Lent::to_write(&buffer_before(room), &WRITTEN_MARGIN);
    // The pointers lead to as many bytes as the number after each says.
    let status = unsafe {
        tpl_reply(
            bytes.pointer(),
            sheet.len(),
            text.pointer(),
            reply.len(),
            filling.pointer(),
            room,
        )
    };
    let written = if status == 0 { filling_bytes(sheet) } else { 0 };
    Outcome {
        status,
        lent: filling.after(written),
        rest_unchanged: bytes.unchanged() && text.unchanged() && filling.margins_unchanged(),
    }
}

/// Calls `tpl_book` on a copy of `book`, with a buffer of `room` bytes.
pub fn book(book: &[u8], room: usize) -> Outcome<u8> {
    let mut bytes = Lent::to_read(book, &SHEET_MARGIN);
    let mut list = Lent::to_write(&buffer_before(room), &WRITTEN_MARGIN);
    // The pointers lead to `book.len()` and `room` bytes.
    let status = unsafe { tpl_book(bytes.pointer(), book.len(), list.pointer(), room) };
    Outcome {
        status,
        lent: list.after(PAIR_BYTES.saturating_mul(status.max(0) as usize)),
        rest_unchanged: bytes.unchanged() && list.margins_unchanged(),
    }
}

/// Calls `tpl_book_hours` on copies of the book and the hours, with a buffer of `room` bytes.
pub fn book_hours(book: &[u8], hours: &[u8], room: usize) -> Outcome<u8> {
    let mut bytes = Lent::to_read(book, &SHEET_MARGIN);
    let mut windows = Lent::to_read(hours, &SHEET_MARGIN);
    let mut list = Lent::to_write(&buffer_before(room), &WRITTEN_MARGIN);
    // The pointers lead to as many bytes as the number after each says.
    let status = unsafe {
        tpl_book_hours(
            bytes.pointer(),
            book.len(),
            windows.pointer(),
            hours.len(),
            list.pointer(),
            room,
        )
    };
    Outcome {
        status,
        lent: list.after(PAIR_BYTES.saturating_mul(status.max(0) as usize)),
        rest_unchanged: bytes.unchanged() && windows.unchanged() && list.margins_unchanged(),
    }
}
