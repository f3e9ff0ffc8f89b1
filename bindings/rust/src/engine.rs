//! The static library's calls, over slices; all that is unsafe is here. What a status means is in `status.rs`.
//!
//! Each call asks of its pointers that they are not null and lead to as many bytes or numbers as is said, and that what it may write does
//! not overlap what it reads. References are never null, also where they are to nothing, and a `&mut` overlaps no other reference.

extern "C" {
    fn tpl_read(sheet: *const u8, n: usize, counts: *mut u64) -> i64;
    fn tpl_check(sheet: *const u8, n: usize, filling: *const u8, m: usize, why: *mut u64) -> i64;
    fn tpl_spell(
        sheet: *const u8,
        n: usize,
        pair: u64,
        side: u64,
        filling: *const u8,
        m: usize,
        text: *mut u8,
        cap: usize,
    ) -> i64;
    fn tpl_search(sheet: *const u8, n: usize, filling: *mut u8, cap: usize) -> i64;
    fn tpl_count(sheet: *const u8, n: usize, counts: *mut u64) -> i64;
    fn tpl_line(sheet: *const u8, n: usize, line: u64, text: *mut u8, cap: usize) -> i64;
    fn tpl_file(sheet: *const u8, n: usize, file: *mut u8, cap: usize) -> i64;
    fn tpl_reply(
        sheet: *const u8,
        n: usize,
        reply: *const u8,
        m: usize,
        filling: *mut u8,
        cap: usize,
    ) -> i64;
    fn tpl_book(book: *const u8, n: usize, list: *mut u8, cap: usize) -> i64;
    fn tpl_book_hours(
        book: *const u8,
        n: usize,
        hours: *const u8,
        m: usize,
        list: *mut u8,
        cap: usize,
    ) -> i64;
}

pub fn read(sheet: &[u8], counts: &mut [u64; 4]) -> i64 {
    // SAFETY: the pointers lead to `sheet.len()` bytes and to four numbers.
    unsafe { tpl_read(sheet.as_ptr(), sheet.len(), counts.as_mut_ptr()) }
}

pub fn check(sheet: &[u8], filling: &[u8], why: &mut [u64; 5]) -> i64 {
    // SAFETY: the pointers lead to `sheet.len()` and `filling.len()` bytes and to five numbers.
    unsafe {
        tpl_check(
            sheet.as_ptr(),
            sheet.len(),
            filling.as_ptr(),
            filling.len(),
            why.as_mut_ptr(),
        )
    }
}

pub fn spell(sheet: &[u8], pair: u64, side: u64, filling: &[u8], text: &mut [u8]) -> i64 {
    // SAFETY: the pointers lead to `sheet.len()`, `filling.len()` and `text.len()` bytes; any pair and side may be given.
    unsafe {
        tpl_spell(
            sheet.as_ptr(),
            sheet.len(),
            pair,
            side,
            filling.as_ptr(),
            filling.len(),
            text.as_mut_ptr(),
            text.len(),
        )
    }
}

pub fn search(sheet: &[u8], filling: &mut [u8]) -> i64 {
    // SAFETY: the pointers lead to `sheet.len()` and `filling.len()` bytes.
    unsafe {
        tpl_search(
            sheet.as_ptr(),
            sheet.len(),
            filling.as_mut_ptr(),
            filling.len(),
        )
    }
}

pub fn count(sheet: &[u8], counts: &mut [u64; 3]) -> i64 {
    // SAFETY: the pointers lead to `sheet.len()` bytes and to three numbers.
    unsafe { tpl_count(sheet.as_ptr(), sheet.len(), counts.as_mut_ptr()) }
}

pub fn line(sheet: &[u8], line: u64, text: &mut [u8]) -> i64 {
    // SAFETY: the pointers lead to `sheet.len()` and `text.len()` bytes; any line may be asked for.
    unsafe {
        tpl_line(
            sheet.as_ptr(),
            sheet.len(),
            line,
            text.as_mut_ptr(),
            text.len(),
        )
    }
}

pub fn file(sheet: &[u8], file: &mut [u8]) -> i64 {
    // SAFETY: the pointers lead to `sheet.len()` and `file.len()` bytes.
    unsafe { tpl_file(sheet.as_ptr(), sheet.len(), file.as_mut_ptr(), file.len()) }
}

pub fn reply(sheet: &[u8], reply: &[u8], filling: &mut [u8]) -> i64 {
    // SAFETY: the pointers lead to `sheet.len()`, `reply.len()` and `filling.len()` bytes.
    unsafe {
        tpl_reply(
            sheet.as_ptr(),
            sheet.len(),
            reply.as_ptr(),
            reply.len(),
            filling.as_mut_ptr(),
            filling.len(),
        )
    }
}

pub fn book(book: &[u8], list: &mut [u8]) -> i64 {
    // SAFETY: the pointers lead to `book.len()` and `list.len()` bytes.
    unsafe { tpl_book(book.as_ptr(), book.len(), list.as_mut_ptr(), list.len()) }
}

pub fn book_hours(book: &[u8], hours: &[u8], list: &mut [u8]) -> i64 {
    // SAFETY: the pointers lead to `book.len()`, `hours.len()` and `list.len()` bytes.
    unsafe {
        tpl_book_hours(
            book.as_ptr(),
            book.len(),
            hours.as_ptr(),
            hours.len(),
            list.as_mut_ptr(),
            list.len(),
        )
    }
}
