//! A copy of values to lend to a call, with a margin on both sides that no call may change; or
//! without margins in an allocation of just its size, for a run under valgrind's memcheck.

use std::sync::atomic::{AtomicBool, Ordering};

/// Is everything lent exactly?
static EXACTLY: AtomicBool = AtomicBool::new(false);

/// From now on everything is lent without margins, and what a call may write to holds nothing, so
/// that memcheck reports a byte that is read or written outside, and a branch on one that is not
/// written yet.
pub fn lend_exactly() {
    EXACTLY.store(true, Ordering::Relaxed);
}

fn exactly() -> bool {
    EXACTLY.load(Ordering::Relaxed)
}

pub struct Lent<T> {
    before: Vec<T>,
    /// As long as `before`, or of no length but with room for it.
    now: Vec<T>,
    margin: usize,
}

impl<T: Copy + PartialEq> Lent<T> {
    /// What a call may only read.
    pub fn to_read(content: &[T], margin: &[T]) -> Lent<T> {
        let margin = if exactly() { &[] } else { margin };
        let before = [margin, content, margin].concat();
        Lent {
            now: before.clone(),
            before,
            margin: margin.len(),
        }
    }

    /// What a call may write to. It holds `content`, or lent exactly nothing.
    pub fn to_write(content: &[T], margin: &[T]) -> Lent<T> {
        let mut lent = Lent::to_read(content, margin);
        if exactly() {
            lent.now = Vec::with_capacity(content.len());
        }
        lent
    }

    /// Where the content begins.
    pub fn pointer(&mut self) -> *mut T {
        self.now.as_mut_ptr().wrapping_add(self.margin)
    }

    /// The content after a call that says that it wrote the first `written` values. Lent exactly,
    /// only these are looked at, and the others are given as they are to be.
    pub fn after(&mut self, written: usize) -> Vec<T> {
        let content = self.margin..self.before.len() - self.margin;
        if !exactly() {
            return self.now[content].to_vec();
        }
        let written = written.min(content.len());
        // There is room for as many. If the call did not write them, memcheck reports their use.
        unsafe { self.now.set_len(written) };
        [&self.now[..], &self.before[written..]].concat()
    }

    pub fn unchanged(&self) -> bool {
        self.now == self.before
    }

    pub fn margins_unchanged(&self) -> bool {
        let end = self.before.len() - self.margin;
        self.margin == 0
            || self.now[..self.margin] == self.before[..self.margin]
                && self.now[end..] == self.before[end..]
    }
}
