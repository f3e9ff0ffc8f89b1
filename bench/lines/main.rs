//! Prints lines of the clause file of the sheet on standard input, each by a call of the library's
//! `tpl_line`, and all of them by one write at the end. They are drawn by chance, from line 1 to the
//! last, whose number is its word.

#[path = "../../bindings/rust/src/engine.rs"]
#[allow(dead_code)]
mod engine;
#[path = "../../tests/outside/random.rs"]
#[allow(dead_code)]
mod random;

mod drawn;

use std::io::{self, Read, Write};

/// A buffer of 80 is long enough for every line.
const ROOMY: usize = 80;

fn main() -> io::Result<()> {
    let word = std::env::args().nth(1);
    let last = word.and_then(|word| word.parse().ok());
    let mut sheet = Vec::new();
    io::stdin().read_to_end(&mut sheet)?;
    let mut text = Vec::with_capacity(drawn::LINES * ROOMY);
    let mut line = [0; ROOMY];
    for number in drawn::numbers(last.expect("the last line's number")) {
        let length = engine::line(&sheet, number as u64, &mut line);
        let length = usize::try_from(length).expect("a line of the sheet");
        text.extend(&line[..length]);
    }
    io::stdout().write_all(&text)
}
