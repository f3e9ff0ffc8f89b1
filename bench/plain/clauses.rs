//! A plain program that prints the clause file of the sheet on standard input, as the clause program
//! does, through one buffered writer of 64 KiB. The clause program is measured against it. With the word
//! `by-hand` it makes the digits of numbers itself, which is faster than Rust's own way.

#[path = "../../tests/outside/reader.rs"]
#[allow(dead_code)]
mod reader;
#[path = "../../tests/outside/refusal.rs"]
#[allow(dead_code)]
mod refusal;
#[path = "../../tests/outside/writer.rs"]
#[allow(dead_code)]
mod writer;

mod numbers;

use numbers::Numbers;
use std::fs::File;
use std::io::{self, BufWriter, Read, Write};
use std::os::unix::io::AsFd;
use writer::{Clauses, Literal, Variable};

const BUFFER_BYTES: usize = 65_536;
/// Of a variable's number.
const MOST_DIGITS: usize = 9;

/// Counts clauses.
struct Counter {
    count: usize,
}

/// Prints clauses.
struct Printer {
    numbers: Numbers,
    out: BufWriter<File>,
    by_hand: bool,
}

fn main() -> io::Result<()> {
    let mut sheet = Vec::new();
    io::stdin().read_to_end(&mut sheet)?;
    // Rust's own standard output has a buffer already, and looks for line ends.
    let output = File::from(io::stdout().as_fd().try_clone_to_owned()?);
    let mut out = BufWriter::with_capacity(BUFFER_BYTES, output);
    let sheet = match reader::read(&sheet) {
        Ok(sheet) => sheet,
        Err(refusal) => return writeln!(out, "refused {}", refusal as u8),
    };
    let mut counter = Counter { count: 0 };
    counter.sheet(&sheet);
    let numbers = Numbers::of(&sheet);
    writeln!(out, "p cnf {} {}", numbers.count, counter.count)?;
    let mut printer = Printer {
        numbers,
        out,
        by_hand: std::env::args()
            .nth(1)
            .map_or(false, |word| word == "by-hand"),
    };
    printer.sheet(&sheet);
    printer.out.flush()
}

impl Clauses for Counter {
    fn clause(&mut self, _: &'static str, literals: &[Literal]) {
        let left_out = literals
            .iter()
            .any(|literal| matches!(literal, Literal::Always));
        self.count += usize::from(!left_out);
    }
}

impl Clauses for Printer {
    fn clause(&mut self, _: &'static str, literals: &[Literal]) {
        if literals
            .iter()
            .any(|literal| matches!(literal, Literal::Always))
        {
            return;
        }
        for literal in literals {
            let written = match *literal {
                Literal::Is(variable) => self.number("", variable),
                Literal::Not(variable) => self.number("-", variable),
                Literal::Always | Literal::Never => Ok(()),
            };
            written.expect("output that can be written");
        }
        self.out
            .write_all(b"0\n")
            .expect("output that can be written");
    }
}

impl Printer {
    /// Prints a variable's number after its sign, and a space.
    fn number(&mut self, sign: &str, variable: Variable) -> io::Result<()> {
        let mut number = self.numbers.number(variable);
        if !self.by_hand {
            return write!(self.out, "{sign}{number} ");
        }
        let mut text = [b' '; MOST_DIGITS + 1];
        let mut first = MOST_DIGITS;
        while number > 0 {
            first -= 1;
            text[first] = b'0' + (number % 10) as u8;
            number /= 10;
        }
        self.out.write_all(sign.as_bytes())?;
        self.out.write_all(&text[first..])
    }
}
