//! What a failing test prints before it ends the program.

use crate::speller::Spelling;
use std::fmt::{self, Display};

/// Values of a case, each with its name.
pub type Case<'a> = [(&'a str, &'a dyn Display)];

/// Bytes that are shown in hexadecimal.
pub struct Hex<'a>(pub &'a [u8]);

impl Display for Hex<'_> {
    fn fmt(&self, out: &mut fmt::Formatter) -> fmt::Result {
        let digits: Vec<String> = self.0.iter().map(|byte| format!("{byte:02X}")).collect();
        write!(out, "{}", digits.join(" "))
    }
}

impl Display for Spelling<'_> {
    fn fmt(&self, out: &mut fmt::Formatter) -> fmt::Result {
        write!(out, "sheet {}, ", Hex(self.sheet))?;
        write!(out, "pair {}, side {}, ", self.pair, self.side)?;
        write!(out, "filling {}, ", Hex(self.filling))?;
        write!(out, "buffer of {}", self.room)
    }
}

/// Fails on this case unless `holds`.
pub fn require(holds: bool, reason: &str, case: &Case) {
    if !holds {
        for (name, value) in case {
            println!("{:<13}{value}", format!("{name}:"));
        }
        println!("outside: FAILED: {reason}");
        std::process::exit(1)
    }
}
