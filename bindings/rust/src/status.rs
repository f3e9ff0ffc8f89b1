//! What a call's status means: an answer, or minus a refusal's number. A status that `include/lunthegyr.h` does not allow is a panic, since it
//! means that the program was linked with another library.

use crate::Refusal;
use std::ops::RangeInclusive;

/// A call by its name in the library, its greatest answer, and the numbers of the refusals that it gives: of what it reads, and its own.
pub struct Call {
    pub name: &'static str,
    pub greatest: usize,
    pub reads: RangeInclusive<u8>,
    pub own: &'static [u8],
}

/// The numbers of the refusals of a sheet, and of a book.
pub const OF_SHEET: RangeInclusive<u8> = 1..=15;
pub const OF_BOOK: RangeInclusive<u8> = 40..=41;

impl Call {
    /// The answer, or the refusal.
    pub fn outcome(&self, status: i64) -> Result<usize, Refusal> {
        match usize::try_from(status) {
            Ok(answer) if answer <= self.greatest => Ok(answer),
            Ok(_) => self.unknown(status),
            Err(_) => Err(self.refusal(status)),
        }
    }

    /// The refusal of a status below 0.
    fn refusal(&self, status: i64) -> Refusal {
        let number = u8::try_from(status.unsigned_abs()).unwrap_or(0);
        let given = self.reads.contains(&number) || self.own.contains(&number);
        match Refusal::from_number(number) {
            Some(refusal) if given => refusal,
            _ => self.unknown(status),
        }
    }

    fn unknown(&self, status: i64) -> ! {
        not_allowed(&format!("{} returned {status}", self.name))
    }
}

/// Ends the program, with what the library did.
pub fn not_allowed(done: &str) -> ! {
    panic!("{done}, which lunthegyr.h does not allow: the program was linked with another library")
}

#[cfg(test)]
mod tests {
    use super::*;

    const SAMPLE: Call = Call {
        name: "tpl_sample",
        greatest: 3,
        reads: OF_SHEET,
        own: &[27, 30],
    };

    #[test]
    fn a_status_from_0_to_the_greatest_is_an_answer() {
        for answer in 0..=3 {
            assert_eq!(SAMPLE.outcome(answer), Ok(answer as usize));
        }
    }

    #[test]
    fn a_status_below_0_is_a_refusal_of_the_call_or_of_what_it_reads() {
        assert_eq!(SAMPLE.outcome(-1), Err(Refusal::UnderNineBytes));
        assert_eq!(SAMPLE.outcome(-15), Err(Refusal::Coefficient));
        assert_eq!(SAMPLE.outcome(-27), Err(Refusal::BufferBelowFilling));
        assert_eq!(SAMPLE.outcome(-30), Err(Refusal::ReplySize));
        let of_book = Call {
            reads: OF_BOOK,
            ..SAMPLE
        };
        assert_eq!(of_book.outcome(-40), Err(Refusal::BookMark));
        assert_eq!(of_book.outcome(-41), Err(Refusal::BookFault));
        assert_eq!(of_book.outcome(-27), Err(Refusal::BufferBelowFilling));
    }

    #[test]
    #[should_panic(
        expected = "tpl_sample returned 4, which lunthegyr.h does not allow: the program was linked with another library"
    )]
    fn a_greater_answer_is_a_panic() {
        let _ = SAMPLE.outcome(4);
    }

    #[test]
    fn every_other_status_is_a_panic() {
        let ends = [i64::MIN, i64::MIN + 1, i64::MAX, -256 - 1, -256 - 27];
        for status in (-300..300).chain(ends) {
            let allowed = (0..=3).contains(&status)
                || (-15..=-1).contains(&status)
                || [-27, -30].contains(&status);
            let outcome = std::panic::catch_unwind(|| SAMPLE.outcome(status));
            assert_eq!(outcome.is_ok(), allowed, "status {status}");
        }
    }
}
