//! Reads a rule: two sums of lengths and numbers with `<=`, `>=`, `<`, `>` or `=` between them. It becomes one bound, or two for `=`:
//! a sum of coefficient × length that is at most a limit.

use crate::line::{fault_at, Line};
use crate::source::{Fault, Place};

/// Left sum minus right sum, and how it is to compare with 0.
pub struct Relation {
    sum: Sum,
    sign: Sign,
    /// Where each field stands.
    pub places: Vec<(usize, Place)>,
}

#[derive(Default)]
struct Sum {
    /// A field's number and a coefficient; a field may stand here several times.
    terms: Vec<(usize, i64)>,
    constant: i64,
}

#[derive(Clone, Copy)]
enum Sign {
    AtMost,
    Below,
    AtLeast,
    Above,
    Equal,
}

/// The terms' sum is at most the limit.
pub struct Bound {
    pub terms: Vec<(usize, i64)>,
    pub limit: i64,
}

/// Gives a field's number for the name that comes next, and passes the sign after it.
type Named<'a> = &'a dyn Fn(&mut Line) -> Result<usize, Fault>;

pub fn relation(line: &mut Line, named: Named) -> Result<Relation, Fault> {
    let mut relation = Relation {
        sum: Sum::default(),
        sign: Sign::Equal,
        places: Vec::new(),
    };
    relation.side(line, named, 1)?;
    relation.sign = sign(line)?;
    relation.side(line, named, -1)?;
    Ok(relation)
}

impl Relation {
    pub fn bounds(&self) -> Vec<Bound> {
        let up = |slack: i64| self.bound(1, slack);
        let down = |slack: i64| self.bound(-1, slack);
        match self.sign {
            Sign::AtMost => vec![up(0)],
            Sign::Below => vec![up(1)],
            Sign::AtLeast => vec![down(0)],
            Sign::Above => vec![down(1)],
            Sign::Equal => vec![up(0), down(0)],
        }
    }

    /// The sum, turned round by a factor of -1, is at most minus the slack.
    fn bound(&self, factor: i64, slack: i64) -> Bound {
        let terms = self.sum.terms.iter();
        Bound {
            terms: terms.map(|&(field, n)| (field, factor * n)).collect(),
            limit: -factor * self.sum.constant - slack,
        }
    }

    /// Terms with `+` or `-` between them, which count `factor` times.
    fn side(&mut self, line: &mut Line, named: Named, factor: i64) -> Result<(), Fault> {
        let mut sign = if line.passes('-') { -factor } else { factor };
        loop {
            self.term(line, named, sign)?;
            sign = match line.peek() {
                Some('+') => factor,
                Some('-') => -factor,
                _ => return Ok(()),
            };
            line.pass();
        }
    }

    /// A number, a length, or both with or without a `*` between them.
    fn term(&mut self, line: &mut Line, named: Named, sign: i64) -> Result<(), Fault> {
        let number = line.number()?;
        let times = number.is_some() && line.passes('*');
        let more = line.peek().map_or(false, |c| c.is_ascii_alphabetic());
        if !times && !more {
            return match number {
                Some(number) => {
                    self.sum.constant += sign * number;
                    Ok(())
                }
                None => line.expected("a number or `len(FIELD)`"),
            };
        }
        line.peek();
        let place = line.place();
        if line.word() != "len" {
            return fault_at(place, "expected `len(FIELD)`");
        }
        line.expect('(', "after `len`")?;
        line.peek();
        let place = line.place();
        let field = named(line)?;
        self.sum.terms.push((field, sign * number.unwrap_or(1)));
        self.places.push((field, place));
        Ok(())
    }
}

fn sign(line: &mut Line) -> Result<Sign, Fault> {
    let (strict, or_equal) = match line.peek() {
        Some('<') => (Sign::Below, Sign::AtMost),
        Some('>') => (Sign::Above, Sign::AtLeast),
        Some('=') => (Sign::Equal, Sign::Equal),
        _ => return line.expected("`<=`, `>=`, `<`, `>` or `=`"),
    };
    line.pass();
    if matches!(strict, Sign::Equal) {
        return match line.peek() {
            Some(c) if "<>=".contains(c) => line.fault("write `<=`, `>=` or `=`"),
            _ => Ok(strict),
        };
    }
    Ok(if line.passes('=') { or_equal } else { strict })
}
