//! A plain writer of clause files, written from document 01 ("Counting", "Writing line n", "Clauses")
//! and document 02, No. 4, alone. The library's answers are compared with it. It knows nothing of the
//! library: a variable's number is its place in a list of all variables, a clause is built in document
//! 01's words before anything is left out of it, and a file's size is the length of the lines that it
//! has written.

use crate::reader::{self, Pair, Rule, Sheet, Symbol};
use crate::refusal::Refusal;
use std::collections::HashMap;
use std::io::{self, Write};
use std::ops::RangeInclusive;

/// All lines of a clause file, line 0 first.
pub struct File {
    pub variables: usize,
    pub lines: Vec<Line>,
}

/// A line's bytes, its end among them, and which of document 01's clauses it is.
pub struct Line {
    pub kind: &'static str,
    pub bytes: Vec<u8>,
}

/// Line 0 and the clauses, by the variables that they define and document 01's letters.
pub const KINDS: [&str; 13] = [
    "line 0",
    "K, one of all values",
    "K, not two values",
    "K, blank tail",
    "S, first location",
    "S, B",
    "S, C",
    "S, D",
    "S, E",
    "S, F",
    "T, no fields",
    "T, one field more",
    "T, above the limit",
];

impl File {
    /// C.
    pub fn clauses(&self) -> usize {
        self.lines.len() - 1
    }

    /// How many bytes all lines have together.
    pub fn size(&self) -> usize {
        self.lines.iter().map(|line| line.bytes.len()).sum()
    }

    /// What counting answers: variables, clauses, bytes.
    pub fn counts(&self) -> [u64; 3] {
        [self.variables, self.clauses(), self.size()].map(|count| count as u64)
    }

    /// Line `number` for a buffer of `room` bytes, or the refusal.
    fn line(&self, number: u64, room: usize) -> Result<&Line, Refusal> {
        if number > self.clauses() as u64 {
            return Err(Refusal::LineNumber);
        }
        let line = &self.lines[number as usize];
        if room < line.bytes.len() {
            return Err(Refusal::BufferBelowLine);
        }
        Ok(line)
    }

    /// All bytes of the file.
    pub fn bytes(&self) -> Vec<u8> {
        self.lines
            .iter()
            .flat_map(|line| &line.bytes)
            .copied()
            .collect()
    }
}

/// A sheet of any bytes with its clause file, or with its refusal.
pub struct Written {
    pub sheet: Vec<u8>,
    pub file: Result<File, Refusal>,
}

impl Written {
    /// Line `number` for a buffer of `room` bytes, or the first refusal in document 01's order.
    pub fn line(&self, number: u64, room: usize) -> Result<&Line, Refusal> {
        match &self.file {
            Ok(file) => file.line(number, room),
            Err(refusal) => Err(*refusal),
        }
    }

    /// The whole file for a buffer of `room` bytes, or the refusal: of the sheet, or else of a buffer
    /// that is shorter than the file.
    pub fn whole(&self, room: usize) -> Result<Vec<u8>, Refusal> {
        match &self.file {
            Ok(file) if room < file.size() => Err(Refusal::BufferBelowLine),
            Ok(file) => Ok(file.bytes()),
            Err(refusal) => Err(*refusal),
        }
    }
}

/// Writes the clause file of a sheet.
pub fn write(sheet: &[u8]) -> Written {
    Written {
        sheet: sheet.to_vec(),
        file: reader::read(sheet).map(|sheet| file_of(&sheet)),
    }
}

/// Prints a sheet's clause file as the clause program is to print it.
pub fn print(sheet: &[u8]) -> io::Result<()> {
    let printed = match write(sheet).file {
        Ok(file) => file.bytes(),
        Err(refusal) => format!("refused {}\n", refusal as u8).into_bytes(),
    };
    io::stdout().write_all(&printed)
}

/// The clause file of an accepted sheet.
pub fn file_of(sheet: &Sheet) -> File {
    let numbers = numbers(sheet);
    let variables = numbers.len();
    let mut writer = Writer {
        numbers,
        clauses: Vec::new(),
    };
    writer.sheet(sheet);
    let count = writer.clauses.len();
    let header = Line {
        kind: "line 0",
        bytes: format!("p cnf {variables} {count}\n").into_bytes(),
    };
    let mut lines = vec![header];
    lines.append(&mut writer.clauses);
    File { variables, lines }
}

#[derive(Clone, Copy, PartialEq, Eq, Hash)]
pub enum Variable {
    /// K(f,c,a): place c of field f holds letter a, a = L meaning blank.
    K(usize, usize, usize),
    /// S(p,i,j): location (i,j) of pair p.
    S(usize, usize, usize),
    /// T(r,k,s): under rule r the first k fields sum to s.
    T(usize, usize, i32),
}

use Variable::{K, S, T};

/// All variables with their numbers.
pub fn numbers(sheet: &Sheet) -> HashMap<Variable, usize> {
    variables(sheet).into_iter().zip(1..).collect()
}

/// All variables, in order.
pub fn variables(sheet: &Sheet) -> Vec<Variable> {
    let mut all = Vec::new();
    for (f, &limit) in sheet.limits.iter().enumerate() {
        for c in 0..usize::from(limit) {
            for a in 0..=sheet.letters.len() {
                all.push(K(f, c, a));
            }
        }
    }
    for (p, pair) in sheet.pairs.iter().enumerate() {
        for i in 0..=cells(&pair.left, &sheet.limits).len() {
            for j in 0..=cells(&pair.right, &sheet.limits).len() {
                all.push(S(p, i, j));
            }
        }
    }
    for (r, rule) in sheet.rules.iter().enumerate() {
        for k in 0..=sheet.limits.len() {
            for s in sums(rule, &sheet.limits, k) {
                all.push(T(r, k, s));
            }
        }
    }
    all
}

/// Every whole number from the least to the greatest sum that the limits of the first `k` fields
/// allow.
pub fn sums(rule: &Rule, limits: &[u8], k: usize) -> RangeInclusive<i32> {
    let (mut least, mut greatest) = (0, 0);
    for (&coefficient, &limit) in rule.coefficients.iter().zip(limits).take(k) {
        let terms = (0..=i32::from(limit)).map(|length| i32::from(coefficient) * length);
        least += terms.clone().min().expect("a field has a length");
        greatest += terms.max().expect("a field has a length");
    }
    least..=greatest
}

/// A letter, or a place of a field: its field and its number there.
#[derive(Clone, Copy, PartialEq)]
pub enum Cell {
    Letter(usize),
    Place(usize, usize),
}

/// The cells of a template.
pub fn cells(template: &[Symbol], limits: &[u8]) -> Vec<Cell> {
    let mut cells = Vec::new();
    for &symbol in template {
        match symbol {
            Symbol::Letter(letter) => cells.push(Cell::Letter(usize::from(letter))),
            Symbol::Field(field) => {
                let field = usize::from(field);
                let places = 0..usize::from(limits[field]);
                cells.extend(places.map(|place| Cell::Place(field, place)));
            }
        }
    }
    cells
}

/// What a clause lists: a variable or its opposite, or what a letter cell makes always true or
/// always false.
#[derive(Clone, Copy)]
pub enum Literal {
    Is(Variable),
    Not(Variable),
    Always,
    Never,
}

use Literal::{Always, Is, Never, Not};

impl Literal {
    fn opposite(self) -> Literal {
        match self {
            Is(variable) => Not(variable),
            Not(variable) => Is(variable),
            Always => Never,
            Never => Always,
        }
    }
}

impl Cell {
    /// The cell is letter `a`; it is blank if `a` is L, which no letter cell ever is.
    fn is(self, a: usize) -> Literal {
        match self {
            Cell::Letter(letter) if letter == a => Always,
            Cell::Letter(_) => Never,
            Cell::Place(field, place) => Is(K(field, place, a)),
        }
    }

    fn is_not(self, a: usize) -> Literal {
        self.is(a).opposite()
    }
}

/// Puts clauses into lines.
struct Writer {
    numbers: HashMap<Variable, usize>,
    clauses: Vec<Line>,
}

impl Clauses for Writer {
    /// Adds a clause that is not left out. Literals that are always false are dropped.
    fn clause(&mut self, kind: &'static str, literals: &[Literal]) {
        if left_out(literals) {
            return;
        }
        let mut bytes = Vec::new();
        for literal in literals {
            let written = match literal {
                Is(variable) => write!(bytes, "{} ", self.numbers[variable]),
                Not(variable) => write!(bytes, "-{} ", self.numbers[variable]),
                Always | Never => Ok(()),
            };
            written.expect("memory takes all bytes");
        }
        bytes.extend(b"0\n");
        self.clauses.push(Line { kind, bytes });
    }
}

/// Only counts clauses.
struct Counted(usize);

impl Clauses for Counted {
    fn clause(&mut self, _: &'static str, literals: &[Literal]) {
        self.0 += usize::from(!left_out(literals));
    }
}

/// How many clauses an accepted sheet has.
pub fn clause_count(sheet: &Sheet) -> usize {
    let mut counted = Counted(0);
    counted.sheet(sheet);
    counted.0
}

/// Is a clause left out, since a literal is always true?
pub fn left_out(literals: &[Literal]) -> bool {
    literals.iter().any(|literal| matches!(literal, Always))
}

/// What is given the clauses of a sheet one by one, in document 01's order.
pub trait Clauses {
    /// Takes a clause as document 01 writes it, before anything is left out of it.
    fn clause(&mut self, kind: &'static str, literals: &[Literal]);

    /// All clauses of a sheet.
    fn sheet(&mut self, sheet: &Sheet) {
        for (field, &limit) in sheet.limits.iter().enumerate() {
            self.places(field, usize::from(limit), sheet.letters.len());
        }
        for (number, pair) in sheet.pairs.iter().enumerate() {
            self.pair(sheet, number, pair);
        }
        for (number, rule) in sheet.rules.iter().enumerate() {
            self.rule(sheet, number, rule);
        }
    }

    /// The clauses of a field's places, for `l` letters.
    fn places(&mut self, f: usize, limit: usize, l: usize) {
        for c in 0..limit {
            let all: Vec<Literal> = (0..=l).map(|a| Is(K(f, c, a))).collect();
            self.clause("K, one of all values", &all);
            for a in 0..=l {
                for b in a + 1..=l {
                    self.clause("K, not two values", &[Not(K(f, c, a)), Not(K(f, c, b))]);
                }
            }
            if c + 1 < limit {
                self.clause("K, blank tail", &[Not(K(f, c, l)), Is(K(f, c + 1, l))]);
            }
        }
    }

    /// The clauses of a pair.
    fn pair(&mut self, sheet: &Sheet, p: usize, pair: &Pair) {
        let left = cells(&pair.left, &sheet.limits);
        let right = cells(&pair.right, &sheet.limits);
        self.clause("S, first location", &[Is(S(p, 0, 0))]);
        for i in 0..=left.len() {
            for j in 0..=right.len() {
                let u = left.get(i).copied();
                let v = right.get(j).copied();
                self.location(p, [i, j], [u, v], sheet.letters.len());
            }
        }
    }

    /// The clauses of a location, with the left and the right cell that it has.
    fn location(&mut self, p: usize, [i, j]: [usize; 2], uv: [Option<Cell>; 2], l: usize) {
        let blank = l;
        let away = Not(S(p, i, j));
        if let [Some(u), _] = uv {
            self.clause("S, B", &[away, u.is_not(blank), Is(S(p, i + 1, j))]);
        }
        match uv {
            [Some(u), Some(v)] => {
                let next = Is(S(p, i, j + 1));
                self.clause("S, C", &[away, u.is(blank), v.is_not(blank), next]);
            }
            [None, Some(v)] => self.clause("S, C", &[away, v.is_not(blank), Is(S(p, i, j + 1))]),
            [_, None] => {}
        }
        if let [Some(u), Some(v)] = uv {
            let next = Is(S(p, i + 1, j + 1));
            self.clause("S, D", &[away, u.is(blank), v.is(blank), next]);
            for a in 0..l {
                self.clause("S, E", &[away, v.is(blank), u.is_not(a), v.is(a)]);
            }
        }
        match uv {
            [None, Some(v)] => self.clause("S, F", &[away, v.is(blank)]),
            [Some(u), None] => self.clause("S, F", &[away, u.is(blank)]),
            _ => {}
        }
    }

    /// The clauses of a rule.
    fn rule(&mut self, sheet: &Sheet, r: usize, rule: &Rule) {
        self.clause("T, no fields", &[Is(T(r, 0, 0))]);
        for (k, &limit) in sheet.limits.iter().enumerate() {
            for s in sums(rule, &sheet.limits, k) {
                for d in 0..=usize::from(limit) {
                    self.one_field_more(sheet, r, rule, [k, d], s);
                }
            }
        }
        let v = sheet.limits.len();
        for s in sums(rule, &sheet.limits, v) {
            if s > i32::from(rule.limit) {
                self.clause("T, above the limit", &[Not(T(r, v, s))]);
            }
        }
    }

    /// If the first k fields sum to s and field k has length d, then the first k+1 sum to more.
    fn one_field_more(&mut self, sheet: &Sheet, r: usize, rule: &Rule, [k, d]: [usize; 2], s: i32) {
        let blank = sheet.letters.len();
        let mut literals = vec![Not(T(r, k, s))];
        if d > 0 {
            literals.push(Is(K(k, d - 1, blank)));
        }
        if d < usize::from(sheet.limits[k]) {
            literals.push(Not(K(k, d, blank)));
        }
        let sum = s + i32::from(rule.coefficients[k]) * d as i32;
        literals.push(Is(T(r, k + 1, sum)));
        self.clause("T, one field more", &literals);
    }
}
