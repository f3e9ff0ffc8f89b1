//! Shows how many clauses a sheet's clause file has, case by case, as a table whose rows can be held against document 01 and ticked off, and how
//! many bytes. The engine's own counts stand beside them.

use crate::form::Form;
use crate::input::Input;
use crate::ticks::{Kind, OfField, OfPair, OfRule, Sums, Tick, Ticks};
use crate::verdict;
use lunthegyr::{calls, ClauseCounts, Sheet, LINE_MOST};
use std::fmt::{self, Display};

/// A row of the table.
struct Row {
    label: String,
    numbers: Numbers,
}

enum Numbers {
    /// The heads of the columns, the first of which has what is counted.
    Head(&'static str),
    Product(Tick),
    Sum(u64),
    Nothing,
}

/// The widths of the columns after the labels, and of the signs between them.
const MANY: usize = 9;
const EACH: usize = 5;
const CLAUSES: usize = 8;
const NUMBERS: usize = MANY + EACH + CLAUSES + 2 * 3;
/// The most of a label, so that no line is wider than 110. What is longer goes on on the next line, further to the right.
const MOST_WIDE: usize = 110 - NUMBERS - 2;
const FURTHER: &str = "      ";

/// Whether the table and the lines of the file come to the engine's counts, and what is printed.
pub fn of(input: &Input) -> (bool, Vec<String>) {
    let ticks = Ticks::of(&input.form);
    let counts = input.sheet.clause_counts();
    let bytes = written(&input.sheet, counts.clauses);
    let mut lines = vec![
        verdict::heading(input),
        String::new(),
        format!(
            "{} variables, {} clauses and {} bytes, counted by the engine. L = {}, the number of letters.",
            counts.variables,
            counts.clauses,
            counts.bytes,
            input.form.letters.len()
        ),
        String::new(),
    ];
    lines.extend(table(&rows(input, &ticks, bytes, &counts)));
    lines.push(String::new());
    let same_clauses = ticks.clauses() == counts.clauses;
    let same_bytes = bytes == counts.bytes;
    lines.extend(ends(same_clauses, same_bytes).map(str::to_string));
    (same_clauses && same_bytes, lines)
}

/// Whether both counts are the engine's, in words.
fn ends(same_clauses: bool, same_bytes: bool) -> [&'static str; 2] {
    [
        match same_clauses {
            true => "The table and the engine come to the same C. docs/COUNTING.md tells which clauses each row has.",
            false => "THE TABLE AND THE ENGINE DIFFER. The engine's C is the proved one, so the table is WRONG. Do not use it.",
        },
        match same_bytes {
            true => "The lines one by one and the engine's count come to the same bytes, with the line feed of each line counted.",
            false => "THE LINES AND THE ENGINE'S COUNT OF BYTES DIFFER. One of them is WRONG. Do not use either.",
        },
    ]
}

/// How many bytes the clause file has, by writing its lines, each into the same room.
fn written(sheet: &Sheet, clauses: u64) -> u64 {
    let mut line = [0; LINE_MOST];
    let mut bytes = 0;
    for number in 0..=clauses {
        let length = calls::line(sheet.bytes(), number, &mut line);
        bytes += length.expect("there is this line, and room for it") as u64;
    }
    bytes
}

/// The rows of a sheet. In the last rows are C, as it is found here and as the engine counts it, and the file's bytes, line by line and as the engine counts them.
fn rows(input: &Input, ticks: &Ticks, bytes: u64, engine: &ClauseCounts) -> Vec<Row> {
    let form = &input.form;
    let mut rows = Vec::new();
    for (number, ticks) in ticks.fields.iter().enumerate() {
        rows.extend(field(form, number, ticks));
    }
    for (number, ticks) in ticks.pairs.iter().enumerate() {
        rows.extend(pair(input, number, ticks));
    }
    for (number, ticks) in ticks.rules.iter().enumerate() {
        rows.extend(rule(input, number, ticks));
    }
    let sums = [
        (verdict::some(form.fields.len(), "field"), ticks.of_fields()),
        (verdict::some(form.pairs.len(), "pair"), ticks.of_pairs()),
        (verdict::some(form.rules.len(), "rule"), ticks.of_rules()),
        ("C, counted here".to_string(), ticks.clauses()),
        ("C, counted by the engine".to_string(), engine.clauses),
    ];
    rows.extend(sums.map(|(label, sum)| row(label, Numbers::Sum(sum))));
    rows.push(row("", Numbers::Nothing));
    let sizes = [
        ("line by line", bytes),
        ("counted by the engine", engine.bytes),
    ];
    rows.extend(sizes.map(|(how, size)| {
        let label = format!("Bytes of the clause file, {how}");
        row(label, Numbers::Sum(size))
    }));
    rows
}

fn row(label: impl Into<String>, numbers: Numbers) -> Row {
    Row {
        label: label.into(),
        numbers,
    }
}

/// A case, with how many clauses each has: a number, or a formula with what it comes to.
fn case(case: &str, formula: &str, tick: Tick) -> Row {
    let each = match formula {
        "" => tick.each.to_string(),
        _ => format!("{formula} = {}", tick.each),
    };
    row(format!("  {case}: {each}"), Numbers::Product(tick))
}

fn together(sum: u64) -> [Row; 2] {
    [
        row("  together", Numbers::Sum(sum)),
        row("", Numbers::Nothing),
    ]
}

fn field(form: &Form, number: usize, ticks: &OfField) -> Vec<Row> {
    let field = &form.fields[number];
    let title = format!("field {}, limit {}", field.name, field.limit);
    let mut rows = vec![
        row(title, Numbers::Head("places")),
        case("Holds a value", "", ticks.holds),
        case("Not two values", "L(L+1)/2", ticks.not_two),
        case(
            "Blank goes on, from all places but the last",
            "",
            ticks.blank,
        ),
    ];
    rows.extend(together(ticks.clauses()));
    rows
}

fn pair(input: &Input, number: usize, ticks: &OfPair) -> Vec<Row> {
    let form = &input.form;
    let line = input.line_of(|places| places.pairs[number].start);
    let text = form.pair_text(&form.pairs[number]);
    let title = format!("pair {number}{line}: {text}");
    let mut rows = vec![
        row(title, Numbers::Head("locations")),
        case(&format!("S({number},0,0)"), "", ticks.first),
    ];
    let kinds = Kind::ALL.into_iter().zip(ticks.kinds);
    rows.extend(kinds.map(|(kind, tick)| {
        let (words, formula) = words(kind);
        case(words, formula, tick)
    }));
    rows.extend(together(ticks.clauses()));
    rows
}

/// The words of document 02, No. 2, for a kind, and its formula if its count is no plain number.
fn words(kind: Kind) -> (&'static str, &'static str) {
    match kind {
        Kind::SameLetterTwice => ("Same letter twice", ""),
        Kind::DifferentLetters => ("Different letters", ""),
        Kind::LetterThenField => ("Letter then field", ""),
        Kind::FieldThenLetter => ("Field then letter", "L+1"),
        Kind::TwoFields => ("Two fields", "L+3"),
        Kind::UsedUpBeforeLetter => ("One template used up, before a letter", ""),
        Kind::UsedUpBeforeField => ("One template used up, before a field", ""),
        Kind::BothUsedUp => ("Both used up", ""),
    }
}

fn rule(input: &Input, number: usize, ticks: &OfRule) -> Vec<Row> {
    let form = &input.form;
    let line = input.line_of(|places| places.rules[number].start);
    let rule = &form.rules[number];
    let title = format!("rule {number}{line}: {}", form.rule_text(rule));
    let mut rows = vec![
        row(title, Numbers::Head("sums")),
        case(&format!("T({number},0,0)"), "", ticks.first),
    ];
    for (number, (sums, tick)) in ticks.steps.iter().enumerate() {
        let (coefficient, name) = (rule.coefficients[number], &form.fields[number].name);
        let step = format!("Step over {coefficient}*len({name}), from sums {sums}");
        rows.push(case(&step, "limit+1", *tick));
    }
    let (sums, tick) = ticks.above;
    let above = format!("Final sums above {}, of {sums}", rule.limit);
    rows.push(case(&above, "", tick));
    rows.extend(together(ticks.clauses()));
    rows
}

impl Display for Sums {
    fn fmt(&self, out: &mut fmt::Formatter) -> fmt::Result {
        write!(out, "{} to {}", self.least, self.greatest)
    }
}

/// The rows, with their numbers in columns.
fn table(rows: &[Row]) -> Vec<String> {
    let widest = rows.iter().map(|row| row.label.len()).max().unwrap_or(0);
    let wide = widest.min(MOST_WIDE);
    let mut lines = Vec::new();
    for row in rows {
        let mut label = parted(&row.label, wide);
        let last = label.pop().unwrap_or_default();
        lines.append(&mut label);
        let numbers = numbers(&row.numbers);
        lines.push(format!("{last:<wide$}  {numbers}").trim_end().to_string());
    }
    lines
}

fn numbers(numbers: &Numbers) -> String {
    let columns = |many: &str, each: &str, clauses: &str| {
        format!("{many:>MANY$} x {each:>EACH$} = {clauses:>CLAUSES$}")
    };
    match numbers {
        Numbers::Head(things) => columns(things, "each", "clauses"),
        Numbers::Product(tick) => columns(
            &tick.many.to_string(),
            &tick.each.to_string(),
            &tick.clauses().to_string(),
        ),
        Numbers::Sum(sum) => format!("{sum:>NUMBERS$}"),
        Numbers::Nothing => String::new(),
    }
}

/// A label in parts that are not too wide. It is parted after a space or a field, where there is one.
fn parted(label: &str, wide: usize) -> Vec<String> {
    let (mut parts, mut indent, mut rest) = (Vec::new(), "", label);
    while indent.len() + rest.len() > wide {
        let room = wide - indent.len();
        let end = rest[..room]
            .rfind(|c| c == ' ' || c == '}')
            .map_or(room, |at| at + 1);
        parts.push(format!("{indent}{}", &rest[..end]).trim_end().to_string());
        rest = rest[end..].trim_start();
        indent = FURTHER;
    }
    parts.push(format!("{indent}{rest}"));
    parts
}
