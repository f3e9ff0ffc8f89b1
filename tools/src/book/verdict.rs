//! Says what the engine finds in a book: which templates clash as a table, how each two of them meet, and how many they are. What it says of hours is in
//! `hours/verdict.rs`.

use super::input::{Input, Standing};
use super::matrix;
use super::question;
use crate::hours::verdict as hours;
use crate::input::Input as SheetInput;
use crate::letters;
use crate::verdict::{drawn, some, spelled};
use lunthegyr::{Checked, Clashing, Filling};

/// Whether the hours that are shown agree with what the engine says of them, and the verdict's lines.
pub fn of(input: &Input) -> (bool, Vec<String>) {
    let (clashes, pairs) = (input.book.clashes(), input.pairs());
    let count = |standing| {
        pairs
            .iter()
            .filter(|&&pair| input.standing(pair) == standing)
            .count()
    };
    let [together, never_both, apart] =
        [Standing::Clash, Standing::NeverBoth, Standing::Apart].map(count);
    let mut agree = true;
    let mut parts = vec![
        heading(input),
        asked(input),
        matrix::lines(input).join("\n"),
    ];
    if let Some(hours) = &input.hours {
        parts.push(hours::table(input, hours));
    }
    for &pair in clashes {
        parts.push(clash(input, pair));
        if let Some(hours) = &input.hours {
            let (same, lines) = hours::of_pair(input, hours, pair);
            agree &= same;
            parts.push(lines);
        }
    }
    if let Some(&pair) = clashes.first() {
        parts.push(after_clashes(input, pair));
    }
    if apart > 0 {
        parts.push(REASONS.to_string());
    }
    if never_both > 0 {
        parts.push(hours::REASONS.to_string());
    }
    parts.push(last_line(together, never_both, pairs.len()));
    let lines = parts.join("\n\n").lines().map(str::to_string).collect();
    (agree, lines)
}

/// How many pairs clash, and how many clash but never in the same minute.
fn last_line(clashes: usize, never_both: usize, pairs: usize) -> String {
    match (clashes, never_both, pairs) {
        (_, _, 0) => "a book of one template has no pairs".to_string(),
        (0, 0, 1) => "the only pair is apart".to_string(),
        (0, 0, _) => format!("all {pairs} pairs are apart"),
        (1, _, 1) => "the only pair clashes".to_string(),
        (_, _, 1) => "the only pair clashes, but never in the same minute".to_string(),
        (_, 0, _) => format!("{clashes} of {pairs} pairs clash"),
        (0, _, _) => format!("{never_both} of {pairs} pairs clash, but never in the same minute"),
        _ => format!(
            "{clashes} of {pairs} pairs clash; {never_both} more clash, but never in the same minute"
        ),
    }
}

/// The book's name, how many templates it has, and its letters.
fn heading(input: &Input) -> String {
    let templates = some(input.book.templates(), "template");
    let letters = letters::written(&input.form.letters);
    format!("{}: {templates}, {letters}", input.name)
}

/// Two templates by their numbers and names.
pub fn names(input: &Input, pair: Clashing) -> String {
    let name = |number: usize| input.short_name(number);
    let Clashing { first, second } = pair;
    format!("{first} {} and {second} {}", name(first), name(second))
}

/// What is asked, and what the signs of the table mean.
fn asked(input: &Input) -> String {
    let clash = match input.hours {
        None => CLASH,
        Some(_) => hours::CLASH,
    };
    format!("{QUESTION}\n\n{clash}\n{APART}")
}

const QUESTION: &str = "\
Which two of these templates can spell the same text? Any two are asked as two shops may send them: each
template has fields of its own, any field may be empty or hold any of the letters, and there are no rules.";

const CLASH: &str = "  X      clash: with some texts in the fields both spell the same";

const APART: &str = "  .      apart: no texts in the fields make them spell the same
  {x 4}  a field whose text has at most 4 letters";

/// The first clash of two templates.
fn clash(input: &Input, pair: Clashing) -> String {
    let question = question::of(input, pair);
    let filling = question.sheet.search();
    let filling = filling.expect("the engine lists a pair in which it finds no clash");
    assert!(
        question.sheet.check(&filling) == Ok(Checked::Clash),
        "the engine hands over what it does not pass"
    );
    let text = spelled_text(&question, &filling);
    let [left, right] = [pair.first, pair.second].map(|number| input.short_name(number));
    let drawn = drawn(&question, &filling, 0, [&left, &right]).join("\n");
    let names = names(input, pair);
    let never = match input.standing(pair) {
        Standing::NeverBoth => ", but are never sent in the same minute",
        _ => "",
    };
    format!("{names} can both spell {text}{never}\n\n{drawn}")
}

/// The text that both templates of a question spell.
pub fn spelled_text(question: &SheetInput, filling: &Filling) -> String {
    let text = spelled(question, filling, 0);
    match text.is_empty() {
        true => "the empty text".to_string(),
        false => text.into_iter().map(char::from).collect(),
    }
}

/// What is said after clashes, the first of which is of this pair.
fn after_clashes(input: &Input, pair: Clashing) -> String {
    let Clashing { first, second } = pair;
    // A name that no shell takes as one word.
    let file = match input.name.contains(char::is_whitespace) {
        true => "FILE",
        false => &input.name,
    };
    format!(
        "\
For each two this is the first clash; there may be others. After any change, ask again.
A book has no rules. If a panel never leaves some field empty, ask about the two templates on a sheet, where
a rule can say so. This writes them as a sheet:
  tools/lunthegyr book --sheet {first} {second} {file}"
    )
}

/// What `apart` rests on.
const REASONS: &str = "\
What `apart` rests on:
- The engine's source is proved, for every accepted book, to list all pairs that clash, and no others
  (lists-the-clashes in crates/calls/proofs/BookOfTemplates.antt).
- Longer texts and other templates are not covered.
- This tool is not proved. The templates above are read back from the book's bytes: compare them with yours.
  docs/APART.md tells what is proved, tested and assumed.";
