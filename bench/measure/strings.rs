//! A sheet's question in SMT-LIB's theory of strings (QF_SLIA), for solvers that take it: is there a
//! clash? Each field is a string constant over the sheet's letters.

use crate::reader::{Rule, Sheet, Symbol, Template};

/// The whole question.
pub fn question(sheet: &Sheet) -> String {
    let mut lines = vec!["(set-logic QF_SLIA)".to_string()];
    for (number, &limit) in sheet.limits.iter().enumerate() {
        lines.push(format!("(declare-const f{number} String)"));
        lines.push(format!(
            "(assert (str.in_re f{number} (re.* {})))",
            letters(sheet)
        ));
        lines.push(format!("(assert (<= (str.len f{number}) {limit}))"));
    }
    for pair in &sheet.pairs {
        let [left, right] = [&pair.left, &pair.right].map(|side| spelled(sheet, side));
        lines.push(format!("(assert (= {left} {right}))"));
    }
    for rule in &sheet.rules {
        lines.push(format!(
            "(assert (<= {} {}))",
            sum(rule),
            number(rule.limit.into())
        ));
    }
    lines.push("(check-sat)\n".to_string());
    lines.join("\n")
}

/// A function of terms, where there are none or one of them what it comes to.
fn applied(function: &str, terms: &[String], none: &str) -> String {
    match terms {
        [] => none.to_string(),
        [term] => term.clone(),
        _ => format!("({function} {})", terms.join(" ")),
    }
}

/// The regular language of one letter: letters that follow on each other are a range.
fn letters(sheet: &Sheet) -> String {
    let mut runs: Vec<(u8, u8)> = Vec::new();
    for &letter in &sheet.letters {
        match runs.last_mut() {
            Some(run) if run.1 + 1 == letter => run.1 = letter,
            _ => runs.push((letter, letter)),
        }
    }
    let ranges = runs.into_iter().map(|(first, last)| match first == last {
        true => format!("(str.to_re {})", quoted(first)),
        false => format!("(re.range {} {})", quoted(first), quoted(last)),
    });
    applied("re.union", &ranges.collect::<Vec<_>>(), "re.none")
}

/// What a template spells.
fn spelled(sheet: &Sheet, template: &Template) -> String {
    let symbols = template.iter().map(|&symbol| match symbol {
        Symbol::Letter(letter) => quoted(sheet.letters[usize::from(letter)]),
        Symbol::Field(field) => format!("f{field}"),
    });
    applied("str.++", &symbols.collect::<Vec<_>>(), "\"\"")
}

/// A letter as a string. In SMT-LIB a quote ends one, and a backslash may begin an escape.
fn quoted(letter: u8) -> String {
    match letter {
        b'"' | b'\\' => format!("\"\\u{{{letter:x}}}\""),
        _ => format!("\"{}\"", char::from(letter)),
    }
}

/// What a rule compares with its limit.
fn sum(rule: &Rule) -> String {
    let terms = rule.coefficients.iter().enumerate();
    let terms = terms.map(|(field, &coefficient)| {
        format!("(* {} (str.len f{field}))", number(coefficient.into()))
    });
    applied("+", &terms.collect::<Vec<_>>(), "0")
}

fn number(number: i32) -> String {
    if number < 0 {
        format!("(- {})", -number)
    } else {
        number.to_string()
    }
}
