//! Says what a SAT solver says of the sheet's question, and whether that agrees with the search.

use crate::input::Input;
use crate::solver::{self, Opinion, KNOWN};
use crate::verdict;
use lunthegyr::{Filling, Sheet};

/// Which solver to ask.
pub enum Choice {
    /// The first that is installed.
    Any,
    Named(String),
}

impl Choice {
    /// The solver's name, if it is known here and installed.
    pub fn name(&self) -> Result<String, String> {
        let known = KNOWN.join(", ");
        match self {
            Choice::Any => {
                let there = KNOWN.iter().find(|name| solver::installed(name));
                let none = format!("no solver is installed of {known}; Debian has a package of each name: apt-get install cadical");
                there.map(|name| name.to_string()).ok_or(none)
            }
            Choice::Named(name) if !KNOWN.contains(&name.as_str()) => Err(format!("no such solver is known here: {name} (known: {known})")),
            Choice::Named(name) if !solver::installed(name) => {
                Err(format!("{name} is not installed; Debian has a package of this name: apt-get install {name}"))
            }
            Choice::Named(name) => Ok(name.clone()),
        }
    }
}

/// Asks the solver. Answers whether what it says agrees with what the search found, and lines that tell it; an error is told in words.
pub fn of(
    input: &Input,
    found: &Option<Filling>,
    name: &str,
) -> Result<(bool, Vec<String>), String> {
    let counts = input.sheet.clause_counts();
    let question = format!(
        "{} clauses over {} variables",
        counts.clauses, counts.variables
    );
    eprintln!("asking {name}: {question} ..");
    let answer = answer(name, &input.sheet)?;
    let mut lines = vec![
        String::new(),
        format!("second opinion: {name}, on the same question as {question}"),
    ];
    lines.push(match &answer {
        Some(filling) => format!(
            "  says SATISFIABLE, and its reply hands over a clash, which the engine checked: {}",
            texts(input, filling)
        ),
        None => "  says UNSATISFIABLE. Nothing here checks a solver's word for that.".to_string(),
    });
    lines.push(match (found.is_some(), answer.is_some()) {
        (true, true) | (false, false) => {
            "  The two agree. Both were asked about the same bytes.".to_string()
        }
        (true, false) => {
            format!("  THE TWO DISAGREE. The clash above was checked, so {name} is wrong.")
        }
        (false, true) => {
            "  THE TWO DISAGREE. This clash was checked, so `apart` above is WRONG. Do not use it."
                .to_string()
        }
    });
    let agree = found.is_some() == answer.is_some();
    Ok((agree, lines))
}

/// The solver's answer: a clash that the engine checked, or none. If it gave none, why in words.
pub fn answer(name: &str, sheet: &Sheet) -> Result<Option<Filling>, String> {
    match solver::ask(name, sheet).map_err(|error| format!("{name}: {error}"))? {
        Opinion::Clash(filling) => Ok(Some(filling)),
        Opinion::Unsatisfiable => Ok(None),
        Opinion::Refused(refusal) => Err(format!("what {name} replied is not taken: {refusal}")),
        Opinion::Nothing(status) => Err(format!("{name} gave no answer ({status})")),
    }
}

/// All texts in a line.
fn texts(input: &Input, filling: &Filling) -> String {
    let fields = input.form.fields.iter().enumerate();
    let texts = fields
        .map(|(number, field)| format!("{}={}", field.name, verdict::text(input, filling, number)));
    let texts: Vec<String> = texts.collect();
    if texts.is_empty() {
        "the sheet has no fields".to_string()
    } else {
        texts.join(" ")
    }
}
