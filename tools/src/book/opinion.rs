//! Says what a SAT solver says of every two templates, and whether that agrees with the engine.

use super::input::Input;
use super::question;
use super::verdict::{names, spelled_text};
use crate::opinion;
use lunthegyr::Clashing;

/// How a solver's answers stand beside the engine's.
#[derive(Clone, Copy, PartialEq)]
pub enum Outcome {
    Agree,
    /// To some question it gave no answer.
    Undecided,
    Disagree,
}

/// Asks the solver about each pair, and answers how that ends, with lines that tell it.
pub fn of(input: &Input, name: &str) -> (Outcome, Vec<String>) {
    let pairs = input.pairs();
    let all = pairs.len();
    eprintln!("asking {name} about each of the {all} pairs ..");
    let (mut outcomes, mut told) = (Vec::new(), Vec::new());
    for pair in pairs {
        let (outcome, words) = of_pair(input, pair, name);
        if outcome != Outcome::Agree {
            told.push(format!("  {}: {words}", names(input, pair)));
        }
        outcomes.push(outcome);
    }
    let agrees = match told.len() {
        0 => "agrees on each. Nothing here checks a solver's word for apart.".to_string(),
        some => format!("agrees on {}", all - some),
    };
    let asked = match input.hours {
        Some(_) => "pairs without hours",
        None => "pairs",
    };
    let opinion =
        format!("second opinion: {name}, asked about each of the {all} {asked}, {agrees}");
    let mut lines = vec![String::new(), opinion];
    lines.extend(told);
    let worst = [Outcome::Disagree, Outcome::Undecided];
    let worst = worst.into_iter().find(|outcome| outcomes.contains(outcome));
    (worst.unwrap_or(Outcome::Agree), lines)
}

/// How the solver's answer about a pair stands beside the engine's, and words on it where they do not agree.
fn of_pair(input: &Input, pair: Clashing, name: &str) -> (Outcome, String) {
    let question = question::of(input, pair);
    let clash = input.book.clashes().contains(&pair);
    match opinion::answer(name, &question.sheet) {
        Ok(found) if found.is_some() == clash => (Outcome::Agree, String::new()),
        Ok(None) => (
            Outcome::Disagree,
            format!("THE TWO DISAGREE. {name} says UNSATISFIABLE. The clash above was checked, so {name} is wrong."),
        ),
        Ok(Some(filling)) => {
            let text = spelled_text(&question, &filling);
            (
                Outcome::Disagree,
                format!("THE TWO DISAGREE. {name} hands over a clash, which the engine checked: both spell {text}. So `apart` above is WRONG. Do not use it."),
            )
        }
        Err(why) => (Outcome::Undecided, why),
    }
}
