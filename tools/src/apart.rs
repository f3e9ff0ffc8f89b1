//! Says that a sheet is apart: what was asked, and what the answer rests on.

use crate::form::{Form, Pair, Symbol};
use crate::input::Input;
use lunthegyr::Sheet;

/// The verdict's lines.
pub fn lines(input: &Input) -> Vec<String> {
    let pairs = input.form.pairs.len();
    let keeping = match input.form.rules.is_empty() {
        true => "",
        false => " and keep the rules",
    };
    let all = match pairs {
        2 => "both pairs".to_string(),
        _ => format!("all {pairs} pairs"),
    };
    let mut text = match pairs {
        1 => format!("apart: no texts in the fields make both templates spell the same{keeping}\n"),
        _ => format!(
            "\
apart, taken together: no texts in the fields make {all} spell the same at once{keeping}
ONE PAIR ALONE MAY STILL CLASH: to ask, put each pair alone on a sheet.
"
        ),
    };
    if !rules_can_hold(&input.form) {
        text += "\
NO TEXTS AT ALL KEEP THE RULES, so this says nothing about the templates. Mend the rules.
";
    }
    text += "\nWhat was asked, read back from the sheet's bytes:\n";
    for line in read_back(input).text().lines() {
        text += &format!("  {line}\n");
    }
    text += &format!("\nWhat the answer rests on:\n{}", reasons(input));
    text.lines().map(str::to_string).collect()
}

/// The sheet that the engine was given, with the names that its bytes do not know.
fn read_back(input: &Input) -> Form {
    let mut form = Form::of_accepted(input.sheet.bytes());
    for (read, field) in form.fields.iter_mut().zip(&input.form.fields) {
        read.name = field.name.clone();
    }
    form
}

fn reasons(input: &Input) -> String {
    let mut text = format!(
        "\
- The search's source is proved, for every accepted sheet, to find a clash if there is one
  (search-answers-clash-exactly in crates/calls/proofs/Demands.antt). Fillings here: {}.
- Longer texts and other templates are not covered.
",
        fillings(input)
    );
    if !input.form.rules.is_empty() {
        text += "\
- It counts only where panels always keep the rules. Nothing here makes them keep them.
";
    }
    for name in on_both_sides(&input.form) {
        text += &format!(
            "\
- {{{name}}} stands in both templates of a pair, with one text: reports that differ there were not
  compared. For reports of two shops give each template fields of its own.
"
        );
    }
    text += "\
- This tool is not proved. The search program is: `tools/build search` builds it, and `target/bin/search` takes
  the bytes that `tools/lunthegyr bytes` writes. docs/APART.md tells what is proved, tested and assumed.
";
    text
}

/// Whether any texts keep the rules. The engine is asked, with two empty templates as the only pair.
pub fn rules_can_hold(form: &Form) -> bool {
    let alone = Form {
        letters: form.letters.clone(),
        fields: form.fields.clone(),
        pairs: vec![Pair {
            left: Vec::new(),
            right: Vec::new(),
        }],
        rules: form.rules.clone(),
    };
    let sheet = Sheet::read(alone.sheet()).expect("an accepted sheet with another pair");
    sheet.search().is_some()
}

/// The names of the fields that stand in both templates of a pair.
fn on_both_sides(form: &Form) -> Vec<&str> {
    let both = |field: usize| {
        let symbol = Symbol::Field(field);
        let stands = |pair: &Pair| pair.left.contains(&symbol) && pair.right.contains(&symbol);
        form.pairs.iter().any(stands)
    };
    let fields = form.fields.iter().enumerate();
    let fields = fields.filter(|(number, _)| both(*number));
    fields.map(|(_, field)| field.name.as_str()).collect()
}

/// How many fillings there are.
fn fillings(input: &Input) -> String {
    let letters = input.form.letters.len() as f64;
    let texts = |limit: u64| {
        (0..=limit)
            .map(|length| letters.powi(length as i32))
            .sum::<f64>()
    };
    let all: f64 = input
        .form
        .fields
        .iter()
        .map(|field| texts(field.limit))
        .product();
    // Up to there a float holds every whole number.
    if all < 9e15 {
        in_threes(all as u64)
    } else {
        format!("about {all:.1e}")
    }
}

/// A number with a comma before every three digits but the first.
fn in_threes(n: u64) -> String {
    match n {
        0..=999 => n.to_string(),
        _ => format!("{},{:03}", in_threes(n / 1000), n % 1000),
    }
}
