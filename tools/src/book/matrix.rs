//! Shows which templates of a book clash as a table with a row and a column for each, and what each template is.

use super::form::{Form, Template};
use super::input::{Input, Standing};
use lunthegyr::Clashing;

const CLASH: &str = "X";
const NEVER_BOTH: &str = "h";
const APART: &str = ".";
const ITSELF: &str = "-";

/// The most of a template's name that is shown; the number beside it tells which one it is.
const MOST_NAME: usize = 30;
/// The widest line. What the templates are stands beside their rows if that makes none wider, and else under the table.
pub const MOST_WIDE: usize = 110;
const BESIDE: &str = "   ";

/// The table's lines.
pub fn lines(input: &Input) -> Vec<String> {
    let (labels, texts) = (labels(&input.form), texts(&input.form));
    let all = 0..labels.len();
    let heads = all.clone().map(|column| column.to_string());
    let mut table = vec![" ".repeat(widest(&labels)) + &cells(heads)];
    for row in all.clone() {
        let marks = all.clone().map(|column| mark(input, row, column));
        table.push(labels[row].clone() + &cells(marks));
    }
    if widest(&table) + BESIDE.len() + widest(&texts) <= MOST_WIDE {
        for (line, text) in table[1..].iter_mut().zip(&texts) {
            *line += BESIDE;
            *line += text;
        }
    } else {
        table.push(String::new());
        let rows = labels.into_iter().zip(&texts);
        table.extend(rows.map(|(label, text)| label + text));
    }
    table
}

/// Each template's number and name, all of the same width.
pub fn labels(form: &Form) -> Vec<String> {
    let names = form.templates.iter().map(|template| short(&template.name));
    let names: Vec<String> = names.collect();
    let wide = widest(&names);
    let names = names.iter().enumerate();
    let label = |(number, name)| format!("  {number:2}  {name:<wide$}  ");
    names.map(label).collect()
}

/// Each template as it stands in the text form after its name, or that it is empty.
fn texts(form: &Form) -> Vec<String> {
    let text = |template: &Template| {
        let text = form.template_text(template);
        match text.strip_prefix("= ") {
            Some("") => "(empty)".to_string(),
            Some(symbols) => symbols.to_string(),
            None => text,
        }
    };
    form.templates.iter().map(text).collect()
}

/// Of a template's name as much as is shown.
pub fn short(name: &str) -> String {
    match name.len() {
        0..=MOST_NAME => name.to_string(),
        _ => format!("{}..", &name[..MOST_NAME - 2]),
    }
}

fn widest(lines: &[String]) -> usize {
    lines.iter().map(String::len).max().unwrap_or(0)
}

/// A row of the table after its label.
fn cells<T: ToString>(cells: impl Iterator<Item = T>) -> String {
    cells
        .map(|cell| format!("{:>3}", cell.to_string()))
        .collect()
}

fn mark(input: &Input, row: usize, column: usize) -> &'static str {
    let (first, second) = (row.min(column), row.max(column));
    if first == second {
        return ITSELF;
    }
    match input.standing(Clashing { first, second }) {
        Standing::Clash => CLASH,
        Standing::NeverBoth => NEVER_BOTH,
        Standing::Apart => APART,
    }
}
