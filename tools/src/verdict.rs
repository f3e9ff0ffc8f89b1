//! Says what the engine finds in a sheet: a clash, field by field and drawn pair by pair; or apart.

use crate::apart;
use crate::draw::{self, Piece};
use crate::form::{self, Symbol};
use crate::input::Input;
use lunthegyr::{Checked, Filling, Side};

/// The clash that is found, or none, and the verdict's lines.
pub fn of(input: &Input) -> (Option<Filling>, Vec<String>) {
    let mut lines = vec![heading(input), String::new()];
    let found = input.sheet.search();
    lines.extend(match &found {
        Some(filling) => clash(input, filling),
        None => apart::lines(input),
    });
    (found, lines)
}

/// The sheet's name and how much it has.
pub fn heading(input: &Input) -> String {
    let form = &input.form;
    let counts = [
        some(form.letters.len(), "letter"),
        some(form.fields.len(), "field"),
        some(form.pairs.len(), "pair"),
        some(form.rules.len(), "rule"),
    ];
    format!("{}: {}", input.name, counts.join(", "))
}

/// A number of things, in the plural unless it is 1.
pub fn some(n: usize, thing: &str) -> String {
    format!("{n} {thing}{}", if n == 1 { "" } else { "s" })
}

fn clash(input: &Input, filling: &Filling) -> Vec<String> {
    assert!(
        input.sheet.check(filling) == Ok(Checked::Clash),
        "the engine hands over what it does not pass"
    );
    let with = match input.form.fields.is_empty() {
        true => "as they stand",
        false => "with these texts",
    };
    let templates = match input.form.pairs.len() {
        1 => "both templates".to_string(),
        pairs => format!("both templates of each of the {pairs} pairs"),
    };
    let rules = match input.form.rules.is_empty() {
        true => "",
        false => ", and every rule holds",
    };
    let mut lines = vec![format!("clash: {with} {templates} spell the same{rules}")];
    let names = input.form.fields.iter();
    let wide = names.map(|field| field.name.chars().count()).max();
    for (number, field) in input.form.fields.iter().enumerate() {
        if number == 0 {
            lines.push(String::new());
        }
        let text = text(input, filling, number);
        let wide = wide.unwrap_or(0);
        lines.push(format!("  {:<wide$}  {}", field.name, or_empty(&text)));
    }
    for number in 0..input.form.pairs.len() {
        lines.push(String::new());
        let line = input.line_of(|places| places.pairs[number].start);
        lines.push(format!("pair {number}{line}"));
        lines.extend(drawn(input, filling, number, ["left", "right"]));
    }
    lines.push(String::new());
    let fields = input.form.fields.iter().enumerate();
    let empty = fields.filter(|(number, _)| filling.letters(*number).is_empty());
    if let Some((_, field)) = empty.last() {
        lines.push(format!(
            "A field may be empty, unless a rule says that it is not: rule len({}) >= 1",
            field.name
        ));
    }
    lines.push(
        "This is the first clash; there may be others. After any change, ask again.".to_string(),
    );
    lines
}

/// The text of a field.
pub fn text(input: &Input, filling: &Filling, field: usize) -> String {
    let text = input.sheet.text(field, filling);
    let text = text.expect("a filling of the sheet");
    text.into_iter().map(char::from).collect()
}

fn or_empty(text: &str) -> &str {
    if text.is_empty() {
        "(empty)"
    } else {
        text
    }
}

/// The text that both templates of a pair spell, as the engine spells it.
pub fn spelled(input: &Input, filling: &Filling, number: usize) -> Vec<u8> {
    let [left, right] = [Side::Left, Side::Right].map(|side| {
        let text = input.sheet.spell(number, side, filling);
        text.expect("a pair of the sheet and a filling of it")
    });
    assert!(
        left == right,
        "the engine passes a filling with which two texts differ"
    );
    left
}

/// How the two templates of a pair, of these names, meet.
pub fn drawn(input: &Input, filling: &Filling, number: usize, names: [&str; 2]) -> Vec<String> {
    let text = spelled(input, filling, number);
    let pieces = |side| {
        let symbols = input.form.pairs[number].side(side).iter();
        let pieces: Vec<Piece> = symbols
            .map(|&symbol| piece(input, filling, symbol))
            .collect();
        pieces
    };
    let (left, right) = (pieces(form::Side::Left), pieces(form::Side::Right));
    let lines = draw::drawing(names, &left, &text, &right);
    let further = |line: &String| format!("  {line}").trim_end().to_string();
    lines.iter().map(further).collect()
}

fn piece(input: &Input, filling: &Filling, symbol: Symbol) -> Piece {
    match symbol {
        Symbol::Letter(letter) => Piece {
            label: char::from(input.form.letters[letter]).to_string(),
            letters: 1,
        },
        Symbol::Field(field) => Piece {
            label: input.form.label(symbol),
            letters: filling.letters(field).len(),
        },
    }
}
