//! Asks the engine about one filling that a person gives: what each template spells with it, whether it clashes, and why if it does not.

use crate::cause::{self, Texts};
use crate::input::Input;
use lunthegyr::{Cause, Checked, Filling, Side};

/// The filling that words such as `staff=12` give. Fields that are not named are empty. What is wrong is told in words.
pub fn filling(input: &Input, words: &[String]) -> Result<Filling, String> {
    let form = &input.form;
    let mut texts: Vec<Option<Vec<u8>>> = vec![None; form.fields.len()];
    for word in words {
        let (name, text) = match word.split_once('=') {
            Some(parts) => parts,
            None => return Err(format!("{word}: a field's text is given as NAME=TEXT")),
        };
        let field = form.fields.iter().position(|field| field.name == name);
        let field = field.ok_or_else(|| format!("{word}: {} has no field {name}", input.name))?;
        let letter = |c: char| {
            let number = form
                .letters
                .iter()
                .position(|&letter| char::from(letter) == c);
            let number =
                number.ok_or_else(|| format!("{word}: {c} is not a letter of {}", input.name))?;
            Ok(number as u8)
        };
        let letters: Result<Vec<u8>, String> = text.chars().map(letter).collect();
        if texts[field].replace(letters?).is_some() {
            return Err(format!("{word}: {name} has a text already"));
        }
    }
    let texts: Vec<Vec<u8>> = texts.into_iter().map(Option::unwrap_or_default).collect();
    let slices: Vec<&[u8]> = texts.iter().map(Vec::as_slice).collect();
    let most = lunthegyr::FIELD_PLACES;
    Filling::from_letters(&slices)
        .ok_or_else(|| format!("no field's text may have more than {most} letters"))
}

/// Whether what the engine says of a filling fits the texts that it spells, and lines that tell it; or its refusal in words.
pub fn verdict(input: &Input, filling: &Filling) -> Result<(bool, Vec<String>), String> {
    let checked = input.sheet.check(filling);
    let checked = checked.map_err(|refusal| format!("{refusal}{}", too_long(input, filling)))?;
    let fields = 0..input.form.fields.len();
    let lengths: Vec<usize> = fields.map(|field| filling.letters(field).len()).collect();
    let pairs = 0..input.form.pairs.len();
    let pairs: Vec<Texts> = pairs.map(|pair| texts(input, filling, pair)).collect();
    let expected = cause::expected(&pairs, &input.form.rules, &lengths);
    let mut lines = empty(input, &lengths);
    lines.extend(match checked == expected {
        true => told(input, checked, &pairs, &lengths),
        false => doubted(input, checked, expected, &pairs),
    });
    Ok((checked == expected, lines))
}

/// What both templates of a pair spell.
fn texts(input: &Input, filling: &Filling, pair: usize) -> Texts {
    [Side::Left, Side::Right].map(|side| {
        let text = input.sheet.spell(pair, side, filling);
        let text = text.expect("a pair of the sheet and a filling of it");
        text.into_iter().map(char::from).collect()
    })
}

/// Which fields are empty, if any.
fn empty(input: &Input, lengths: &[usize]) -> Vec<String> {
    let fields = input.form.fields.iter().zip(lengths);
    let empty = fields.filter(|(_, &length)| length == 0);
    let names: Vec<&str> = empty.map(|(field, _)| field.name.as_str()).collect();
    match names.is_empty() {
        true => Vec::new(),
        false => vec![format!("empty: {}", names.join(", "))],
    }
}

/// All pairs, with what is left over under the first that differs; then the first rule that does not hold, if that is why; and the verdict.
fn told(input: &Input, checked: Checked, pairs: &[Texts], lengths: &[usize]) -> Vec<String> {
    let mut lines = Vec::new();
    for (number, texts) in pairs.iter().enumerate() {
        lines.extend(cause::pair(input, number, texts));
        match checked {
            Checked::NoClash(Cause::PairDiffers {
                pair,
                agreeing,
                side,
                rest,
            }) if pair == number => lines.extend(cause::parting(texts, agreeing, side, rest)),
            _ => {}
        }
    }
    let verdict = match checked {
        Checked::Clash => "clash",
        Checked::NoClash(Cause::PairDiffers { .. }) => {
            "no clash with these texts; others may clash, and `check` asks about all"
        }
        Checked::NoClash(Cause::RuleBroken { rule }) => {
            lines.extend(cause::rule(input, rule, lengths));
            "THE TEXTS ARE THE SAME, and it is no clash only because a rule does not hold"
        }
    };
    lines.push(verdict.to_string());
    lines
}

/// All pairs, and what is said where the engine's answer does not fit them.
fn doubted(input: &Input, checked: Checked, expected: Checked, pairs: &[Texts]) -> Vec<String> {
    let pairs = pairs.iter().enumerate();
    let mut lines: Vec<String> = pairs
        .flat_map(|(number, texts)| cause::pair(input, number, texts))
        .collect();
    lines.push(format!("the engine says: {}", in_words(checked)));
    lines.push(format!("the texts say:   {}", in_words(expected)));
    lines.push("THE TWO DIFFER. One of them is WRONG. Do not use either.".to_string());
    lines
}

fn in_words(checked: Checked) -> String {
    match checked {
        Checked::Clash => "clash".to_string(),
        Checked::NoClash(cause) => format!("no clash, {cause}"),
    }
}

/// Which texts are longer than their limits, if any.
fn too_long(input: &Input, filling: &Filling) -> String {
    let fields = input.form.fields.iter().enumerate();
    let told = fields.filter_map(|(number, field)| {
        let (length, limit) = (filling.letters(number).len(), field.limit);
        let told = format!(
            " ({} has {length} letters, and its limit is {limit})",
            field.name
        );
        (length as u64 > limit).then(|| told)
    });
    told.collect()
}

#[cfg(test)]
mod tests {
    use super::*;
    use crate::file::{Content, File, Kind};
    use crate::input;

    const SHEET: &str = "\
letters A B
field x 3
field y 3
pair {x} = {y}
pair {x}A = A{y}
rule len(x) <= 2
rule len(x) = len(y)
rule len(x) + len(y) > 0
";

    fn sheet() -> Input {
        let file = File {
            name: "sheet".to_string(),
            kind: Kind::Sheet,
            content: Content::Text(SHEET.to_string()),
        };
        input::of(file).unwrap()
    }

    /// All texts of at most three letters, of which there are two.
    fn all_texts() -> Vec<Vec<u8>> {
        let of = |length: u8, n: u8| (0..length).map(|place| n >> place & 1).collect();
        let all = |length: u8| (0..1 << length).map(move |n| of(length, n));
        (0..=3).flat_map(all).collect()
    }

    /// How a verdict ends, and whether a mark stands in it.
    fn outline(lines: &[String]) -> (String, bool) {
        let last = lines[lines.len() - 1].split(' ').next().unwrap_or("");
        let marked = lines.iter().any(|line| line.trim_start() == "^");
        (last.to_string(), marked)
    }

    #[test]
    fn what_the_engine_says_fits_its_texts() {
        let input = sheet();
        let mut outlines = Vec::new();
        for x in all_texts() {
            for y in all_texts() {
                let filling = Filling::from_letters(&[&x, &y]).unwrap();
                let (fits, lines) = verdict(&input, &filling).unwrap();
                assert!(fits, "{lines:?}");
                outlines.push(outline(&lines));
            }
        }
        let count = |last: &str, marked| {
            let one = (last.to_string(), marked);
            outlines.iter().filter(|&outline| *outline == one).count()
        };
        // A and AA clash; nothing and AAA break a rule; and of 15 texts for each field all others differ.
        assert_eq!(count("clash", false), 2);
        assert_eq!(count("THE", false), 2);
        assert_eq!(count("no", true), 15 * 15 - 4);
    }
}
