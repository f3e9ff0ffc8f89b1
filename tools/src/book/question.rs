//! The question of two templates of a book, as the sheet that the engine is asked about.

use super::input::Input;
use crate::form::{Field, Form};
use crate::hours::{shared, text};
use crate::input::Input as SheetInput;
use lunthegyr::Clashing;

/// For what shows sheets. Fields have the names that they have in their own templates.
pub fn of(input: &Input, pair: Clashing) -> SheetInput {
    let names = fields(input, pair).map(|field| field.name.clone());
    let sheet = input.book.question(pair.first, pair.second);
    let form = named(Form::of_accepted(sheet.bytes()), names);
    SheetInput {
        name: input.name.clone(),
        sheet,
        form,
        places: None,
    }
}

/// In the text form of sheets, with a name of its own for each field. The templates are given by name or number; what is wrong is told in words.
pub fn text(input: &Input, templates: [&str; 2]) -> Result<String, String> {
    let [first, second] = templates.map(|word| number(input, word));
    let (first, second) = (first?, second?);
    if first >= second {
        return Err(format!("{}: --sheet takes two templates in the order of the book, and {first} is not before {second}", input.name));
    }
    let sheet = input.book.question(first, second);
    let names = different(fields(input, Clashing { first, second }));
    let form = named(Form::of_accepted(sheet.bytes()), names.into_iter());
    let [left, right] = [first, second].map(|number| &input.form.templates[number].name);
    let sides = format!("# {left} on the left, {right} on the right\n");
    Ok(sides + &hours(input, [first, second]) + &form.text())
}

/// What a sheet cannot say, as a comment: when the two are sent, if the book has hours.
fn hours(input: &Input, templates: [usize; 2]) -> String {
    match &input.hours {
        None => String::new(),
        Some(hours) => {
            let [first, second] = templates.map(|number| hours.windows(number));
            let words = "# a sheet has no hours; in the book";
            let told = match &shared::windows(first, second)[..] {
                [] => vec![format!("{words} the two are never sent in the same minute")],
                shared => text::sent(&format!("{words} both are sent"), shared, usize::MAX),
            };
            told.join("\n") + "\n"
        }
    }
}

/// The number of a template that is given by its name or number.
fn number(input: &Input, word: &str) -> Result<usize, String> {
    let templates = &input.form.templates;
    let named = templates.iter().position(|template| template.name == word);
    let numbered = || word.parse().ok().filter(|&number| number < templates.len());
    named.or_else(numbered).ok_or_else(|| {
        let last = templates.len() - 1;
        format!(
            "{}: no template is called {word} or has this number (0 to {last}: {})",
            input.name,
            input.form.names().join(", ")
        )
    })
}

/// The fields of two templates, one after the other.
fn fields(input: &Input, pair: Clashing) -> impl Iterator<Item = &Field> {
    let templates = [pair.first, pair.second].map(|number| &input.form.templates[number]);
    templates.into_iter().flat_map(|template| &template.fields)
}

/// A sheet with other names for its fields.
fn named(mut form: Form, names: impl Iterator<Item = String>) -> Form {
    for (field, name) in form.fields.iter_mut().zip(names) {
        field.name = name;
    }
    form
}

/// The fields' names, no two the same. Of a name that stands twice the first gets a 1 and the second a 2, after underlines where these names
/// are taken.
fn different<'a>(fields: impl Iterator<Item = &'a Field>) -> Vec<String> {
    let mut names: Vec<String> = fields.map(|field| field.name.clone()).collect();
    for first in 0..names.len() {
        let name = names[first].clone();
        if let Some(second) = (first + 1..names.len()).find(|&other| names[other] == name) {
            let mut stem = name;
            while ["1", "2"]
                .iter()
                .any(|end| names.contains(&format!("{stem}{end}")))
            {
                stem.push('_');
            }
            names[first] = format!("{stem}1");
            names[second] = format!("{stem}2");
        }
    }
    names
}

#[cfg(test)]
mod tests {
    use super::super::{form, random::Random};
    use super::*;
    use crate::parse;
    use lunthegyr::Book;

    /// A random book of two templates or more, with names that meet when a 1, a 2 or an underline is added.
    fn input(random: &mut Random) -> Input {
        const NAMES: [&str; 9] = ["a", "a1", "a2", "a_", "a_1", "a__", "a11", "b", "b1"];
        let book = loop {
            let book = Book::read(random.book()).expect("within the ranges");
            if book.templates() > 1 {
                break book;
            }
        };
        let mut form = form::Form::of_accepted(&book);
        for template in &mut form.templates {
            let from = random.below(NAMES.len());
            let step = 1 + random.below(2);
            for (number, field) in template.fields.iter_mut().enumerate() {
                field.name = NAMES[(from + step * number) % NAMES.len()].to_string();
            }
        }
        Input {
            name: "random".to_string(),
            book,
            form,
            hours: None,
        }
    }

    #[test]
    fn a_question_as_text_has_the_bytes_of_the_question() {
        let mut random = Random::new();
        let mut numbered = 0;
        for _ in 0..1000 {
            let input = input(&mut random);
            let second = 1 + random.below(input.book.templates() - 1);
            let first = random.below(second);
            let words = [first.to_string(), format!("t{second}")];
            let text = text(&input, [&words[0], &words[1]]).expect("two templates in order");
            let read =
                parse::parse(&text).unwrap_or_else(|fault| panic!("{}: {text}", fault.message));
            let question = input.book.question(first, second);
            assert_eq!(read.form.sheet(), question.bytes(), "{text}");
            let names = fields(&input, Clashing { first, second });
            let kept = names
                .zip(&read.form.fields)
                .all(|(own, field)| own.name == field.name);
            numbered += usize::from(!kept);
        }
        assert!((100..900).contains(&numbered), "{numbered}");
    }

    #[test]
    fn only_names_that_stand_twice_are_changed() {
        let fields = ["shop", "zone", "shop1", "shop", "staff", "shop_"].map(|name| Field {
            name: name.to_string(),
            limit: 1,
        });
        let due = ["shop_1", "zone", "shop1", "shop_2", "staff", "shop_"];
        assert_eq!(different(fields.iter()), due);
    }
}
