//! Writes a book in the text form, so that reading it gives the same bytes.

use super::form::{Form, Template};
use super::parse::UNUSED;
use crate::form::{Field, Symbol};
use crate::letters;

impl Form {
    /// The whole book, line by line.
    pub fn text(&self) -> String {
        let mut text = letters::written(&self.letters) + "\n";
        for template in &self.templates {
            let line = format!(
                "template {} {}",
                template.name,
                self.template_text(template)
            );
            text += &format!("{}\n", line.trim_end());
        }
        text
    }

    /// A template from the `=` on; or from its list of fields on, which it has only where their order asks for it.
    pub fn template_text(&self, template: &Template) -> String {
        let used = template.used_in_order();
        let mut new = vec![used.is_some(); template.fields.len()];
        let mut symbols = String::new();
        for &symbol in &template.symbols {
            symbols += &match symbol {
                Symbol::Letter(letter) => letters::escaped(self.letters[letter]),
                Symbol::Field(field) => match std::mem::take(&mut new[field]) {
                    true => in_braces(&template.fields[field]),
                    false => format!("{{{}}}", template.fields[field].name),
                },
            };
        }
        let symbols = as_letters(symbols);
        match used.map(|used| &template.fields[used..]) {
            Some([]) => format!("= {symbols}"),
            Some(unused) => {
                let unused: String = unused.iter().map(in_braces).collect();
                let space = if symbols.is_empty() { "" } else { " " };
                format!("= {symbols}{space}{UNUSED} {unused}")
            }
            None => {
                let fields: Vec<String> = template.fields.iter().map(with_limit).collect();
                format!("({}) = {symbols}", fields.join(", "))
            }
        }
    }
}

/// Symbols that are not taken for the word `unused`. They have no spaces, so only their start can be, after the space that goes before them.
fn as_letters(mut symbols: String) -> String {
    if symbols.starts_with(UNUSED) {
        symbols.insert(1, ' ');
    }
    symbols
}

fn in_braces(field: &Field) -> String {
    format!("{{{}}}", with_limit(field))
}

fn with_limit(field: &Field) -> String {
    format!("{} {}", field.name, field.limit)
}

impl Template {
    /// How many of its fields stand in it, if they first come in the order of their numbers and all others are numbered after them.
    fn used_in_order(&self) -> Option<usize> {
        let mut met = 0;
        for symbol in &self.symbols {
            match *symbol {
                Symbol::Field(field) if field > met => return None,
                Symbol::Field(field) if field == met => met += 1,
                _ => {}
            }
        }
        Some(met)
    }
}

#[cfg(test)]
mod tests {
    use super::super::{parse, random::Random};
    use super::*;
    use crate::file::{kind_of_text, Kind};
    use lunthegyr::Book;

    /// The bytes of a book's text.
    fn bytes_of(text: &str) -> Vec<u8> {
        let read = parse::parse(text).unwrap_or_else(|fault| panic!("{}: {text}", fault.message));
        read.form.book()
    }

    #[test]
    fn random_books_come_back_from_their_text() {
        let mut random = Random::new();
        let (mut plain, mut unused, mut listed, mut letters) = (0, 0, 0, 0);
        for _ in 0..1000 {
            let bytes = random.book();
            let form = Form::of_accepted(&Book::read(bytes.clone()).expect("within the ranges"));
            let text = form.text();
            assert_eq!(bytes_of(&text), bytes, "{text}");
            assert!(kind_of_text(&text).expect("one kind") == Some(Kind::Book));
            for template in &form.templates {
                match template.used_in_order() {
                    None => listed += 1,
                    Some(used) if used < template.fields.len() => unused += 1,
                    Some(_) => plain += 1,
                }
            }
            letters += text.matches("= u nused").count();
        }
        let counts = [plain, unused, listed, letters];
        assert!(counts.iter().all(|&times| times > 200), "{counts:?}");
    }

    #[test]
    fn the_plain_form_is_written_where_it_says_the_same() {
        let same = |lines: &str| {
            let text = format!("letters 0 1\n{lines}\n");
            let form = parse::parse(&text).unwrap().form;
            assert_eq!(form.text(), text);
        };
        same("template x = 0{a 4}{b 0}{a}");
        same("template x = {a 4}{a}{b 1}1{c 2}{b}");
        same("template x =\ntemplate y = 1");
        same("template x = 0 unused {a 4}");
        same("template x = unused {a 4}{b 0}{c 8}");
        same("template x = {a 4}1{a} unused {b 1}{c 2}");
        same("template x (b 4, a 1) = {a}{b}");
        same("template x (a 4, b 1, c 2) = {a}{c}");
        // Fields that are declared though their symbols tell the same.
        let form = parse::parse("letters 0\ntemplate x (a 4) = {a}{b 1}\n")
            .unwrap()
            .form;
        assert_eq!(form.text(), "letters 0\ntemplate x = {a 4}{b 1}\n");
    }

    #[test]
    fn the_letters_of_a_word_are_not_taken_for_it() {
        let again = |line: &str| {
            let text = format!("letters d e n s u\ntemplate x{line}\n");
            let form = parse::parse(&text).unwrap().form;
            let written = form.text();
            assert_eq!(bytes_of(&written), form.book());
            let start = "letters d e n s u\ntemplate x";
            written.strip_prefix(start).unwrap().trim_end().to_string()
        };
        // As letters.
        for line in [
            "=unused",
            "= u nused",
            "= \\unused",
            "= u n u s e d",
            "= unuse d",
        ] {
            assert_eq!(again(line), " = u nused");
        }
        assert_eq!(again("=unused{a 1}"), " = u nused{a 1}");
        assert_eq!(again("= unusedd"), " = u nusedd");
        assert_eq!(again("= d unusedd"), " = dunusedd");
        assert_eq!(again("= {a 1}unused {b 2}"), " = {a 1}unused{b 2}");
        assert_eq!(again(" (b 2, a 1) =unused {a}"), " (b 2, a 1) = u nused{a}");
        // As the word, and both.
        assert_eq!(again("= unused{a 1}"), " = unused {a 1}");
        assert_eq!(again("=\tunused\t{a 1} {b 2} # d"), " = unused {a 1}{b 2}");
        assert_eq!(again("=unused unused {a 1}"), " = u nused unused {a 1}");
        assert_eq!(
            again("= {unused 1} unused {u 2}"),
            " = {unused 1} unused {u 2}"
        );
        assert_eq!(
            again(" (b 2, a 1) = {a} unused {c 3}"),
            " (b 2, a 1, c 3) = {a}"
        );
    }
}
