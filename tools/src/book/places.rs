//! Where each part of a book stands in its text.

use super::form::Part;
use crate::source::Place;

pub struct Places {
    pub letters: Vec<Place>,
    pub templates: Vec<TemplatePlaces>,
    /// Where the text ends.
    pub end: Place,
}

pub struct TemplatePlaces {
    /// Of the name.
    pub start: Place,
    /// Where each field is given its limit, and where that stands.
    pub fields: Vec<Place>,
    pub limits: Vec<Place>,
    pub symbols: Vec<Place>,
}

impl Places {
    /// The place of a part. Of a count, that of the first that is too many, or the end of the text where there are too few.
    pub fn of(&self, part: Part) -> Place {
        let template = |number: usize| self.templates.get(number);
        let place = match part {
            Part::Opening => None,
            Part::LetterCount => self.letters.get(lunthegyr::LETTERS_MOST),
            Part::Letter(number) => self.letters.get(number),
            Part::TemplateCount => template(lunthegyr::TEMPLATES_MOST).map(|places| &places.start),
            Part::FieldCount(number) => {
                template(number).and_then(|it| it.fields.get(lunthegyr::TEMPLATE_FIELDS_MOST))
            }
            Part::Limit(number, field) => template(number).and_then(|it| it.limits.get(field)),
            Part::SymbolCount(number) => {
                template(number).and_then(|it| it.symbols.get(lunthegyr::SYMBOLS_MOST))
            }
            Part::Symbol(number, place) => template(number).and_then(|it| it.symbols.get(place)),
        };
        *place.unwrap_or(&self.end)
    }
}
