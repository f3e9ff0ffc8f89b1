//! Changes sheets so that a filling clashes in them, or nearly does. Of sheets made by chance
//! hardly any clash.

use crate::fillings;
use crate::random::Random;
use crate::reader::*;
use crate::speller::{self, Filling};

/// How often a template is sought that spells a text, before the other template is taken for it.
const TRIES: usize = 8;
/// How often a pair of a sheet that clashes is made to differ, and how often a rule is made to break.
const DIFFERING_PERCENT: usize = 30;
const BROKEN_PERCENT: usize = 35;

/// Makes a filling clash: each right template comes to spell what the left one does, and each rule
/// to hold, often only just.
pub fn plant(random: &mut Random, sheet: &mut Sheet, filling: &Filling) {
    for pair in &mut sheet.pairs {
        let text = speller::text(&pair.left, filling);
        let found = (0..TRIES).find_map(|_| template(random, &text, filling, &sheet.limits));
        pair.right = found.unwrap_or_else(|| pair.left.clone());
        if random.chance(50) {
            std::mem::swap(&mut pair.left, &mut pair.right);
        }
    }
    plant_rules(random, sheet, filling);
}

/// A sheet that `make` makes, in which a filling was made to clash, and that filling.
pub fn clashing(random: &mut Random, make: fn(&mut Random) -> Sheet) -> (Sheet, Filling) {
    let mut sheet = make(random);
    let filling = fillings::legal(random, &sheet);
    plant(random, &mut sheet, &filling);
    (sheet, filling)
}

/// Makes one filling fit every other pair and another filling the pairs between, so that a field
/// may need two texts at once. Many pairs come to share a template, and the other one is letters
/// alone, on the same side in all.
pub fn plant_two(random: &mut Random, sheet: &mut Sheet, fillings: &[Filling; 2]) {
    let first = sheet.pairs[0].left.clone();
    let swapped = random.chance(50);
    for (number, pair) in sheet.pairs.iter_mut().enumerate() {
        if random.chance(70) {
            pair.left = first.clone();
        }
        let text = speller::text(&pair.left, &fillings[number % 2]);
        if text.len() <= MOST_SYMBOLS {
            pair.right = text.into_iter().map(Symbol::Letter).collect();
        }
        if swapped {
            std::mem::swap(&mut pair.left, &mut pair.right);
        }
    }
    plant_rules(random, sheet, &fillings[0]);
}

/// Makes a filling of these lengths clash whose texts are parts of one repeating text. Each pair
/// comes to spell such a part, so that its templates can have many fields and still differ. Answers
/// that filling.
pub fn plant_parts(random: &mut Random, sheet: &mut Sheet, lengths: &[u8]) -> Filling {
    let l = sheet.letters.len();
    let repeated: Vec<u8> = (0..random.within(1, 5))
        .map(|_| random.below(l) as u8)
        .collect();
    let filling: Filling = lengths
        .iter()
        .map(|&length| part(random, &repeated, usize::from(length)))
        .collect();
    for pair in &mut sheet.pairs {
        let longest = random.within(MOST_SYMBOLS / 2, GREATEST_WIDTH);
        let text = part(random, &repeated, longest);
        let mut lengths = (0..=longest).rev();
        let found =
            lengths.find_map(|length| two(random, &text[..length], &filling, &sheet.limits));
        *pair = found.expect("two templates for the empty text");
    }
    plant_rules(random, sheet, &filling);
    filling
}

/// A text of this length that begins at any place of a repeated one.
fn part(random: &mut Random, repeated: &[u8], length: usize) -> Vec<u8> {
    let first = random.below(repeated.len());
    let letters = repeated.iter().cycle().skip(first);
    letters.take(length).copied().collect()
}

/// Two templates that spell `text`, if they are soon found.
fn two(random: &mut Random, text: &[u8], filling: &Filling, limits: &[u8]) -> Option<Pair> {
    let mut side = || (0..TRIES).find_map(|_| template(random, text, filling, limits));
    Some(Pair {
        left: side()?,
        right: side()?,
    })
}

/// Makes each right template the left one with its symbols in another order; in some a letter is
/// then another one.
pub fn shuffle(random: &mut Random, sheet: &mut Sheet) {
    let l = sheet.letters.len();
    for pair in &mut sheet.pairs {
        pair.right = shuffled(random, &pair.left);
        let is_letter = |symbol: &&mut Symbol| matches!(symbol, Symbol::Letter(_));
        if random.chance(50) {
            if let Some(symbol) = pair.right.iter_mut().find(is_letter) {
                *symbol = Symbol::Letter(random.below(l) as u8);
            }
        }
    }
}

/// Symbols, or other things, in another order.
pub fn shuffled<T: Clone>(random: &mut Random, things: &[T]) -> Vec<T> {
    let mut shuffled = things.to_vec();
    for place in 0..things.len() {
        shuffled.swap(place, random.below(things.len()));
    }
    shuffled
}

/// Makes each rule hold, often only just.
fn plant_rules(random: &mut Random, sheet: &mut Sheet, filling: &Filling) {
    for rule in &mut sheet.rules {
        let above = random.one_of(&[0, 0, 1, 2, 1000]);
        rule.limit = speller::sum(rule, filling) as i16 + above;
    }
}

/// Makes each rule, of which there is then at least one, hold only where every field that has a
/// coefficient is full.
pub fn only_full(sheet: &mut Sheet) {
    if sheet.rules.is_empty() {
        sheet.rules.push(Rule {
            coefficients: vec![-1; sheet.limits.len()],
            limit: 0,
        });
    }
    let full = sheet.limits.iter().map(|&limit| vec![0; limit.into()]);
    let full: Filling = full.collect();
    for rule in &mut sheet.rules {
        for coefficient in &mut rule.coefficients {
            *coefficient = -coefficient.abs();
        }
        rule.limit = speller::sum(rule, &full) as i16;
    }
}

/// A template that spells `text`, put together by chance; none if it came out too large.
pub fn template(
    random: &mut Random,
    text: &[u8],
    filling: &Filling,
    limits: &[u8],
) -> Option<Template> {
    let mut template = Vec::new();
    let mut rest = text;
    while template.len() <= MOST_SYMBOLS {
        let field = random.below(filling.len() + 1);
        let after_field = filling
            .get(field)
            .and_then(|text| rest.strip_prefix(&text[..]));
        let (symbol, after) = match (after_field, rest.split_first()) {
            (Some(after), _) => (Symbol::Field(field as u8), after),
            (None, Some((&letter, after))) => (Symbol::Letter(letter), after),
            (None, None) => break,
        };
        template.push(symbol);
        rest = after;
    }
    let fits = template.len() <= MOST_SYMBOLS && width(&template, limits) <= GREATEST_WIDTH;
    fits.then_some(template)
}

/// Makes any pairs of a sheet in which a filling clashes spell two texts, and any rules break, often
/// only just. One of the two templates comes to spell its text altered, or where none is soon found that
/// does, nothing.
pub fn differ(random: &mut Random, sheet: &mut Sheet, filling: &Filling) {
    let l = sheet.letters.len();
    for pair in &mut sheet.pairs {
        if random.chance(DIFFERING_PERCENT) {
            let side = if random.chance(50) {
                &mut pair.left
            } else {
                &mut pair.right
            };
            let text = altered(random, speller::text(side, filling), l);
            let found = (0..TRIES).find_map(|_| template(random, &text, filling, &sheet.limits));
            *side = found.unwrap_or_default();
        }
    }
    for rule in &mut sheet.rules {
        if random.chance(BROKEN_PERCENT) {
            let below = random.one_of(&[1, 1, 2, 1000]);
            rule.limit = speller::sum(rule, filling) as i16 - below;
        }
    }
}

/// A text of `l` letters, cut short or made longer or with another letter, at any place or at the last.
fn altered(random: &mut Random, mut text: Vec<u8>, l: usize) -> Vec<u8> {
    let any = random.below(text.len() + 1);
    let place = random.one_of(&[any, text.len().saturating_sub(1)]);
    let letter = random.below(l) as u8;
    match random.below(8) {
        0 => text.clear(),
        1 | 2 => text.truncate(place),
        3 => text.insert(place, letter),
        4..=6 if place < text.len() => text[place] = letter,
        _ => text.push(letter),
    }
    text
}

/// Changes one template or one rule a little.
pub fn spoil(random: &mut Random, sheet: &mut Sheet) {
    if !sheet.rules.is_empty() && random.chance(40) {
        let rule = random.below(sheet.rules.len());
        let limit = &mut sheet.rules[rule].limit;
        *limit = limit.saturating_sub(1);
        return;
    }
    let l = sheet.letters.len();
    let template = any_template(random, sheet);
    if template.is_empty() {
        return;
    }
    let symbol = random.below(template.len());
    match template[symbol] {
        Symbol::Letter(_) if random.chance(50) => {
            template[symbol] = Symbol::Letter(random.below(l) as u8);
        }
        _ if random.chance(50) => template.swap(symbol, 0),
        _ => {
            template.remove(symbol);
        }
    }
}

fn any_template<'a>(random: &mut Random, sheet: &'a mut Sheet) -> &'a mut Template {
    let pair = random.below(sheet.pairs.len());
    let pair = &mut sheet.pairs[pair];
    if random.chance(50) {
        &mut pair.left
    } else {
        &mut pair.right
    }
}

/// Makes one template have another letter in the middle, in a sheet that has several.
pub fn spoil_middle(random: &mut Random, sheet: &mut Sheet) {
    let l = sheet.letters.len();
    let template = any_template(random, sheet);
    change_letter(random, template, l);
}

/// Makes the letter that is nearest to the middle another one of `l`, of which there are several;
/// fields alone stay as they are.
pub fn change_letter(random: &mut Random, symbols: &mut [Symbol], l: usize) {
    let middle = symbols.len() / 2;
    let mut places: Vec<usize> = (0..symbols.len()).collect();
    places.sort_by_key(|place| place.abs_diff(middle));
    for place in places {
        if let Symbol::Letter(letter) = symbols[place] {
            let further = random.within(1, l - 1);
            symbols[place] = Symbol::Letter(((usize::from(letter) + further) % l) as u8);
            return;
        }
    }
}
