//! Small steps from one sheet or book to another, of those kinds that both have. Some would lead out
//! of the format's ranges; only what reading accepts is gone on from.

use crate::place::Place;
use crate::random::Random;
use crate::reader::{Symbol, Template, GREATEST_LIMIT};

/// How often a step is tried before it is given up.
const TRIES: usize = 20;
const ANOTHER_STEP_PERCENT: usize = 40;

/// Another one, one step or a few away.
pub fn step<P: Place>(random: &mut Random, place: &P) -> Option<P> {
    let mut steps = (0..TRIES).filter_map(|_| try_to_step(random, place));
    steps.find(|next| next != place)
}

/// Takes one step or a few, each of which must lead to what reading accepts.
fn try_to_step<P: Place>(random: &mut Random, place: &P) -> Option<P> {
    let mut next = place.clone();
    loop {
        random.one_of(P::STEPS)(random, &mut next);
        if !next.is_accepted() {
            return None;
        }
        if !random.chance(ANOTHER_STEP_PERCENT) {
            return Some(next);
        }
    }
}

/// The number of one of its templates.
pub fn number<P: Place>(random: &mut Random, place: &mut P) -> usize {
    random.below(place.templates().len())
}

/// A letter, or a field that this template can have; fields come up more often.
pub fn symbol<P: Place>(random: &mut Random, place: &mut P, template: usize) -> Symbol {
    let fields = place.limits(template).len();
    if fields > 0 && random.chance(65) {
        Symbol::Field(random.below(fields) as u8)
    } else {
        Symbol::Letter(random.below(place.letters().len()) as u8)
    }
}

fn template<P: Place>(place: &mut P, number: usize) -> &mut Template {
    place.templates().swap_remove(number)
}

pub fn change_symbol<P: Place>(random: &mut Random, place: &mut P) {
    let number = number(random, place);
    let symbol = symbol(random, place, number);
    let template = template(place, number);
    if !template.is_empty() {
        let place = random.below(template.len());
        template[place] = symbol;
    }
}

pub fn insert_symbol<P: Place>(random: &mut Random, place: &mut P) {
    let number = number(random, place);
    let symbol = symbol(random, place, number);
    let template = template(place, number);
    template.insert(random.within(0, template.len()), symbol);
}

pub fn delete_symbol<P: Place>(random: &mut Random, place: &mut P) {
    let number = number(random, place);
    let template = template(place, number);
    if !template.is_empty() {
        template.remove(random.below(template.len()));
    }
}

pub fn swap_symbols<P: Place>(random: &mut Random, place: &mut P) {
    let number = number(random, place);
    let template = template(place, number);
    if !template.is_empty() {
        let [one, other] = [(); 2].map(|()| random.below(template.len()));
        template.swap(one, other);
    }
}

pub fn change_limit<P: Place>(random: &mut Random, place: &mut P) {
    let number = number(random, place);
    let limits = place.limits(number);
    if !limits.is_empty() {
        let field = random.below(limits.len());
        let limit = limits[field];
        let near = [limit.saturating_sub(1), limit + 1];
        limits[field] = match random.below(3) {
            0 => random.within(0, usize::from(GREATEST_LIMIT)) as u8,
            _ => random.one_of(&near),
        };
    }
}

/// One letter more, or one less: then what was the last is another.
pub fn change_letters<P: Place>(random: &mut Random, place: &mut P) {
    let letters = place.letters();
    let greatest = *letters.last().expect("there is a letter");
    if random.chance(50) {
        letters.push(greatest + 1);
        return;
    }
    letters.pop();
    let left = letters.len();
    if left == 0 {
        return;
    }
    for symbol in place.templates().into_iter().flatten() {
        if *symbol == Symbol::Letter(left as u8) {
            *symbol = Symbol::Letter(random.below(left) as u8);
        }
    }
}

/// A limit for a new field.
pub fn new_limit(random: &mut Random) -> u8 {
    random.within(1, usize::from(GREATEST_LIMIT)) as u8
}
