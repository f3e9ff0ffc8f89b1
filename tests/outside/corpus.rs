//! The inputs that a fuzzer keeps, some for each answer that was reached. An answer that is seldom
//! reached is chosen as often as any other, so that more is tried near it.

use crate::calls::Reached;
use crate::inputs::Input;
use crate::random::Random;
use std::collections::HashMap;

/// So many inputs are kept for an answer.
const KEPT_OF_EACH: usize = 8;
/// An input with a longer reply is not kept, since changing it takes long.
const LONGEST_REPLY: usize = 4096;

pub struct Corpus {
    /// The place in `kept` of each answer.
    places: HashMap<Reached, usize>,
    kept: Vec<Kept>,
}

/// What is kept for one answer.
struct Kept {
    /// How often the answer was reached.
    times: usize,
    inputs: Vec<Input>,
}

impl Corpus {
    pub fn new() -> Corpus {
        Corpus {
            places: HashMap::new(),
            kept: Vec::new(),
        }
    }

    /// Keeps an input that reached this, if the answer was reached seldom; and now and then a later
    /// one in the place of an earlier.
    pub fn keep(&mut self, random: &mut Random, reached: Reached, input: &Input) {
        if input.reply.len() > LONGEST_REPLY {
            return;
        }
        let next = self.kept.len();
        let place = *self.places.entry(reached).or_insert(next);
        if place == next {
            let inputs = Vec::new();
            self.kept.push(Kept { times: 0, inputs });
        }
        let kept = &mut self.kept[place];
        kept.times += 1;
        if kept.inputs.len() < KEPT_OF_EACH {
            kept.inputs.push(input.clone());
        } else if kept.times.is_power_of_two() {
            kept.inputs[random.below(KEPT_OF_EACH)] = input.clone();
        }
    }

    /// One of the inputs, if there are any.
    pub fn choose(&self, random: &mut Random) -> Option<&Input> {
        let mut below = |n: usize| (n > 0).then(|| random.below(n));
        let kept = &self.kept[below(self.kept.len())?];
        below(kept.inputs.len()).map(|chosen| &kept.inputs[chosen])
    }
}
