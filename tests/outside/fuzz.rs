//! The fuzzer: makes inputs, gives each to every public call, and holds the answers to what must be
//! so whatever the input, and those of checks and hours to the plain answer. Inputs that reach what was reached seldom are kept, changed and tried
//! again. A fixed seed makes every run the same.

use crate::calls::Calls;
use crate::corpus::Corpus;
use crate::inputs::{self, Input};
use crate::random::Random;
use crate::turn::Turn;
use std::time::Instant;

/// So many percent of the inputs are new ones; the others come of kept ones.
const NEW_PERCENT: usize = 40;
/// Each answer must come up once for so many calls: 50 times in a million, and in fewer than this
/// it need not come up.
const CALLS_FOR_ONE: usize = 20_000;

/// Makes at least so many calls, prints how often each answer came up, and fails if one came up too
/// seldom.
pub fn run(calls: usize) {
    let start = Instant::now();
    let mut fuzz = Fuzz {
        random: Random::new(1),
        corpus: Corpus::new(),
        calls: Calls::new(),
    };
    let mut inputs = 0;
    while fuzz.calls.made < calls {
        fuzz.turn();
        inputs += 1;
    }
    let least = calls / CALLS_FOR_ONE;
    fuzz.calls.finish(least);
    println!(
        "outside: fuzz: {} calls on {inputs} inputs, and each answer came up at least {least} times; \
         {:.1} s",
        fuzz.calls.made,
        start.elapsed().as_secs_f64()
    );
}

struct Fuzz {
    random: Random,
    corpus: Corpus,
    calls: Calls,
}

impl Fuzz {
    fn turn(&mut self) {
        let input = self.input();
        let mut turn = Turn {
            calls: &mut self.calls,
            random: &mut self.random,
            input: &input,
        };
        for reached in turn.run() {
            self.corpus.keep(&mut self.random, reached, &input);
        }
    }

    /// A new input, or a kept one that is changed.
    fn input(&mut self) -> Input {
        let random = &mut self.random;
        if random.chance(NEW_PERCENT) {
            return inputs::new(random);
        }
        match (self.corpus.choose(random), self.corpus.choose(random)) {
            (Some(kept), Some(other)) => {
                let mut input = kept.clone();
                inputs::change(random, &mut input, other);
                input
            }
            _ => inputs::new(random),
        }
    }
}
