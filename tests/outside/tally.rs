//! Counts how often each answer came up, so that a test that reaches nothing cannot pass.

use crate::report::require;

/// How often each answer must have come up, where nothing else is said.
const LEAST_OF_EACH: usize = 200;

/// An answer in a word, or a refusal's number.
pub type Answer = Result<&'static str, u8>;

pub struct Tally {
    name: &'static str,
    reached: Vec<(Answer, usize)>,
}

impl Tally {
    /// Of something that has these answers and these refusals.
    pub fn new(
        name: &'static str,
        answers: &[&'static str],
        refusals: impl Iterator<Item = u8>,
    ) -> Tally {
        let answers = answers.iter().map(|&answer| Ok(answer));
        let all = answers.chain(refusals.map(Err));
        Tally {
            name,
            reached: all.map(|answer| (answer, 0)).collect(),
        }
    }

    pub fn count(&mut self, answer: Answer) {
        let row = self.reached.iter_mut().find(|row| row.0 == answer);
        row.expect("an answer that is listed").1 += 1;
    }

    pub fn total(&self) -> usize {
        self.reached.iter().map(|row| row.1).sum()
    }

    /// Prints every count, and fails if one is too low.
    pub fn finish(&self) {
        self.finish_at(LEAST_OF_EACH);
    }

    /// Prints every count, and fails if one is below `least`.
    pub fn finish_at(&self, least: usize) {
        for (answer, times) in &self.reached {
            match answer {
                Ok(word) => println!("outside: {}: {word}: {times}", self.name),
                Err(number) => println!("outside: {}: refused {number}: {times}", self.name),
            }
        }
        self.require(least);
    }

    /// Prints all counts on one line, and fails if one is below `least`.
    pub fn finish_on_a_line(&self, least: usize) {
        let counts = self.reached.iter().map(|(answer, times)| match answer {
            Ok(word) => format!("{word} {times}"),
            Err(number) => format!("-{number} {times}"),
        });
        let counts: Vec<String> = counts.collect();
        let counts = counts.join(", ");
        println!("outside: {}, {} times: {counts}", self.name, self.total());
        self.require(least);
    }

    fn require(&self, least: usize) {
        require(
            self.reached.iter().all(|row| row.1 >= least),
            "an answer was reached too seldom to be tested",
            &[("answers of", &self.name), ("least", &least)],
        );
    }
}
