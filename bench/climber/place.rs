//! What is climbed on: a sheet or a book. Both are templates over letters and fields.

use crate::climb::{Climber, Timed};
use crate::random::Random;
use crate::reader::Template;

pub trait Place: Clone + PartialEq + 'static {
    /// How several are called.
    const NAME: &'static str;
    /// The steps that lead to others near it, each as often as it is to come up.
    const STEPS: &'static [fn(&mut Random, &mut Self)];

    /// One made by chance.
    fn any(climber: &mut Climber<Self>) -> Self;
    /// What a climb starts from.
    fn start(climber: &mut Climber<Self>) -> Timed<Self> {
        climber.slowest_of_any()
    }

    fn bytes(&self) -> Vec<u8>;
    /// Do its bytes make just it? Some steps lead out of the format's ranges.
    fn is_accepted(&self) -> bool;
    /// Calls the library on these bytes.
    fn ask(bytes: &[u8]) -> i64;
    /// What the library answered.
    fn told(answer: i64) -> String;
    /// As a person reads it.
    fn shown(&self) -> String;

    fn letters(&mut self) -> &mut Vec<u8>;
    fn templates(&mut self) -> Vec<&mut Template>;
    /// The limits of the fields that a template can have.
    fn limits(&mut self, template: usize) -> &mut Vec<u8>;
}
