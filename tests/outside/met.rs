//! What came up among sheets: how many clash, how many are apart, and what is special about these
//! and those.

use crate::reader::Sheet;
use crate::report::require;
use crate::shapes::{self, Shapes};
use crate::tally::Tally;

pub struct Met {
    pub clash: usize,
    pub apart: usize,
    shapes: &'static Shapes,
    clash_shapes: Tally,
    apart_shapes: Tally,
}

impl Met {
    pub fn new(shapes: &'static Shapes) -> Met {
        let names = shapes::names(shapes);
        Met {
            clash: 0,
            apart: 0,
            shapes,
            clash_shapes: Tally::new("clashing sheets with", &names, 0..0),
            apart_shapes: Tally::new("apart sheets with", &names, 0..0),
        }
    }

    pub fn count(&mut self, sheet: &Sheet, clash: bool) {
        let (sheets, shapes) = if clash {
            (&mut self.clash, &mut self.clash_shapes)
        } else {
            (&mut self.apart, &mut self.apart_shapes)
        };
        *sheets += 1;
        for shape in shapes::of(sheet, self.shapes) {
            shapes.count(Ok(shape));
        }
    }

    pub fn total(&self) -> usize {
        self.clash + self.apart
    }

    /// Prints how often each thing came up, and fails if an answer came up less often than
    /// `answers`, or a shape with one of them less often than `shapes`.
    pub fn finish(&self, answers: usize, shapes: usize) {
        self.clash_shapes.finish_at(shapes);
        self.apart_shapes.finish_at(shapes);
        require(
            self.clash >= answers && self.apart >= answers,
            "too few sheets clash, or too few are apart",
            &[("clash", &self.clash), ("apart", &self.apart)],
        );
    }
}
