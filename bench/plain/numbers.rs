//! The numbers of a sheet's variables, from where each row of them starts: document 01's order, with
//! nothing looked up in a list.

use crate::reader::{width, Sheet};
use crate::writer::{self, Variable};

pub struct Numbers {
    /// How many values a place has: the letters, and blank.
    values: usize,
    /// K(f,0,0) of each field.
    fields: Vec<usize>,
    /// S(p,0,0) of each pair, and how many right places its locations have.
    pairs: Vec<(usize, usize)>,
    /// T(r,k,s) of each rule and k, with the least s.
    rules: Vec<Vec<(usize, i32)>>,
    /// How many variables there are.
    pub count: usize,
}

impl Numbers {
    pub fn of(sheet: &Sheet) -> Numbers {
        let values = sheet.letters.len() + 1;
        let mut next = 1;
        let mut start = |size: usize| {
            next += size;
            next - size
        };
        let fields = sheet
            .limits
            .iter()
            .map(|&limit| start(usize::from(limit) * values))
            .collect();
        let mut pairs = Vec::new();
        for pair in &sheet.pairs {
            let [left, right] =
                [&pair.left, &pair.right].map(|side| width(side, &sheet.limits) + 1);
            pairs.push((start(left * right), right));
        }
        let mut rules = Vec::new();
        for rule in &sheet.rules {
            let sums = (0..=sheet.limits.len()).map(|k| writer::sums(rule, &sheet.limits, k));
            rules.push(
                sums.map(|sums| (start(sums.clone().count()), *sums.start()))
                    .collect(),
            );
        }
        Numbers {
            values,
            fields,
            pairs,
            rules,
            count: next - 1,
        }
    }

    pub fn number(&self, variable: Variable) -> usize {
        match variable {
            Variable::K(f, c, a) => self.fields[f] + c * self.values + a,
            Variable::S(p, i, j) => {
                let (first, right) = self.pairs[p];
                first + i * right + j
            }
            Variable::T(r, k, s) => {
                let (first, least) = self.rules[r][k];
                first + (s - least) as usize
            }
        }
    }
}
