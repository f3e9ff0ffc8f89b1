//! Writes a sheet in the text form, so that reading it gives the same bytes.

use crate::form::{Form, Pair, Rule, Symbol};
use crate::letters;

impl Form {
    /// The whole sheet, line by line.
    pub fn text(&self) -> String {
        let mut text = letters::written(&self.letters) + "\n";
        for field in &self.fields {
            text += &format!("field {} {}\n", field.name, field.limit);
        }
        for pair in &self.pairs {
            text += &format!("pair {}\n", self.pair_text(pair));
        }
        for rule in &self.rules {
            text += &format!("rule {}\n", self.rule_text(rule));
        }
        text
    }

    /// A pair's two templates.
    pub fn pair_text(&self, pair: &Pair) -> String {
        let template = |symbols: &[Symbol]| -> String {
            symbols.iter().map(|&symbol| self.label(symbol)).collect()
        };
        let sides = [template(&pair.left), "=".to_string(), template(&pair.right)];
        sides.join(" ").trim().to_string()
    }

    /// A symbol as a template shows it.
    pub fn label(&self, symbol: Symbol) -> String {
        match symbol {
            Symbol::Letter(letter) => letters::escaped(self.letters[letter]),
            Symbol::Field(field) => format!("{{{}}}", self.fields[field].name),
        }
    }

    /// A rule with `>=` where it is turned, so that `-len(a) <= -1` reads `len(a) >= 1`.
    pub fn rule_text(&self, rule: &Rule) -> String {
        let relation = if rule.turned() { ">=" } else { "<=" };
        let limit = rule.sign() * i64::from(rule.limit);
        format!("{} {relation} {limit}", self.sum_text(rule))
    }

    /// The sum of a rule, with all signs turned where the rule is.
    pub fn sum_text(&self, rule: &Rule) -> String {
        let mut sum = String::new();
        for (field, coefficient) in self.fields.iter().zip(&rule.coefficients) {
            let coefficient = rule.sign() * coefficient;
            if coefficient == 0 {
                continue;
            }
            sum += match (sum.is_empty(), coefficient < 0) {
                (true, _) => "",
                (false, true) => " - ",
                (false, false) => " + ",
            };
            if coefficient.abs() != 1 {
                sum += &format!("{}*", coefficient.abs());
            }
            sum += &format!("len({})", field.name);
        }
        if sum.is_empty() {
            sum += "0";
        }
        sum
    }
}

impl Rule {
    /// Whether it is written with all signs turned: where the first coefficient is negative.
    pub fn turned(&self) -> bool {
        let first = self
            .coefficients
            .iter()
            .find(|&&coefficient| coefficient != 0);
        first.map_or(false, |&coefficient| coefficient < 0)
    }

    /// By what its coefficients and its limit are multiplied where it is written.
    pub fn sign(&self) -> i64 {
        if self.turned() {
            -1
        } else {
            1
        }
    }
}
