//! Tells why given texts do not clash: where the first two texts part and what is left over of them, or which rule does not hold. Which it is, the
//! engine says. It is held against what can be seen here of the texts that the engine spells.

use crate::form::Rule;
use crate::input::Input;
use crate::verdict::some;
use lunthegyr::{Cause, Checked, Side};

/// The left and the right text of a pair.
pub type Texts = [String; 2];

/// Where the texts start that stand one under the other.
const TEXT_AT: usize = 9;

/// What the engine is to say of the texts of all pairs, and of the rules at these lengths of the fields.
pub fn expected(pairs: &[Texts], rules: &[Rule], lengths: &[usize]) -> Checked {
    if let Some(pair) = pairs.iter().position(|[left, right]| left != right) {
        return Checked::NoClash(difference(pair, &pairs[pair]));
    }
    match rules.iter().position(|rule| !rule.holds(lengths)) {
        Some(rule) => Checked::NoClash(Cause::RuleBroken { rule }),
        None => Checked::Clash,
    }
}

fn difference(pair: usize, [left, right]: &Texts) -> Cause {
    let both = left.bytes().zip(right.bytes());
    let agreeing = both.take_while(|(left, right)| left == right).count();
    let (side, rest) = match left.len() - agreeing {
        0 => (Side::Right, right.len() - agreeing),
        rest => (Side::Left, rest),
    };
    Cause::PairDiffers {
        pair,
        agreeing,
        side,
        rest,
    }
}

/// A pair's number, with whether its texts are the same, and the texts.
pub fn pair(input: &Input, number: usize, [left, right]: &Texts) -> Vec<String> {
    let line = input.line_of(|places| places.pairs[number].start);
    let told = match left == right {
        true => "the same text",
        false => "different texts",
    };
    vec![
        format!("pair {number}{line}: {told}"),
        format!("  left   {left}").trim_end().to_string(),
        format!("  right  {right}").trim_end().to_string(),
    ]
}

/// What stands under two texts of which so many letters agree, the rest being of this side and length: a mark where they part, and the rest.
pub fn parting(texts: &Texts, agreeing: usize, side: Side, rest: usize) -> [String; 2] {
    let of = &texts[side.number() as usize];
    let over = &of[of.len() - rest..];
    let agree = if agreeing == 1 { "agrees" } else { "agree" };
    let letters = some(agreeing, "letter");
    [
        format!("{:at$}^", "", at = TEXT_AT + agreeing),
        format!("  {letters} {agree} from the start; left over on the {side}: {over}"),
    ]
}

/// A rule that does not hold, as it is written, and its sum at these lengths. Where `=` makes two rules, it is the sum of the one of this number.
pub fn rule(input: &Input, number: usize, lengths: &[usize]) -> [String; 2] {
    let (form, places) = (&input.form, input.places.as_ref());
    let rule = &form.rules[number];
    let written = match places {
        Some(places) => places.rules[number].written.clone(),
        None => form.rule_text(rule),
    };
    let line = input.line_of(|places| places.rules[number].start);
    let [sum, limit] = [rule.sum(lengths), i64::from(rule.limit)].map(|n| rule.sign() * n);
    let beyond = if rule.turned() { "below" } else { "above" };
    let sum_text = form.sum_text(rule);
    [
        format!("rule {number}{line}: {written}"),
        format!("  does not hold: the sum {sum_text} is {sum} at these lengths, {beyond} its limit {limit}"),
    ]
}

#[cfg(test)]
mod tests {
    use super::*;

    fn texts(left: &str, right: &str) -> Texts {
        [left.to_string(), right.to_string()]
    }

    fn differs(pair: usize, agreeing: usize, side: Side, rest: usize) -> Checked {
        Checked::NoClash(Cause::PairDiffers {
            pair,
            agreeing,
            side,
            rest,
        })
    }

    /// The length of the only field is at most 2, and at least 1.
    fn rules() -> [Rule; 2] {
        [(1, 2), (-1, -1)].map(|(coefficient, limit)| Rule {
            coefficients: vec![coefficient],
            limit,
        })
    }

    #[test]
    fn the_rest_is_the_left_one_unless_the_left_text_ends() {
        let of = |left, right| expected(&[texts(left, right)], &rules(), &[3]);
        assert_eq!(of("ab", "acd"), differs(0, 1, Side::Left, 1));
        assert_eq!(of("ab", "abc"), differs(0, 2, Side::Right, 1));
        assert_eq!(of("abc", "a"), differs(0, 1, Side::Left, 2));
        assert_eq!(of("b", "a"), differs(0, 0, Side::Left, 1));
        assert_eq!(of("", "ab"), differs(0, 0, Side::Right, 2));
        assert_eq!(of("ab", ""), differs(0, 0, Side::Left, 2));
    }

    #[test]
    fn the_first_pair_comes_before_the_first_rule() {
        let of = |pairs: &[Texts], length| expected(pairs, &rules(), &[length]);
        let same = texts("ab", "ab");
        let pairs = [same.clone(), texts("a", ""), texts("", "a")];
        assert_eq!(of(&pairs, 3), differs(1, 0, Side::Left, 1));
        let broken = |rule| Checked::NoClash(Cause::RuleBroken { rule });
        assert_eq!(of(&[same.clone()], 3), broken(0));
        assert_eq!(of(&[same.clone()], 0), broken(1));
        assert_eq!(of(&[same], 2), Checked::Clash);
    }

    #[test]
    fn the_mark_stands_under_the_first_place_where_texts_part() {
        let mark = |agreeing| parting(&texts("abc", "abd"), agreeing, Side::Left, 1)[0].clone();
        assert_eq!(mark(0), "         ^");
        assert_eq!(mark(2), "           ^");
    }

    #[test]
    fn the_rest_is_of_the_side_and_length_that_are_given() {
        let rest = |agreeing, side, rest| {
            let [_, told] = parting(&texts("abc", "abde"), agreeing, side, rest);
            told
        };
        assert_eq!(
            rest(2, Side::Left, 1),
            "  2 letters agree from the start; left over on the left: c"
        );
        assert_eq!(
            rest(1, Side::Right, 3),
            "  1 letter agrees from the start; left over on the right: bde"
        );
    }
}
