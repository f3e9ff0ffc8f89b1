//! What a crate's box says: its name, a few words, and a tag for each crate of another group that it uses. Fonts differ
//! from machine to machine, so widths are those of a wide one.

use crate::plan::Plan;

/// Sizes of letters: of names, of words, and of a group's name; and the height of a line.
pub const NAME: f64 = 13.0;
pub const WORDS: f64 = 12.0;
pub const GROUP: f64 = 15.0;
pub const LINE: f64 = 16.0;
/// Inside a box, left and right; around a tag's text; and between two pieces of a line.
const PAD: f64 = 7.0;
const TAG_PAD: f64 = 3.0;
const SPACE: f64 = 7.0;

#[derive(Clone)]
pub enum Kind {
    Name,
    Words,
    Tag,
}

/// A piece of text: how far it is from the left edge of its box, and how wide.
#[derive(Clone)]
pub struct Piece {
    pub kind: Kind,
    pub text: String,
    pub left: f64,
    pub width: f64,
}

/// The width of a text of this size.
pub fn width(text: &str, size: f64) -> f64 {
    let em = |letter: char| match letter {
        'i' | 'j' | 'l' | ' ' | '.' | ',' | ':' | ';' | '\'' => 0.33,
        'f' | 'r' | 't' | '(' | ')' => 0.42,
        'm' | 'w' | 'M' | 'W' => 0.92,
        _ => 0.62,
    };
    size * text.chars().map(em).sum::<f64>()
}

/// The width of a group's name, which is bold.
pub fn group_width(name: &str) -> f64 {
    1.15 * width(name, GROUP)
}

fn piece(kind: Kind, text: &str) -> Piece {
    let width = match kind {
        // Of a fixed width.
        Kind::Name => 0.61 * NAME * text.chars().count() as f64,
        Kind::Words => width(text, WORDS),
        Kind::Tag => width(text, WORDS) + 2.0 * TAG_PAD,
    };
    Piece {
        kind,
        text: text.to_string(),
        left: 0.0,
        width,
    }
}

/// Puts pieces side by side from an offset on, and says where they end.
fn set(pieces: &[Piece], from: f64) -> (Vec<Piece>, f64) {
    let mut all = pieces.to_vec();
    let (mut at, mut end) = (from, from);
    for piece in &mut all {
        piece.left = at;
        end = at + piece.width;
        at = end + SPACE;
    }
    (all, end)
}

/// A line of a box of this width, some pieces at its left end and some at its right; or nothing where it is too narrow.
fn line(left: &[Piece], right: &[Piece], width: f64) -> Option<Vec<Piece>> {
    let (left, end) = set(left, PAD);
    let (_, size) = set(right, 0.0);
    let start = width - PAD - size;
    (end <= start).then(|| [left, set(right, start).0].concat())
}

/// What a box of this width says in so many lines: in one all, in two the name with the tags and the words, in three
/// each by itself. Nothing where it does not fit.
pub fn lines(plan: &Plan, name: &str, width: f64, many: usize) -> Option<Vec<Vec<Piece>>> {
    let title = [piece(Kind::Name, name)];
    let words = [piece(Kind::Words, &plan.words[name])];
    let tags: Vec<Piece> = plan
        .elsewhere(name)
        .iter()
        .map(|other| piece(Kind::Tag, other))
        .collect();
    match many {
        1 => Some(vec![line(&[title, words].concat(), &tags, width)?]),
        2 => Some(vec![line(&title, &tags, width)?, line(&words, &[], width)?]),
        _ => Some(vec![
            line(&title, &[], width)?,
            line(&words, &[], width)?,
            line(&tags, &[], width)?,
        ]),
    }
}

/// How many lines a box of this width needs: 1 to 3, or nothing where it is too narrow.
pub fn needed(plan: &Plan, name: &str, width: f64) -> Option<usize> {
    (1..=3).find(|many| lines(plan, name, width, *many).is_some())
}
