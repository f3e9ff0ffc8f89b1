//! Draws how two templates meet: the common text between them, a column for each of its letters, and over and under it which part of
//! each template spells which letters. A field with an empty text stands between two letters.
//!
//!     left    A {shop1} {zone1} {staff}
//!             | [-]     |       (empty)
//!     text    A 1 2     3
//!             | [-]     |
//!     right   A {shop2} {zone2}

/// A symbol of a template and how many letters of the text it spells.
pub struct Piece {
    pub label: String,
    pub letters: usize,
}

const EMPTY: &str = "(empty)";
/// A drawing is cut where it would be wider.
const MOST_WIDE: usize = 68;

/// Where the columns start. Column 2 i is for empty texts before letter i of the text, and column 2 i + 1 for the letter; each ends in a space.
struct Columns {
    starts: Vec<usize>,
}

/// The drawing's lines. Both templates spell `text`; `names` has those of the left and of the right template.
pub fn drawing(names: [&str; 2], left: &[Piece], text: &[u8], right: &[Piece]) -> Vec<String> {
    let columns = Columns::new(left, right, text.len());
    let [left_labels, left_spans] = columns.rows(left);
    let [right_labels, right_spans] = columns.rows(right);
    let rows = [
        (names[0], left_labels),
        ("", left_spans),
        ("text", columns.letters(text)),
        ("", right_spans),
        (names[1], right_labels),
    ];
    let wide = rows.iter().map(|(name, _)| name.chars().count()).max();
    let wide = wide.unwrap_or(0) + 3;
    let mut lines = Vec::new();
    for (from, to) in columns.cuts(left, right) {
        if from > 0 {
            lines.push(String::new());
        }
        for (name, row) in &rows {
            let part: String = row.chars().skip(from).take(to - from).collect();
            lines.push(format!("{name:<wide$}{part}").trim_end().to_string());
        }
    }
    lines
}

impl Columns {
    fn new(left: &[Piece], right: &[Piece], letters: usize) -> Columns {
        let mut widths: Vec<usize> = (0..=2 * letters).map(|column| 2 * (column % 2)).collect();
        for template in [left, right] {
            let mut empty = vec![0; letters + 1];
            for (at, piece) in placed(template) {
                if piece.letters == 0 {
                    empty[at] += empty_width(piece);
                }
            }
            for (at, &wide) in empty.iter().enumerate() {
                widths[2 * at] = widths[2 * at].max(wide);
            }
        }
        for template in [left, right] {
            for (at, piece) in placed(template) {
                if piece.letters > 0 {
                    let last = 2 * (at + piece.letters) - 1;
                    let wide: usize = widths[2 * at + 1..=last].iter().sum();
                    let needed = piece.label.chars().count() + 1;
                    widths[last] += needed.saturating_sub(wide);
                }
            }
        }
        let mut starts = vec![0];
        for wide in widths {
            starts.push(starts[starts.len() - 1] + wide);
        }
        Columns { starts }
    }

    /// The labels of a template, and what each spans.
    fn rows(&self, template: &[Piece]) -> [String; 2] {
        let [mut labels, mut spans] = [Row::default(), Row::default()];
        for (at, piece) in placed(template) {
            if piece.letters == 0 {
                // Several may stand in one column, one after the other.
                let start = self.starts[2 * at].max(labels.next).max(spans.next);
                labels.put(start, &piece.label);
                spans.put(start, EMPTY);
                labels.next = start + empty_width(piece);
                continue;
            }
            let start = self.starts[2 * at + 1];
            let last = self.starts[2 * (at + piece.letters) - 1];
            labels.put(start, &piece.label);
            let span = match last - start {
                0 => "|".to_string(),
                wide => format!("[{}]", "-".repeat(wide - 1)),
            };
            spans.put(start, &span);
        }
        [labels.text, spans.text]
    }

    fn letters(&self, text: &[u8]) -> String {
        let mut row = Row::default();
        for (at, &letter) in text.iter().enumerate() {
            row.put(self.starts[2 * at + 1], &char::from(letter).to_string());
        }
        row.text
    }

    /// Where the drawing is cut, as ranges of places: between two letters that no field spans, if there is such a place.
    fn cuts(&self, left: &[Piece], right: &[Piece]) -> Vec<(usize, usize)> {
        let letters = self.starts.len() / 2 - 1;
        let open = |at: &usize| {
            let ends = |template| placed(template).any(|(start, _)| start == *at);
            ends(left) && ends(right)
        };
        let end = self.starts[self.starts.len() - 1];
        let (mut cuts, mut from) = (Vec::new(), 0);
        while end - from > MOST_WIDE {
            let fits = |at: &usize| {
                let start = self.starts[2 * at];
                start > from && start - from <= MOST_WIDE
            };
            let places: Vec<usize> = (1..=letters).filter(fits).collect();
            let best = places
                .iter()
                .rev()
                .find(|at| open(at))
                .or_else(|| places.last());
            match best {
                Some(&at) => {
                    cuts.push((from, self.starts[2 * at]));
                    from = self.starts[2 * at];
                }
                None => break,
            }
        }
        cuts.push((from, end));
        cuts
    }
}

#[derive(Default)]
struct Row {
    text: String,
    /// Where the next label may start.
    next: usize,
}

impl Row {
    fn put(&mut self, start: usize, part: &str) {
        let blank = start.saturating_sub(self.text.chars().count());
        self.text += &" ".repeat(blank);
        self.text += part;
        self.next = self.text.chars().count() + 1;
    }
}

/// The width of a field with an empty text, with a space after it.
fn empty_width(piece: &Piece) -> usize {
    piece.label.chars().count().max(EMPTY.len()) + 1
}

/// Each piece with the number of letters before it.
fn placed(template: &[Piece]) -> impl Iterator<Item = (usize, &Piece)> {
    template.iter().scan(0, |at, piece| {
        let start = *at;
        *at += piece.letters;
        Some((start, piece))
    })
}
