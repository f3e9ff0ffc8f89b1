//! Says when each template of a book is sent, and of two that clash when both are. Whether they share a minute, the engine says. It is held against the
//! windows that can be seen here.

use super::{shared, text};
use crate::book::input::Input;
use crate::book::matrix::{labels, MOST_WIDE};
use lunthegyr::{Clashing, Hours};

/// What the signs of the table mean that stand for a clash.
pub const CLASH: &str =
    "  X      clash: with some texts in the fields both spell the same, and in some minute both are sent
  h      clash, but never in the same minute: both can spell the same, and only their hours prevent it";

/// When each template is sent.
pub fn table(input: &Input, hours: &Hours) -> String {
    let labels = labels(&input.form).into_iter().enumerate();
    let rows = labels.flat_map(|(number, label)| {
        // One space is put by what follows.
        text::sent(&label[..label.len() - 1], hours.windows(number), MOST_WIDE)
    });
    let rows: Vec<String> = rows.collect();
    format!("{SENT}\n\n{}", rows.join("\n"))
}

const SENT: &str = "\
When each is sent, in every week, read back from the hours' bytes. The end of a window is not in it:";

/// When both templates of a pair are sent, or each of them where that is never; and whether the windows agree with the engine.
pub fn of_pair(input: &Input, hours: &Hours, pair: Clashing) -> (bool, String) {
    let numbers = [pair.first, pair.second];
    let [first, second] = numbers.map(|number| hours.windows(number));
    let shared = shared::windows(first, second);
    let listed = hours.clashes().contains(&pair);
    let lines = match (listed, shared.is_empty()) {
        (true, false) => text::sent("  both are sent", &shared, MOST_WIDE),
        (false, true) => {
            let names = numbers.map(|number| input.short_name(number));
            let wide = names.iter().map(String::len).max().unwrap_or(0);
            let rows = names.iter().zip([first, second]);
            let rows = rows.flat_map(|(name, windows)| {
                let words = format!("  hours of {name:<wide$} ");
                text::sent(&words, windows, MOST_WIDE)
            });
            rows.collect()
        }
        _ => vec![DIFFER.to_string()],
    };
    (listed != shared.is_empty(), lines.join("\n"))
}

/// What it rests on that two are never sent in the same minute.
pub const REASONS: &str = "\
What `never in the same minute` rests on:
- The engine's source is proved, for every accepted book and all accepted hours of it, to list of the pairs
  that clash all those that share a minute, and no others
  (lists-those-that-share in crates/calls/proofs/ShopHours.antt).
- TWO TEMPLATES WITH AN h CAN SPELL THE SAME TEXT. Hours are a promise about panels: it counts only where all
  of them keep the hours above, by the same clock, and no text comes late. Nothing here makes them keep them.
- This tool is not proved. The hours above are read back from the hours' bytes: compare them with yours.";

const DIFFER: &str = "  THE HOURS ABOVE AND THE ENGINE DIFFER on whether these two share a minute.
  One of them is WRONG. Do not use either.";
