//! How times grow with the limits and with the counts of letters, pairs and rules: one plot for each of
//! search, clause file and reply, with a panel for each of the four.

use crate::clauses;
use crate::engine;
use crate::families::{self, Size, GREATEST};
use crate::plot::{self, Line, Panel};
use crate::replies;
use crate::search::{self, CADICAL};
use crate::sheets;
use crate::speller::FIELD_BYTES;
use crate::timing::{in_a_row, in_turn};
use crate::{fail, progress, save, Setting};

/// What grows: its name, where it starts and ends, and how it becomes part of a size.
struct Axis {
    name: &'static str,
    from: usize,
    to: usize,
    put: fn(&mut Size, usize),
}

const AXES: [Axis; 4] = [
    Axis {
        name: "limit of each field",
        from: 1,
        to: GREATEST.limit,
        put: |size, value| size.limit = value,
    },
    Axis {
        name: "letters",
        from: 1,
        to: GREATEST.letters,
        put: |size, value| size.letters = value,
    },
    Axis {
        name: "pairs",
        from: 1,
        to: GREATEST.pairs,
        put: |size, value| size.pairs = value,
    },
    Axis {
        name: "rules",
        from: 0,
        to: GREATEST.rules,
        put: |size, value| size.rules = value,
    },
];

/// What is held while one grows: for the search, pairs that cannot agree together, and no rules; else
/// the greatest size.
const SEARCHED: Size = Size {
    pairs: 2,
    rules: 0,
    ..GREATEST
};

/// Writes the plots, and names them.
pub fn plots(setting: &Setting) -> String {
    let effort = setting.effort;
    let with_cadical = setting.solvers.iter().any(|solver| solver == CADICAL);
    let mut text = "### Growth\n\n".to_string();
    let mut add = |file: &str, title: &str, panels: Vec<Panel>| {
        save(file, plot::svg(title, &panels).as_bytes());
        text += &format!("![{title}](benchmarks/{file})\n\n");
    };
    let names = [
        "search, as a call",
        "search, as a program",
        "cadical, as a program",
    ];
    let names = &names[..2 + usize::from(with_cadical)];
    let panels = panels(setting, SEARCHED, names, |size| {
        let sheet = sheets::encode(&families::tangled(size));
        let cadical = [CADICAL.to_string()];
        let answered = search::ask(effort, &sheet, &cadical[..usize::from(with_cadical)], None);
        let mut searched = in_a_row(|| call(&sheet, answered.clash));
        let [call] = in_turn(effort, [&mut searched]);
        let mut times = vec![call.milliseconds(), answered.search.milliseconds()];
        times.extend(
            answered
                .solvers
                .iter()
                .flatten()
                .map(|timing| timing.milliseconds()),
        );
        times
    });
    add("search.svg", "Search: time against each size", panels);
    let panels = self::panels(
        setting,
        GREATEST,
        &["clause program", "plain program"],
        |size| {
            let written = clauses::write(effort, &sheets::encode(&families::most_clauses(size)));
            vec![written.program.milliseconds(), written.plain.milliseconds()]
        },
    );
    add("clauses.svg", "Clause file: time against each size", panels);
    let panels = self::panels(setting, GREATEST, &["tpl_reply", "plain reader"], |size| {
        let sheet = families::most_variables(size);
        let text = replies::text(&sheet, replies::ON_A_LINE);
        let (library, plain) = replies::read(effort, &sheets::encode(&sheet), &text);
        vec![library.milliseconds(), plain.milliseconds()]
    });
    add(
        "reply.svg",
        "Reply that lists all variables: time against each size",
        panels,
    );
    text
}

/// Searches a sheet by the library's call, which must answer so.
fn call(sheet: &[u8], clash: bool) {
    let mut filling = [0; 6 * FIELD_BYTES];
    let status = engine::search(sheet, &mut filling);
    if status != i64::from(clash) {
        fail(&format!(
            "the library's search answers {status} where the program finds a clash: {clash}"
        ));
    }
}

/// A panel for each axis: the times, in milliseconds, by their names, at each size.
fn panels(
    setting: &Setting,
    held: Size,
    names: &[&str],
    mut measure: impl FnMut(Size) -> Vec<f64>,
) -> Vec<Panel> {
    AXES.iter()
        .map(|axis| {
            let mut panel = Panel {
                title: title(axis, held),
                axis: axis.name.to_string(),
                lines: names.iter().map(|name| Line::new(name)).collect(),
            };
            // One value is enough to compare what is answered.
            let to = if setting.effort.quick {
                axis.from
            } else {
                axis.to
            };
            for value in axis.from..=to {
                progress(&format!("growth of {}: {} {value}", names[0], axis.name));
                let mut size = held;
                (axis.put)(&mut size, value);
                for (line, time) in panel.lines.iter_mut().zip(measure(size)) {
                    line.points.push((value, time));
                }
            }
            panel
        })
        .collect()
}

/// What is held while this axis grows.
fn title(axis: &Axis, held: Size) -> String {
    let held = [held.limit, held.letters, held.pairs, held.rules];
    let held = AXES
        .iter()
        .zip(held)
        .filter(|(other, _)| other.name != axis.name);
    let words: Vec<String> = held
        .map(|(other, value)| format!("{} {value}", other.name))
        .collect();
    words.join(", ")
}
