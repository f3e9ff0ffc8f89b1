//! Lines of the largest clause file, drawn by chance and written one by one: by the library as it is,
//! and by an earlier build of it.

use crate::drawn::{self, LINES};
use crate::families::{self, GREATEST};
use crate::race::{race, Contender};
use crate::sheets;
use crate::table::{table, times};
use crate::writer;
use crate::{fail, progress, save, Setting};

const PROGRAM: &str = "target/bench/lines";
/// The same program with the earlier library.
const BEFORE: &str = "target/bench/before/lines";

/// The table of the lines, which must be those of the plain writer.
pub fn table_of(setting: &Setting) -> String {
    progress("clause lines");
    let sheet = families::most_clauses(GREATEST);
    save("sheet.tpl", &sheets::encode(&sheet));
    let file = writer::file_of(&sheet);
    let lines = drawn::numbers(file.clauses()).map(|number| &file.lines[number]);
    let due: Vec<u8> = lines.flat_map(|line| line.bytes.clone()).collect();
    let contender = |program| {
        let mut contender = Contender::reading(program, "target/bench/sheet.tpl", setting.effort);
        contender.words.push(file.clauses().to_string());
        contender
    };
    let programs = [PROGRAM, BEFORE].into_iter();
    let programs = programs.take(1 + usize::from(setting.before));
    let contenders: Vec<Contender> = programs.map(contender).collect();
    let timings = race(setting.effort, &contenders, |number, ended| {
        if ended.printed != due {
            let program = &contenders[number].program;
            fail(&format!(
                "{program} prints other lines than the plain writer"
            ));
        }
    });
    let now = &timings[0];
    let before = timings.get(1);
    let row = vec![
        LINES.to_string(),
        due.len().to_string(),
        now.to_string(),
        before.map_or("-".to_string(), |before| before.to_string()),
        before.map_or("-".to_string(), |before| times(now.ratio(before))),
    ];
    let heads = ["lines", "bytes", "now", "before", "now / before"];
    "### Clause lines\n\n".to_string() + &table(&heads, &[row])
}
