//! The sheets of tests/hard, in which there is much to search, and the answer to each.

use crate::report::require;
use std::fs;
use std::path::Path;

pub struct Hard {
    pub name: String,
    pub sheet: Vec<u8>,
    pub clash: bool,
}

/// Seen from the repository's folder, where the tests run.
const FOLDER: &str = "tests/hard";

/// All of them, in the order in which they are listed.
pub fn all() -> Vec<Hard> {
    let folder = Path::new(FOLDER);
    let listed = fs::read_to_string(folder.join("answers")).expect("a list of answers");
    let lines = listed.lines().filter(|line| !line.starts_with('#'));
    let all: Vec<Hard> = lines.map(|line| read(folder, line)).collect();
    let files = fs::read_dir(folder).expect("a folder of hard sheets");
    let reports = all.iter().filter(|hard| hard.clash).count();
    require(
        files.count() == all.len() + reports + 1,
        "not every sheet has an answer, or not every clash a report",
        &[("folder", &FOLDER), ("answers", &all.len())],
    );
    all
}

/// A sheet by the line that has its name and its answer.
fn read(folder: &Path, line: &str) -> Hard {
    let (name, answer) = line.split_once(' ').expect("a name and an answer");
    let file = folder.join(name).with_extension("tpl");
    Hard {
        name: name.to_string(),
        sheet: fs::read(file).expect("a sheet of this name"),
        clash: match answer {
            "clash" => true,
            "apart" => false,
            _ => panic!("no such answer: {answer}"),
        },
    }
}
