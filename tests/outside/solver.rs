//! SAT solvers, asked as processes. All take a clause file's name and end with the same two
//! statuses.

use std::fs;
use std::io;
use std::path::PathBuf;
use std::process::{Command, ExitStatus};

pub struct Solver {
    pub name: &'static str,
    /// Used in turn.
    options: &'static [&'static [&'static str]],
    listing: Listing,
}

/// Where a solver lists an assignment: after a v in lines that it prints, which are a reply in
/// document 01's form, or after a first line in a file that it is given the name of.
#[derive(PartialEq)]
enum Listing {
    Printed,
    Filed,
}

/// The solvers that are known here.
const ALL: [Solver; 3] = [
    Solver {
        name: "cadical",
        options: &[&["-q"], &[]],
        listing: Listing::Printed,
    },
    Solver {
        name: "minisat",
        options: &[&["-verb=0"]],
        listing: Listing::Filed,
    },
    Solver {
        name: "picosat",
        options: &[&[]],
        listing: Listing::Printed,
    },
];

const SATISFIABLE: Option<i32> = Some(10);
const UNSATISFIABLE: Option<i32> = Some(20);

/// What a solver left behind.
pub struct Reply {
    pub status: ExitStatus,
    pub printed: String,
    /// What it printed, if that is to be a reply in document 01's form.
    pub form: Option<Vec<u8>>,
    /// Where it lists an assignment, if it has one.
    pub listing: String,
}

/// What a reply says.
pub enum Answer {
    /// With the numbers that are listed, without the 0 at their end.
    Satisfiable(Vec<i64>),
    Unsatisfiable,
}

/// The solver of this name.
pub fn named(name: &str) -> Solver {
    let solver = ALL.into_iter().find(|solver| solver.name == name);
    solver.unwrap_or_else(|| panic!("no such solver: {name}"))
}

/// The solvers' names as a sentence has them.
pub fn names(solvers: &[Solver]) -> String {
    let names: Vec<&str> = solvers.iter().map(|solver| solver.name).collect();
    match &names[..] {
        [before @ .., last] if !before.is_empty() => format!("{} and {last}", before.join(", ")),
        _ => names.concat(),
    }
}

/// Where the solvers' files are: beside this program.
fn folder() -> PathBuf {
    let program = std::env::current_exe().expect("this program has a place");
    let folder = program.parent().expect("its place is in a folder");
    folder.to_path_buf()
}

impl Solver {
    /// Are its replies in document 01's form?
    pub fn has_form(&self) -> bool {
        self.listing == Listing::Printed
    }

    /// Asks about a clause file, for the `turn`th time.
    pub fn ask(&self, turn: usize, clauses: &[u8]) -> Reply {
        let reply = self.try_to_ask(turn, clauses);
        reply.unwrap_or_else(|error| panic!("{} cannot be asked: {error}", self.name))
    }

    fn try_to_ask(&self, turn: usize, clauses: &[u8]) -> io::Result<Reply> {
        let folder = folder();
        let question = folder.join(format!("{}.cnf", self.name));
        let filed = folder.join(format!("{}.listing", self.name));
        fs::write(&question, clauses)?;
        let mut command = Command::new(self.name);
        command.args(self.options[turn % self.options.len()]);
        command.arg(&question);
        if self.listing == Listing::Filed {
            fs::write(&filed, "")?;
            command.arg(&filed);
        }
        let output = command.output()?;
        let printed = text(&output.stdout);
        let listing = match self.listing {
            Listing::Printed => after_v(&printed),
            Listing::Filed => after_first_line(&text(&fs::read(&filed)?)),
        };
        Ok(Reply {
            status: output.status,
            printed: printed + &text(&output.stderr),
            form: self.has_form().then_some(output.stdout),
            listing,
        })
    }
}

fn text(bytes: &[u8]) -> String {
    String::from_utf8_lossy(bytes).into_owned()
}

/// What the lines that start with v have after it.
fn after_v(printed: &str) -> String {
    let lines = printed.lines().filter_map(|line| line.strip_prefix('v'));
    let listed: Vec<&str> = lines.map(str::trim).collect();
    listed.join(" ")
}

fn after_first_line(file: &str) -> String {
    let rest = file.split_once('\n').map(|(_, rest)| rest);
    rest.unwrap_or("").trim().to_string()
}

impl Reply {
    /// What it says, or what is wrong with it.
    pub fn answer(&self) -> Result<Answer, &'static str> {
        match self.status.code() {
            SATISFIABLE => Ok(Answer::Satisfiable(self.numbers()?)),
            UNSATISFIABLE => Ok(Answer::Unsatisfiable),
            _ => Err("the solver ended with neither 10 nor 20"),
        }
    }

    fn numbers(&self) -> Result<Vec<i64>, &'static str> {
        let words = self.listing.split_whitespace();
        let numbers: Result<Vec<i64>, _> = words.map(str::parse).collect();
        let mut numbers = numbers.map_err(|_| "what the solver lists is no number")?;
        if numbers.pop() != Some(0) || numbers.contains(&0) {
            return Err("what the solver lists does not end with its only 0");
        }
        Ok(numbers)
    }
}
