//! Asks an installed SAT solver the sheet's question, by the engine's clause file. What the solver replies goes to the engine, which believes
//! none of it. That nothing clashes is the solver's word alone.

use lunthegyr::{Filling, Refusal, Sheet};
use std::io::{self, Write};
use std::process::{Command, Stdio};
use std::thread;

pub const KNOWN: [&str; 3] = ["cadical", "picosat", "minisat"];

/// What became of asking.
pub enum Opinion {
    /// The engine accepted its reply: a filling that clashes.
    Clash(Filling),
    /// The solver says that the clauses cannot be satisfied.
    Unsatisfiable,
    /// The engine refused its reply.
    Refused(Refusal),
    /// It ended in another way.
    Nothing(String),
}

/// The exit status of a SAT solver that found an assignment, and of one that says that there is none.
const SATISFIABLE: i32 = 10;
const UNSATISFIABLE: i32 = 20;

/// Is a program of this name on the path?
pub fn installed(name: &str) -> bool {
    let path = std::env::var_os("PATH").unwrap_or_default();
    let there = std::env::split_paths(&path).any(|folder| folder.join(name).is_file());
    there
}

/// Asks a solver that is known here.
pub fn ask(name: &str, sheet: &Sheet) -> io::Result<Opinion> {
    // Minisat writes its answer in a form and to a file of its own; it is had on standard output too.
    let words: &[&str] = match name {
        "cadical" => &["-q"],
        "minisat" => &["-verb=0", "/dev/stdin", "/dev/stdout"],
        _ => &[],
    };
    let mut child = Command::new(name)
        .args(words)
        .stdin(Stdio::piped())
        .stdout(Stdio::piped())
        .stderr(Stdio::null())
        .spawn()?;
    let clauses = sheet.clause_file();
    let mut input = child.stdin.take().expect("a pipe to the solver");
    // A solver that ends early closes the pipe; its status then says more than this error.
    let writing = thread::spawn(move || input.write_all(&clauses));
    let output = child.wait_with_output()?;
    let _ = writing.join();
    Ok(match output.status.code() {
        Some(SATISFIABLE) => {
            let reply = match name {
                "minisat" => of_minisat(&output.stdout),
                _ => output.stdout,
            };
            match sheet.reply(&reply) {
                Ok(filling) => Opinion::Clash(filling),
                Err(refusal) => Opinion::Refused(refusal),
            }
        }
        Some(UNSATISFIABLE) => Opinion::Unsatisfiable,
        _ => Opinion::Nothing(output.status.to_string()),
    })
}

/// Minisat's answer in the form of a reply: after the line SAT it has a line of numbers.
fn of_minisat(output: &[u8]) -> Vec<u8> {
    let mut lines = output.split(|&byte| byte == b'\n');
    let mut reply = Vec::new();
    if lines.any(|line| line == b"SAT") {
        reply.extend(b"s SATISFIABLE\nv ");
        reply.extend(lines.next().unwrap_or_default());
        reply.push(b'\n');
    }
    reply
}
