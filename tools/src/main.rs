//! A readable form of sheets, books and their hours, and what the proved engine says of them. It decides nothing itself: it turns text into bytes and
//! back, and hands the bytes to the engine.

mod apart;
mod book;
mod cause;
mod count;
mod draw;
mod file;
mod fill;
mod form;
mod hours;
mod input;
mod letters;
mod line;
mod opinion;
mod parse;
mod rule;
mod solver;
mod source;
mod text;
mod ticks;
mod verdict;
mod walk;
mod words;

use book::opinion::Outcome;
use file::Kind;
use lunthegyr::Refusal;
use std::fs;
use std::io::{self, Write};
use std::process::ExitCode;
use words::Words;

/// The launcher prints it too, where nothing is built yet.
const USAGE: &str = include_str!("help.txt");

const FAULT: u8 = 1;
const MISUSE: u8 = 2;
const DISAGREE: u8 = 3;
const CLASH: u8 = 10;
const APART: u8 = 20;

/// What ends the program, with its status.
struct Failure {
    status: u8,
    message: String,
}

fn main() -> ExitCode {
    let words: Vec<String> = std::env::args().skip(1).collect();
    let help = words.iter().any(|word| word == "--help" || word == "-h");
    let done = match words.first().map(String::as_str) {
        Some("help") => say(USAGE.as_bytes()).map(|()| 0),
        _ if help => say(USAGE.as_bytes()).map(|()| 0),
        Some("book") => book(&words[1..]),
        Some("check") => check(&words[1..]),
        Some("count") => count(&words[1..]),
        Some("fill") => fill(&words[1..]),
        Some("bytes") => bytes(&words[1..]),
        Some("text") => text(&words[1..]),
        Some("explain") => explain(&words[1..]),
        Some(word) => misuse(format!("no such command: {word}")),
        None => misuse("a command is needed".to_string()),
    };
    match done {
        Ok(status) => ExitCode::from(status),
        Err(failure) => {
            eprintln!("{}", failure.message);
            ExitCode::from(failure.status)
        }
    }
}

fn misuse<T>(message: String) -> Result<T, Failure> {
    Err(Failure {
        status: MISUSE,
        message: format!("lunthegyr: {message} (see lunthegyr help)"),
    })
}

fn faulty(message: String) -> Failure {
    Failure {
        status: FAULT,
        message,
    }
}

fn check(words: &[String]) -> Result<u8, Failure> {
    let words = taken(words, words::OF_CHECK, "check needs a sheet")?;
    let solver = solver(&words)?;
    let status = each(&words.files, "sheets", |file| {
        check_one(file, solver.as_deref())
    })?;
    Ok(verdict_status(status, &words))
}

/// The words of a command that needs a file.
fn taken<'a>(words: &'a [String], options: &[&str], need: &str) -> Result<Words<'a>, Failure> {
    match words::taken(words, options) {
        Err(message) => misuse(message),
        Ok(words) if words.files.is_empty() => misuse(need.to_string()),
        Ok(words) => Ok(words),
    }
}

/// The solver that is to be asked, if one is.
fn solver(words: &Words) -> Result<Option<String>, Failure> {
    let name = words.solver.as_ref().map(|choice| choice.name());
    name.transpose().map_err(faulty)
}

/// A clash and apart have a status of their own only where that is asked for.
fn verdict_status(status: u8, words: &Words) -> u8 {
    match status {
        CLASH | APART if !words.exit_code => 0,
        status => status,
    }
}

/// Goes through all files, of sheets or books, also where one is faulty. Of several statuses the worst is given.
fn each(
    files: &[&str],
    things: &str,
    one: impl Fn(&str) -> Result<u8, Failure>,
) -> Result<u8, Failure> {
    let (mut statuses, mut unanswered) = (Vec::new(), 0);
    for (number, file) in files.iter().enumerate() {
        if number > 0 {
            say(b"\n")?;
        }
        match one(file) {
            Ok(status) => statuses.push(status),
            Err(failure) => {
                eprintln!("{}", failure.message);
                unanswered += 1;
            }
        }
    }
    if unanswered > 0 {
        if files.len() > 1 {
            eprintln!(
                "lunthegyr: {unanswered} of {} {things} not answered",
                files.len()
            );
        }
        statuses.push(FAULT);
    }
    let worst = [DISAGREE, FAULT, CLASH, APART]
        .into_iter()
        .find(|status| statuses.contains(status));
    Ok(worst.unwrap_or(0))
}

fn check_one(file: &str, solver: Option<&str>) -> Result<u8, Failure> {
    let input = input::load(file).map_err(faulty)?;
    let (found, lines) = verdict::of(&input);
    say_lines(&lines)?;
    if let Some(name) = solver {
        let (agree, lines) = opinion::of(&input, &found, name).map_err(faulty)?;
        say_lines(&lines)?;
        if !agree {
            return Ok(DISAGREE);
        }
    }
    Ok(match found {
        Some(_) => CLASH,
        None if apart::rules_can_hold(&input.form) => APART,
        None => FAULT,
    })
}

fn book(words: &[String]) -> Result<u8, Failure> {
    let words = taken(words, words::OF_BOOK, "book needs a book")?;
    if let Some(templates) = words.sheet {
        return sheet_of_book(words.files[0], templates);
    }
    let solver = solver(&words)?;
    let status = each(&words.files, "books", |file| {
        book_one(file, words.hours, solver.as_deref())
    })?;
    Ok(verdict_status(status, &words))
}

fn book_one(file: &str, hours: Option<&str>, solver: Option<&str>) -> Result<u8, Failure> {
    let input = book::input::load(file, hours).map_err(faulty)?;
    let (agree, lines) = book::verdict::of(&input);
    say_lines(&lines)?;
    if !agree {
        return Ok(DISAGREE);
    }
    if let Some(name) = solver {
        let (outcome, lines) = book::opinion::of(&input, name);
        say_lines(&lines)?;
        match outcome {
            Outcome::Agree => {}
            Outcome::Undecided => return Ok(FAULT),
            Outcome::Disagree => return Ok(DISAGREE),
        }
    }
    Ok(match input.listed().is_empty() {
        true => APART,
        false => CLASH,
    })
}

/// Writes the question of two templates as a sheet.
fn sheet_of_book(file: &str, templates: [&str; 2]) -> Result<u8, Failure> {
    let input = book::input::load(file, None).map_err(faulty)?;
    let text = book::question::text(&input, templates).map_err(faulty)?;
    say(text.as_bytes())?;
    Ok(0)
}

fn count(words: &[String]) -> Result<u8, Failure> {
    let words = taken(words, words::NONE, "count needs a sheet")?;
    each(&words.files, "sheets", count_one)
}

fn count_one(file: &str) -> Result<u8, Failure> {
    let input = input::load(file).map_err(faulty)?;
    let (same, lines) = count::of(&input);
    say_lines(&lines)?;
    Ok(if same { 0 } else { DISAGREE })
}

fn fill(words: &[String]) -> Result<u8, Failure> {
    let (file, texts) = match words.split_first() {
        Some(parts) => parts,
        None => return misuse("fill needs a sheet".to_string()),
    };
    let input = input::load(file).map_err(faulty)?;
    let filling = fill::filling(&input, texts).map_err(faulty)?;
    let (fits, lines) = fill::verdict(&input, &filling).map_err(faulty)?;
    say_lines(&lines)?;
    Ok(if fits { 0 } else { DISAGREE })
}

fn bytes(words: &[String]) -> Result<u8, Failure> {
    let (file, out, hours_out) = match words {
        [file, out] => (file, out, None),
        [file, out, hours] if out != hours => (file, out, Some(hours)),
        [_, _, _] => return misuse("a book and its hours go to two files".to_string()),
        _ => return misuse("bytes needs a book or sheet, and a file to write to".to_string()),
    };
    let file = file::open(file, Kind::Sheet).map_err(faulty)?;
    let name = file.name.clone();
    let (bytes, hours) = match file.kind {
        Kind::Sheet => (
            input::of(file).map_err(faulty)?.sheet.bytes().to_vec(),
            None,
        ),
        Kind::Book => {
            let input = book::input::of(file, None).map_err(faulty)?;
            (input.book.bytes().to_vec(), input.hours)
        }
    };
    if hours.is_none() && hours_out.is_some() {
        return Err(faulty(format!(
            "{name} has no hours: only the text of a book has, in lines `hours ..`"
        )));
    }
    put(out, &bytes)?;
    match (hours, hours_out) {
        (Some(hours), Some(out)) => put(out, hours.bytes())?,
        (Some(_), None) => eprintln!("lunthegyr: {name} has hours too, and {out} has not; `lunthegyr bytes FILE OUT HOURS` writes them to a file of their own"),
        (None, _) => {}
    }
    Ok(0)
}

/// Writes bytes to a file; `-` is standard output.
fn put(out: &str, bytes: &[u8]) -> Result<(), Failure> {
    match out {
        "-" => say(bytes),
        _ => fs::write(out, bytes).map_err(|error| faulty(format!("{out}: {error}"))),
    }
}

fn text(words: &[String]) -> Result<u8, Failure> {
    let need = "text needs a book or sheet";
    let words = taken(words, words::OF_TEXT, need)?;
    let file = match words.files[..] {
        [file] => file,
        _ => return misuse(need.to_string()),
    };
    let file = file::open(file, Kind::Sheet).map_err(faulty)?;
    let text = match (file.kind, words.hours) {
        (Kind::Sheet, Some(_)) => Err(format!(
            "{}: this is a sheet, and a sheet has no hours",
            file.name
        )),
        (Kind::Sheet, None) => input::of(file).map(|input| input.form.text()),
        (Kind::Book, hours) => book::input::of(file, hours).map(|input| input.text()),
    };
    say(text.map_err(faulty)?.as_bytes())?;
    Ok(0)
}

fn explain(words: &[String]) -> Result<u8, Failure> {
    let mut refusals = Vec::new();
    for word in words {
        match word.parse().ok().and_then(Refusal::from_number) {
            Some(refusal) => refusals.push(refusal),
            None => return misuse(format!("no refusal has the number {word}")),
        }
    }
    if words.is_empty() {
        refusals.extend(Refusal::ALL);
    }
    let line = |refusal: Refusal| format!("{:2}  {}", refusal.number(), refusal.words());
    say_lines(&refusals.into_iter().map(line).collect::<Vec<_>>())?;
    Ok(0)
}

/// Writes to standard output.
fn say(bytes: &[u8]) -> Result<(), Failure> {
    let mut out = io::stdout();
    let written = out.write_all(bytes).and_then(|()| out.flush());
    written.map_err(|error| faulty(format!("lunthegyr: standard output: {error}")))
}

fn say_lines(lines: &[String]) -> Result<(), Failure> {
    let text: String = lines.iter().map(|line| format!("{line}\n")).collect();
    say(text.as_bytes())
}
