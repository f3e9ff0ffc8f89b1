//! Reads the lines of hours in a book's text:
//!
//!     hours weekly-test Mon 09:00-17:30, Sat 10:00-14:00   when a template is sent: windows, in any order
//!     hours night-test Sun 22:00-06:00                     a window that goes past midnight; past that of Sunday it is two
//!     hours old-test                                       a template that is never sent
//!
//! In a text with such a line a template without one may be sent at any time. What hours may have is not judged here: the engine does that.

use super::week;
use crate::line::{fault_at, Line};
use crate::source::{Fault, Place};
use lunthegyr::Window;

/// The lines of hours as they were read.
pub struct Read {
    /// Where the first one starts.
    pub start: Place,
    /// The windows of each template.
    pub templates: Vec<Windows>,
}

/// Windows by their starts, each with where it stands. The two across Sunday midnight stand at the same place.
pub struct Windows(pub Vec<(Window, Place)>);

impl Windows {
    /// Without their places.
    pub fn alone(&self) -> Vec<Window> {
        self.0.iter().map(|row| row.0).collect()
    }

    /// Where the one stands that is too many, if there is one.
    pub fn too_many(&self) -> Option<Place> {
        let mut places: Vec<Place> = self.0.iter().map(|row| row.1).collect();
        places.sort_by_key(|place| place.column);
        places.get(lunthegyr::WINDOWS_MOST).copied()
    }
}

/// Reads lines of hours, each after its first word, with where that stands, for templates of these names; none if there are no lines.
pub fn read(lines: Vec<(Place, Line)>, names: &[&str]) -> Result<Option<Read>, Fault> {
    let start = match lines.first() {
        Some(first) => first.0,
        None => return Ok(None),
    };
    let mut read: Vec<Option<(usize, Windows)>> = names.iter().map(|_| None).collect();
    for (_, mut line) in lines {
        let (template, place) = template(&mut line, names)?;
        if let Some((first, _)) = read[template] {
            let name = names[template];
            return fault_at(
                place,
                format!("a second line of hours for `{name}`; the first is line {first}"),
            );
        }
        read[template] = Some((place.line, windows(&mut line)?));
    }
    let any_time = || Windows(vec![(week::WEEK, start)]);
    let read = read.into_iter();
    let templates = read.map(|windows| windows.map_or_else(any_time, |row| row.1));
    Ok(Some(Read {
        start,
        templates: templates.collect(),
    }))
}

/// The number of the template whose name comes next, and where that stands.
fn template(line: &mut Line, names: &[&str]) -> Result<(usize, Place), Fault> {
    line.peek();
    let place = line.place();
    let name = line.dashed();
    if name.is_empty() {
        return line.expected("the template's name");
    }
    match names.iter().position(|own| *own == name) {
        Some(number) => Ok((number, place)),
        None => fault_at(place, format!("there is no line `template {name} ..`")),
    }
}

/// Windows up to the end of the line, of which there may be none.
fn windows(line: &mut Line) -> Result<Windows, Fault> {
    let mut windows = Vec::new();
    while line.peek().is_some() {
        if !windows.is_empty() {
            line.expect(',', "between two windows")?;
            line.peek();
        }
        let place = line.place();
        let read = week::read(line)?.into_iter();
        windows.extend(read.map(|window| (window, place)));
    }
    windows.sort_by_key(|row| row.0.start);
    Ok(Windows(windows))
}
