//! What is drawn: the crates with what they use, and the groups in which they stand.

use std::collections::{BTreeMap, BTreeSet};
use std::path::Path;

/// A crate in a row, and how many columns wide it is; or room, with a dash for a name.
#[derive(Clone)]
pub struct Seat {
    pub name: String,
    pub wide: usize,
}

impl Seat {
    /// Whether a crate sits here.
    pub fn taken(&self) -> bool {
        self.name != "-"
    }
}

/// A group: its name, a few words, and its crates in rows, the top row first.
#[derive(Clone)]
pub struct Group {
    pub name: String,
    pub words: String,
    pub rows: Vec<Vec<Seat>>,
}

impl Group {
    pub fn crates(&self) -> impl Iterator<Item = &String> {
        let seats = self.rows.iter().flatten();
        seats.filter(|seat| seat.taken()).map(|seat| &seat.name)
    }
}

/// The groups floor by floor, the top floor first; of each crate a few words, and what it uses but for what it uses by
/// way of another.
#[derive(Clone)]
pub struct Plan {
    pub floors: Vec<Vec<Group>>,
    pub words: BTreeMap<String, String>,
    pub uses: BTreeMap<String, Vec<String>>,
}

impl Plan {
    pub fn groups(&self) -> impl Iterator<Item = &Group> {
        self.floors.iter().flatten()
    }

    /// The place of a crate's group among all groups, and its floor, counted from the top.
    pub fn stands(&self, name: &str) -> (usize, usize) {
        let is_in = |group: &Group| group.crates().any(|other| other == name);
        let mut floors = self.floors.iter();
        (
            self.groups().position(is_in).unwrap_or(0),
            floors
                .position(|floor| floor.iter().any(is_in))
                .unwrap_or(0),
        )
    }

    /// What a crate uses of its own group.
    pub fn beside(&self, name: &str) -> Vec<&str> {
        self.used(name, |same, _| same)
    }

    /// What it uses of others, but for those on the lowest floor, which carries all.
    pub fn elsewhere(&self, name: &str) -> Vec<&str> {
        self.used(name, |same, floor| !same && floor + 1 < self.floors.len())
    }

    /// The same with two crates in each other's place.
    pub fn exchanged(&self, one: &str, other: &str) -> Plan {
        let mut plan = self.clone();
        let rows = plan
            .floors
            .iter_mut()
            .flatten()
            .flat_map(|group| &mut group.rows);
        for seat in rows.flatten() {
            if seat.name == one {
                seat.name = other.to_string();
            } else if seat.name == other {
                seat.name = one.to_string();
            }
        }
        plan
    }

    /// What it uses of the groups that are wanted, by whether one is its own and on which floor it stands.
    fn used(&self, name: &str, wanted: impl Fn(bool, usize) -> bool) -> Vec<&str> {
        let (own, _) = self.stands(name);
        let used = self.uses[name].iter().map(String::as_str);
        used.filter(|other| {
            let (group, floor) = self.stands(other);
            wanted(group == own, floor)
        })
        .collect()
    }
}

/// Whether a crate is a program, which has a `main`.
pub fn is_program(name: &str) -> bool {
    Path::new("crates").join(name).join("src/main.rt").exists()
}

/// Lines that say something.
fn lines(text: &str) -> impl Iterator<Item = &str> {
    text.lines()
        .map(str::trim)
        .filter(|line| !line.is_empty() && !line.starts_with('#'))
}

/// The crates of crates.txt with all that they use. The kit's libraries, which have no line there, are passed over.
fn crates(text: &str) -> BTreeMap<String, BTreeSet<String>> {
    let all: BTreeMap<&str, &str> = lines(text)
        .filter_map(|line| line.split_once(':'))
        // A static library has that word after its name.
        .map(|(name, names)| (name.split(' ').next().unwrap_or(name), names))
        .collect();
    let used = |names: &str| -> BTreeSet<String> {
        let names = names.split_whitespace();
        names
            .filter(|name| all.contains_key(name))
            .map(String::from)
            .collect()
    };
    all.iter()
        .map(|(name, names)| (name.to_string(), used(names)))
        .collect()
}

/// Of what a crate uses, what none of the others that it uses does.
fn reduced(all: &BTreeMap<String, BTreeSet<String>>, name: &str) -> Vec<String> {
    let used = &all[name];
    used.iter()
        .filter(|one| !used.iter().any(|other| all[other].contains(*one)))
        .cloned()
        .collect()
}

/// A crate, or one with a star and the number of its columns; a dash is room.
fn seat(word: &str) -> Option<Seat> {
    let (name, wide) = word.split_once('*').unwrap_or((word, "1"));
    Some(Seat {
        name: name.to_string(),
        wide: wide.parse().ok().filter(|wide| *wide > 0)?,
    })
}

/// Adds what a line of docs/groups.txt says; nothing is answered where it says nothing.
fn add(
    line: &str,
    floors: &mut Vec<Vec<Group>>,
    words: &mut BTreeMap<String, String>,
) -> Option<()> {
    if line == "floor" {
        floors.push(Vec::new());
    } else if let Some(rest) = line.strip_prefix("group ") {
        let (name, said) = rest.split_once(": ")?;
        floors.last_mut()?.push(Group {
            name: name.to_string(),
            words: said.to_string(),
            rows: Vec::new(),
        });
    } else if let Some(rest) = line.strip_prefix("row ") {
        let row: Option<Vec<Seat>> = rest.split_whitespace().map(seat).collect();
        floors.last_mut()?.last_mut()?.rows.push(row?);
    } else {
        let (name, said) = line.split_once(": ")?;
        words.insert(name.to_string(), said.to_string());
    }
    Some(())
}

/// The plan of two files; or what is wrong with it.
pub fn read(list: &str, groups: &str) -> Result<Plan, Vec<String>> {
    let all = crates(list);
    let mut floors: Vec<Vec<Group>> = Vec::new();
    let mut words = BTreeMap::new();
    let mut faults = Vec::new();
    for line in lines(groups) {
        if add(line, &mut floors, &mut words).is_none() {
            faults.push(format!("docs/groups.txt: what is meant by: {line}"));
        }
    }
    let uses = all.keys().map(|name| (name.clone(), reduced(&all, name)));
    let plan = Plan {
        uses: uses.collect(),
        floors,
        words,
    };
    faults.extend(missing(&plan));
    if faults.is_empty() {
        Ok(plan)
    } else {
        Err(faults)
    }
}

/// Crates that stand in no row or in two, that are not there or have no words, and groups without crates.
fn missing(plan: &Plan) -> Vec<String> {
    let mut faults = Vec::new();
    for name in plan.uses.keys() {
        let times = plan
            .groups()
            .flat_map(Group::crates)
            .filter(|other| *other == name);
        match times.count() {
            0 => faults.push(format!(
                "docs/groups.txt: {name} of crates.txt stands in no row"
            )),
            1 => {}
            n => faults.push(format!("docs/groups.txt: {name} stands in {n} rows")),
        }
        if !plan.words.contains_key(name) {
            faults.push(format!("docs/groups.txt: {name} has no words"));
        }
    }
    let empty = plan
        .groups()
        .filter(|group| group.crates().next().is_none());
    faults.extend(empty.map(|group| format!("docs/groups.txt: {} has no row", group.name)));
    let named = plan
        .groups()
        .flat_map(Group::crates)
        .chain(plan.words.keys());
    let unknown: BTreeSet<&String> = named
        .filter(|name| !plan.uses.contains_key(*name))
        .collect();
    faults.extend(
        unknown
            .iter()
            .map(|name| format!("docs/groups.txt: {name} is no crate of crates.txt")),
    );
    faults
}
