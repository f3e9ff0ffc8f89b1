//! The lists of docs/MAP.md: under a heading with a group's name one line for each of its crates, which begins with the
//! crate's name in code.

use crate::plan::Plan;

/// The name of a line `- ` and a crate's name in code.
fn listed(line: &str) -> Option<&str> {
    let (name, _) = line.strip_prefix("- `")?.split_once('`')?;
    Some(name)
}

/// The lines under the heading of a group, up to the next heading.
fn section<'a>(page: &'a str, group: &str) -> Option<Vec<&'a str>> {
    let heading = format!("### {group}");
    let mut lines = page.lines();
    lines.find(|line| *line == heading)?;
    Some(lines.take_while(|line| !line.starts_with('#')).collect())
}

/// What the page's lists lack, and what they have too much.
pub fn faults(plan: &Plan, page: &str) -> Vec<String> {
    let mut faults = Vec::new();
    for group in plan.groups() {
        let name = &group.name;
        let lines = section(page, name);
        if lines.is_none() {
            faults.push(format!("docs/MAP.md: no heading: ### {name}"));
        }
        let lines = lines.unwrap_or_default();
        let there: Vec<&str> = lines.iter().filter_map(|line| listed(line)).collect();
        for one in group.crates() {
            match there.iter().filter(|other| *other == one).count() {
                0 => faults.push(format!("docs/MAP.md: no line for {one} under {name}")),
                1 => {}
                n => faults.push(format!("docs/MAP.md: {n} lines for {one} under {name}")),
            }
        }
        for other in there {
            if !group.crates().any(|one| one == other) {
                faults.push(format!("docs/MAP.md: {other} does not stand in {name}"));
            }
        }
    }
    faults
}
