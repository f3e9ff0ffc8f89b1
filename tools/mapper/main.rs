//! Draws the crates in their groups, bottom up, from crates.txt and docs/groups.txt: docs/map.svg. With `--check` it
//! writes nothing, and fails where the picture or the lists of docs/MAP.md are not up to date. It is run in the
//! repository's folder, by tools/map.

mod arrows;
mod draw;
mod label;
mod page;
mod place;
mod plan;

use std::fs;
use std::process::exit;

const PICTURE: &str = "docs/map.svg";
const PAGE: &str = "docs/MAP.md";

/// A file's text, or nothing where it is not there.
fn text(path: &str) -> String {
    fs::read_to_string(path).unwrap_or_default()
}

/// Says what is wrong, and ends.
fn fail(faults: &[String]) -> ! {
    for fault in faults {
        eprintln!("tools/map: FAILED: {fault}");
    }
    exit(1);
}

/// The picture as it has to be; or what is wrong with the groups.
fn picture(plan: &plan::Plan) -> Result<String, Vec<String>> {
    let faults = arrows::faults(plan);
    if faults.is_empty() {
        Ok(draw::svg(plan))
    } else {
        Err(faults)
    }
}

fn main() {
    let words: Vec<String> = std::env::args().skip(1).collect();
    let check = match words.iter().map(String::as_str).collect::<Vec<_>>()[..] {
        [] => false,
        ["--check"] => true,
        _ => {
            eprintln!("Usage: tools/map [--check]");
            exit(2);
        }
    };
    let plan = plan::read(&text("crates.txt"), &text("docs/groups.txt"))
        .unwrap_or_else(|faults| fail(&faults));
    let due = picture(&plan).unwrap_or_else(|faults| fail(&faults));
    if !check {
        fs::write(PICTURE, due).unwrap_or_else(|error| fail(&[format!("{PICTURE}: {error}")]));
        return;
    }
    let mut faults = page::faults(&plan, &text(PAGE));
    if text(PICTURE) != due {
        faults.push(format!(
            "{PICTURE} is not what crates.txt and docs/groups.txt say: run tools/map"
        ));
    }
    if !faults.is_empty() {
        fail(&faults);
    }
    println!(
        "map: {} crates in {} groups, as drawn and as listed",
        plan.uses.len(),
        plan.groups().count()
    );
}
