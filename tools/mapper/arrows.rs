//! The arrows inside the groups, each from a crate to one that it uses; and what is wrong with how crates stand.

use crate::label;
use crate::place::{places, Places, Rect};
use crate::plan::Plan;

pub struct Arrow<'a> {
    pub user: &'a str,
    pub used: &'a str,
    pub from: (f64, f64),
    pub to: (f64, f64),
}

/// How far from a box's corner an arrow begins or ends that goes to one side.
const INSET: f64 = 16.0;

/// An arrow's ends: straight down, to a side, or from corner to corner.
fn ends(user: &Rect, used: &Rect) -> ((f64, f64), (f64, f64)) {
    let middle = user.y + user.h / 2.0;
    if user.y == used.y {
        return if used.x < user.x {
            ((user.x, middle), (used.right(), middle))
        } else {
            ((user.right(), middle), (used.x, middle))
        };
    }
    let (left, right) = (user.x.max(used.x), user.right().min(used.right()));
    let (a, b) = if left + INSET < right {
        ((left + right) / 2.0, (left + right) / 2.0)
    } else if used.x < user.x {
        (user.x + INSET, used.right() - INSET)
    } else {
        (user.right() - INSET, used.x + INSET)
    };
    ((a, user.bottom()), (b, used.y))
}

pub fn arrows<'a>(plan: &'a Plan, places: &Places) -> Vec<Arrow<'a>> {
    let mut all = Vec::new();
    for user in plan.uses.keys() {
        for used in plan.beside(user) {
            let (from, to) = ends(&places.boxes[user], &places.boxes[used]);
            all.push(Arrow {
                user,
                used,
                from,
                to,
            });
        }
    }
    all
}

/// On which side of the line from a to b a point is.
fn side(a: (f64, f64), b: (f64, f64), p: (f64, f64)) -> f64 {
    (b.0 - a.0) * (p.1 - a.1) - (b.1 - a.1) * (p.0 - a.0)
}

/// Whether two lines cross between their ends.
fn cross(a: (f64, f64), b: (f64, f64), c: (f64, f64), d: (f64, f64)) -> bool {
    side(a, b, c) * side(a, b, d) < 0.0 && side(c, d, a) * side(c, d, b) < 0.0
}

/// Whether an arrow runs through a box.
fn through(arrow: &Arrow, at: &Rect) -> bool {
    let corners = [
        (at.x, at.y),
        (at.right(), at.y),
        (at.right(), at.bottom()),
        (at.x, at.bottom()),
    ];
    (0..4).any(|k| cross(arrow.from, arrow.to, corners[k], corners[(k + 1) % 4]))
}

/// How many pairs of arrows cross.
fn crossings(plan: &Plan) -> usize {
    let all = arrows(plan, &places(plan));
    let pairs = all
        .iter()
        .enumerate()
        .flat_map(|(n, one)| all[..n].iter().map(move |other| (one, other)));
    pairs
        .filter(|(one, other)| cross(one.from, one.to, other.from, other.to))
        .count()
}

/// What is wrong with where the crates stand: words for which a box is too narrow, arrows that go up or through a box,
/// tags of crates on a higher floor, and arrows that would cross less often if two crates of a row were exchanged.
pub fn faults(plan: &Plan) -> Vec<String> {
    let places = places(plan);
    let mut faults = Vec::new();
    for (name, at) in &places.boxes {
        if label::needed(plan, name, at.w).is_none() {
            faults.push(format!(
                "docs/groups.txt: the box of {name} is too narrow for its words or tags"
            ));
        }
    }
    for arrow in arrows(plan, &places) {
        let Arrow { user, used, .. } = arrow;
        if arrow.from.1 > arrow.to.1 {
            faults.push(format!(
                "docs/groups.txt: {user} uses {used} and stands below it"
            ));
        }
        let others = places
            .boxes
            .iter()
            .filter(|(name, _)| *name != user && *name != used);
        for (name, at) in others {
            if through(&arrow, at) {
                faults.push(format!(
                    "docs/groups.txt: the arrow from {user} to {used} runs through {name}"
                ));
            }
        }
    }
    for user in plan.uses.keys() {
        for used in plan.elsewhere(user) {
            if plan.stands(used).1 < plan.stands(user).1 {
                faults.push(format!(
                    "docs/groups.txt: {user} uses {used} and stands on a floor below it"
                ));
            }
        }
    }
    faults.extend(better(plan));
    faults
}

/// Exchanges of two crates of a row with which fewer arrows would cross.
fn better(plan: &Plan) -> Vec<String> {
    let now = crossings(plan);
    let mut faults = Vec::new();
    for (group, row) in plan
        .groups()
        .flat_map(|group| group.rows.iter().map(move |row| (group, row)))
    {
        let names: Vec<&String> = row
            .iter()
            .filter(|seat| seat.taken())
            .map(|seat| &seat.name)
            .collect();
        for (n, one) in names.iter().enumerate() {
            for other in &names[..n] {
                if crossings(&plan.exchanged(one, other)) < now {
                    let name = &group.name;
                    faults.push(format!(
                        "docs/groups.txt: in {name} fewer arrows would cross with {other} and {one} exchanged"
                    ));
                }
            }
        }
    }
    faults
}
