//! Where everything stands: floor above floor, groups side by side, and in a group row above row, each as wide as the
//! group.

use crate::label::{self, LINE};
use crate::plan::{Group, Plan, Seat};
use std::collections::BTreeMap;

/// In pixels: the picture's width, and the room around all.
pub const WIDTH: f64 = 900.0;
pub const MARGIN: f64 = 8.0;
/// Between floors and between groups; between rows, and between the boxes of a row.
const GAP: f64 = 10.0;
const ROW_GAP: f64 = 21.0;
const BOX_GAP: f64 = 20.0;
/// Inside a group's frame, and inside a box above and below its lines.
pub const PAD: f64 = 10.0;
const BOX_PAD: f64 = 5.0;
/// Between a group's name and its words, and above and below these.
pub const HEAD_GAP: f64 = 10.0;
const HEAD_PAD: f64 = 6.0;

#[derive(Clone, Copy)]
pub struct Rect {
    pub x: f64,
    pub y: f64,
    pub w: f64,
    pub h: f64,
}

impl Rect {
    pub fn right(&self) -> f64 {
        self.x + self.w
    }
    pub fn bottom(&self) -> f64 {
        self.y + self.h
    }
    /// How many lines of text a box of this height has.
    pub fn lines(&self) -> usize {
        ((self.h - 2.0 * BOX_PAD) / LINE).round() as usize
    }
}

/// The frames of the groups in their order, the boxes of the crates, and the height of all.
pub struct Places {
    pub frames: Vec<Rect>,
    pub boxes: BTreeMap<String, Rect>,
    pub height: f64,
}

/// The columns of a row, and the most that a row of a group has.
fn columns_of(row: &[Seat]) -> usize {
    row.iter().map(|seat| seat.wide).sum()
}

fn columns(group: &Group) -> f64 {
    let rows = group.rows.iter();
    rows.map(|row| columns_of(row)).max().unwrap_or(0) as f64
}

/// The lines of a group's head: its name and its words, in one line where they fit.
pub fn head(group: &Group, width: f64) -> Vec<String> {
    let room = width - 2.0 * PAD;
    let mut lines = vec![String::new()];
    let mut left = room - label::group_width(&group.name) - HEAD_GAP;
    if label::width(&group.words, label::WORDS) > left {
        lines.push(String::new());
        left = room;
    }
    for word in group.words.split(' ') {
        let size = label::width(word, label::WORDS) + label::width(" ", label::WORDS);
        if size > left {
            lines.push(String::new());
            left = room;
        }
        let last = lines.last_mut().unwrap();
        if !last.is_empty() {
            last.push(' ');
        }
        last.push_str(word);
        left -= size;
    }
    lines
}

/// Left ends and widths of the boxes of a row, in a group of this width.
fn spans(row: &[Seat], width: f64) -> Vec<(f64, f64)> {
    let columns = columns_of(row) as f64;
    let pitch = (width - 2.0 * PAD + BOX_GAP) / columns;
    let mut before = 0.0;
    let mut all = Vec::new();
    for seat in row {
        all.push((PAD + before * pitch, seat.wide as f64 * pitch - BOX_GAP));
        before += seat.wide as f64;
    }
    all
}

/// The height of a row.
fn row_height(plan: &Plan, row: &[Seat], width: f64) -> f64 {
    let needed = |(seat, (_, width)): (&Seat, (f64, f64))| label::needed(plan, &seat.name, width);
    let taken = row
        .iter()
        .zip(spans(row, width))
        .filter(|(seat, _)| seat.taken());
    let most = taken.filter_map(needed).max();
    2.0 * BOX_PAD + LINE * most.unwrap_or(1) as f64
}

/// The heights of a group's rows.
fn row_heights(plan: &Plan, group: &Group, width: f64) -> Vec<f64> {
    let rows = group.rows.iter();
    rows.map(|row| row_height(plan, row, width)).collect()
}

pub fn places(plan: &Plan) -> Places {
    let mut all = Places {
        frames: Vec::new(),
        boxes: BTreeMap::new(),
        height: MARGIN,
    };
    for floor in &plan.floors {
        put_floor(plan, floor, &mut all);
    }
    all
}

/// The widths of the groups of a floor: as each needs for its columns, all being as wide.
fn widths(floor: &[Group]) -> Vec<f64> {
    let gaps = |group: &Group| 2.0 * PAD + (columns(group) - 1.0) * BOX_GAP;
    let room = WIDTH
        - 2.0 * MARGIN
        - (floor.len() as f64 - 1.0) * GAP
        - floor.iter().map(gaps).sum::<f64>();
    let column = room / floor.iter().map(columns).sum::<f64>();
    floor
        .iter()
        .map(|group| gaps(group) + columns(group) * column)
        .collect()
}

/// A floor below what there is.
fn put_floor(plan: &Plan, floor: &[Group], all: &mut Places) {
    let widths = widths(floor);
    let sizes = || floor.iter().zip(&widths);
    let top = sizes()
        .map(|(group, width)| head(group, *width).len())
        .max()
        .unwrap_or(1) as f64
        * LINE
        + 2.0 * HEAD_PAD;
    let body = |(group, width): (&Group, &f64)| {
        row_heights(plan, group, *width).iter().sum::<f64>()
            + (group.rows.len() as f64 - 1.0) * ROW_GAP
    };
    let height = sizes().map(body).fold(0.0, f64::max);
    let mut x = MARGIN;
    for (group, width) in sizes() {
        all.frames.push(Rect {
            x,
            y: all.height,
            w: *width,
            h: top + height + PAD,
        });
        // What a lower group has to spare goes between its rows.
        let gap =
            ROW_GAP + (height - body((group, width))) / (group.rows.len() as f64 - 1.0).max(1.0);
        let mut y = all.height + top;
        for (row, h) in group.rows.iter().zip(row_heights(plan, group, *width)) {
            let seats = row.iter().zip(spans(row, *width));
            for (seat, (left, w)) in seats.filter(|(seat, _)| seat.taken()) {
                let x = x + left;
                all.boxes.insert(seat.name.clone(), Rect { x, y, w, h });
            }
            y += h + gap;
        }
        x += width + GAP;
    }
    all.height += top + height + PAD + GAP;
}
