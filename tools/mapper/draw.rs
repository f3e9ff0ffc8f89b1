//! The picture.

use crate::arrows::arrows;
use crate::label::{self, Kind, Piece, LINE};
use crate::place::{head, places, Rect, HEAD_GAP, MARGIN, PAD, WIDTH};
use crate::plan::{is_program, Group, Plan};
use std::fmt::Write;

/// For each group a dark colour, for edges and names, and a light one, for what it fills.
const COLOURS: [(&str, &str); 8] = [
    ("#3f4a63", "#e8ebf2"),
    ("#a3254c", "#fae6ec"),
    ("#b1440f", "#fcebdf"),
    ("#63389b", "#efe7f8"),
    ("#0f6b66", "#dff2f0"),
    ("#2a6e2d", "#e5f3e4"),
    ("#1f5fa8", "#e3eefb"),
    ("#6b5a2a", "#f5efdc"),
];

/// From a box's upper edge to where the letters of its first line stand.
const BASE: f64 = 17.0;
/// The height of what stands below all.
const FOOT: f64 = 30.0;

fn colours(plan: &Plan, name: &str) -> (&'static str, &'static str) {
    COLOURS[plan.stands(name).0 % COLOURS.len()]
}

pub fn svg(plan: &Plan) -> String {
    let places = places(plan);
    let (width, height) = (WIDTH, places.height + FOOT);
    let mut out = format!(
        "<svg xmlns=\"http://www.w3.org/2000/svg\" width=\"{width}\" height=\"{height}\" \
         viewBox=\"0 0 {width} {height}\" font-family=\"sans-serif\" font-size=\"12\" fill=\"#222\">\n\
         <title>The crates in their groups, bottom up</title>\n\
         <defs><marker id=\"head\" viewBox=\"0 0 8 8\" refX=\"7.5\" refY=\"4\" markerWidth=\"8\" \
         markerHeight=\"8\" markerUnits=\"userSpaceOnUse\" orient=\"auto\"><path d=\"M0 0.5 L8 4 L0 7.5 z\" fill=\"#333\"/>\
         </marker></defs>\n\
         <rect width=\"100%\" height=\"100%\" fill=\"white\"/>\n"
    );
    for ((number, group), frame) in plan.groups().enumerate().zip(&places.frames) {
        put_frame(&mut out, group, frame, COLOURS[number % COLOURS.len()]);
    }
    for arrow in arrows(plan, &places) {
        put_arrow(&mut out, arrow.from, arrow.to);
    }
    for (name, at) in &places.boxes {
        put_box(&mut out, plan, name, at);
    }
    put_foot(&mut out, places.height);
    out + "</svg>\n"
}

fn put_frame(out: &mut String, group: &Group, frame: &Rect, (dark, light): (&str, &str)) {
    put_rect(out, frame, 6, light, dark);
    let Rect { x, y, w, .. } = *frame;
    let base = y + 20.0;
    put_text(
        out,
        (x + PAD, base),
        dark,
        "font-size=\"15\" font-weight=\"bold\"",
        &group.name,
    );
    for (number, line) in head(group, w).iter().enumerate() {
        let left = match number {
            0 => x + PAD + label::group_width(&group.name) + HEAD_GAP,
            _ => x + PAD,
        };
        if !line.is_empty() {
            put_text(out, (left, base + LINE * number as f64), "#222", "", line);
        }
    }
}

fn put_box(out: &mut String, plan: &Plan, name: &str, at: &Rect) {
    let (dark, _) = colours(plan, name);
    let (fill, ink) = if is_program(name) {
        (dark, "white")
    } else {
        ("white", "#222")
    };
    put_rect(out, at, 4, fill, dark);
    let mut base = at.y + BASE;
    for line in &label::lines(plan, name, at.w, at.lines()).unwrap_or_default() {
        put_line(out, plan, line, (at.x, base), ink);
        base += LINE;
    }
}

fn put_line(out: &mut String, plan: &Plan, line: &[Piece], (x, base): (f64, f64), ink: &str) {
    for Piece {
        kind,
        text,
        left,
        width,
    } in line
    {
        let left = x + left;
        match kind {
            Kind::Name => {
                let look = format!(
                    "font-family=\"monospace\" font-size=\"{}\" font-weight=\"bold\"",
                    label::NAME
                );
                put_text(out, (left, base), ink, &look, text);
            }
            Kind::Words => put_text(out, (left, base), ink, "", text),
            Kind::Tag => {
                let (dark, light) = colours(plan, text);
                let around = Rect {
                    x: left,
                    y: base - 11.0,
                    w: *width,
                    h: 14.5,
                };
                put_rect(out, &around, 3, light, dark);
                put_text(
                    out,
                    (left + width / 2.0, base),
                    dark,
                    "text-anchor=\"middle\"",
                    text,
                );
            }
        }
    }
}

/// How to read it all.
fn put_foot(out: &mut String, top: f64) {
    let base = top + 14.0;
    put_arrow(out, (MARGIN + 4.0, base - 4.0), (MARGIN + 34.0, base - 4.0));
    put_text(out, (MARGIN + 42.0, base), "#222", "", "uses");
    let tag = Rect {
        x: MARGIN + 92.0,
        y: base - 11.0,
        w: 30.0,
        h: 14.5,
    };
    put_rect(out, &tag, 3, "#eee", "#555");
    put_text(out, (tag.x + 7.0, base), "#333", "", "tag");
    put_text(
        out,
        (tag.right() + 8.0, base),
        "#222",
        "",
        "uses that crate of another group",
    );
    let program = Rect { x: 382.0, ..tag };
    put_rect(out, &program, 3, COLOURS[0].0, COLOURS[0].0);
    put_text(out, (program.right() + 8.0, base), "#222", "", "program");
    put_text(
        out,
        (492.0, base),
        "#222",
        "",
        "Where another way leads there, neither arrow nor tag is drawn.",
    );
}

fn put_arrow(out: &mut String, from: (f64, f64), to: (f64, f64)) {
    element(
        out,
        &format!(
            "<line x1=\"{:.1}\" y1=\"{:.1}\" x2=\"{:.1}\" y2=\"{:.1}\" stroke=\"#333\" stroke-width=\"1.4\" \
             marker-end=\"url(#head)\"/>",
            from.0, from.1, to.0, to.1
        ),
    );
}

fn put_rect(out: &mut String, at: &Rect, round: usize, fill: &str, edge: &str) {
    element(
        out,
        &format!(
            "<rect x=\"{:.1}\" y=\"{:.1}\" width=\"{:.1}\" height=\"{:.1}\" \
             rx=\"{round}\" fill=\"{fill}\" stroke=\"{edge}\"/>",
            at.x, at.y, at.w, at.h
        ),
    );
}

fn put_text(out: &mut String, (x, y): (f64, f64), ink: &str, look: &str, words: &str) {
    let words = words.replace('&', "&amp;").replace('<', "&lt;");
    element(
        out,
        &format!("<text x=\"{x:.1}\" y=\"{y:.1}\" fill=\"{ink}\" {look}>{words}</text>"),
    );
}

fn element(out: &mut String, element: &str) {
    writeln!(out, "{element}").expect("memory takes all");
}
