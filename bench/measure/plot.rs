//! Plots of panels in SVG: times in milliseconds on a logarithmic axis, which all panels share.

use std::fmt::Write;

/// Times against one size.
pub struct Panel {
    pub title: String,
    pub axis: String,
    pub lines: Vec<Line>,
}

/// The times of one thing, by its name.
pub struct Line {
    pub name: String,
    pub points: Vec<(usize, f64)>,
}

impl Line {
    pub fn new(name: &str) -> Line {
        Line {
            name: name.to_string(),
            points: Vec::new(),
        }
    }
}

/// In pixels: a panel's area for lines, and the room around it, left and above.
const AREA: (f64, f64) = (330.0, 200.0);
const ROOM: (f64, f64) = (75.0, 50.0);
/// From a panel to the next, right and below.
const PITCH: (f64, f64) = (440.0, 310.0);
/// Above all panels: the title and the names of the lines.
const HEAD: f64 = 60.0;
const PANELS_IN_A_ROW: usize = 2;
/// A colour, and how a line is broken, for each line of a panel.
const STYLES: [(&str, &str); 3] = [("#1f5fa8", ""), ("#c8501e", "7 4"), ("#2f7d32", "2 3")];

/// From the decade at or below the least time to the one at or above the greatest, as powers of ten.
fn decades(panels: &[Panel]) -> (i32, i32) {
    let times = panels
        .iter()
        .flat_map(|panel| &panel.lines)
        .flat_map(|line| &line.points);
    let powers: Vec<f64> = times.map(|(_, time)| time.log10()).collect();
    let least = powers.iter().copied().fold(f64::MAX, f64::min).floor() as i32;
    let greatest = powers.iter().copied().fold(f64::MIN, f64::max).ceil() as i32;
    (least, greatest.max(least + 1))
}

/// The whole plot.
pub fn svg(title: &str, panels: &[Panel]) -> String {
    let rows = (panels.len() + PANELS_IN_A_ROW - 1) / PANELS_IN_A_ROW;
    let (width, height) = (
        PITCH.0 * PANELS_IN_A_ROW as f64,
        HEAD + PITCH.1 * rows as f64,
    );
    let mut out = format!(
        "<svg xmlns=\"http://www.w3.org/2000/svg\" width=\"{width}\" height=\"{height}\" viewBox=\"0 0 {width} {height}\" \
         font-family=\"sans-serif\" font-size=\"13\" fill=\"#222\">\n<rect width=\"100%\" height=\"100%\" fill=\"white\"/>\n"
    );
    text(&mut out, (width / 2.0, 22.0), "middle", 17, title);
    for (number, line) in panels[0].lines.iter().enumerate() {
        let left = ROOM.0 + 250.0 * number as f64;
        stroke(&mut out, number, &[(left, 44.0), (left + 34.0, 44.0)]);
        text(&mut out, (left + 42.0, 48.0), "start", 13, &line.name);
    }
    for (number, panel) in panels.iter().enumerate() {
        let column = (number % PANELS_IN_A_ROW) as f64;
        let row = (number / PANELS_IN_A_ROW) as f64;
        let corner = (PITCH.0 * column + ROOM.0, HEAD + PITCH.1 * row + ROOM.1);
        draw(&mut out, corner, panel, decades(panels));
    }
    out + "</svg>\n"
}

/// A panel, its area's upper left corner here.
fn draw(out: &mut String, corner: (f64, f64), panel: &Panel, (least, greatest): (i32, i32)) {
    let (left, top) = corner;
    let (right, bottom) = (left + AREA.0, top + AREA.1);
    let values = || panel.lines[0].points.iter().map(|(value, _)| *value);
    let (first, last) = (values().min().unwrap_or(0), values().max().unwrap_or(1));
    let across = |value: usize| {
        left + AREA.0 * (0.5 + (value - first) as f64) / (1.0 + (last - first) as f64)
    };
    let up =
        |power: f64| bottom - AREA.1 * (power - f64::from(least)) / f64::from(greatest - least);
    text(
        out,
        ((left + right) / 2.0, top - 10.0),
        "middle",
        12,
        &panel.title,
    );
    for power in least..=greatest {
        let y = up(power.into());
        element(
            out,
            &format!(
                "<line x1=\"{left}\" y1=\"{y:.1}\" x2=\"{right}\" y2=\"{y:.1}\" stroke=\"#ddd\"/>"
            ),
        );
        text(out, (left - 7.0, y + 4.0), "end", 12, &decade(power));
    }
    for value in values() {
        text(
            out,
            (across(value), bottom + 18.0),
            "middle",
            12,
            &value.to_string(),
        );
    }
    let (width, height) = AREA;
    element(out, &format!("<rect x=\"{left}\" y=\"{top}\" width=\"{width}\" height=\"{height}\" fill=\"none\" stroke=\"#888\"/>"));
    text(
        out,
        ((left + right) / 2.0, bottom + 38.0),
        "middle",
        13,
        &panel.axis,
    );
    for (number, line) in panel.lines.iter().enumerate() {
        let points: Vec<(f64, f64)> = line
            .points
            .iter()
            .map(|&(value, time)| (across(value), up(time.log10())))
            .collect();
        stroke(out, number, &points);
        for (x, y) in points {
            let colour = STYLES[number].0;
            element(
                out,
                &format!("<circle cx=\"{x:.1}\" cy=\"{y:.1}\" r=\"3\" fill=\"{colour}\"/>"),
            );
        }
    }
}

/// A power of ten in milliseconds, in a unit that suits it.
fn decade(power: i32) -> String {
    match power {
        3.. => format!("{} s", 10_i32.pow(power as u32 - 3)),
        0..=2 => format!("{} ms", 10_i32.pow(power as u32)),
        -3..=-1 => format!("{} µs", 10_i32.pow((power + 3) as u32)),
        _ => format!("1e{} ms", power),
    }
}

/// A line through points in the style of this number.
fn stroke(out: &mut String, number: usize, points: &[(f64, f64)]) {
    let (colour, dashes) = STYLES[number];
    let points: Vec<String> = points
        .iter()
        .map(|(x, y)| format!("{x:.1},{y:.1}"))
        .collect();
    element(
        out,
        &format!(
            "<polyline points=\"{}\" fill=\"none\" stroke=\"{colour}\" stroke-width=\"2\" stroke-dasharray=\"{dashes}\"/>",
            points.join(" ")
        ),
    );
}

fn text(out: &mut String, (x, y): (f64, f64), anchor: &str, size: usize, words: &str) {
    element(out, &format!("<text x=\"{x:.1}\" y=\"{y:.1}\" text-anchor=\"{anchor}\" font-size=\"{size}\">{words}</text>"));
}

fn element(out: &mut String, element: &str) {
    writeln!(out, "{element}").expect("memory takes all");
}
