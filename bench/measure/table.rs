//! Tables as Markdown has them.

/// A table with its first column to the left and the others to the right.
pub fn table(heads: &[&str], rows: &[Vec<String>]) -> String {
    let line = |cells: &[String]| format!("| {} |\n", cells.join(" | "));
    let heads: Vec<String> = heads.iter().map(|head| head.to_string()).collect();
    let rule = format!("|---|{}\n", "---:|".repeat(heads.len() - 1));
    let rows: String = rows.iter().map(|row| line(row)).collect();
    line(&heads) + &rule + &rows
}

/// In how many rows the ratio is at most this, as is asked.
pub fn verdict(most: f64, ratios: &[f64]) -> String {
    let within = ratios.iter().filter(|&&ratio| ratio <= most).count();
    let greatest = times(ratios.iter().copied().fold(0.0, f64::max));
    let all = ratios.len();
    format!("\nA ratio of at most {most}: in {within} of {all} rows. The greatest: {greatest}.\n")
}

/// A ratio as tables show it: with two digits after the point, with three below a tenth and four below a
/// hundredth.
pub fn times(ratio: f64) -> String {
    let digits = match ratio {
        _ if ratio < 0.01 => 4,
        _ if ratio < 0.1 => 3,
        _ => 2,
    };
    format!("{ratio:.digits$}")
}
