//! Tables as docs/SPEED.md has them.

/// The heading of a table, what its times are, and the names of its columns; the first one's is empty.
pub fn head(title: &str, unit: &str, columns: &[&str]) {
    println!("\n### {title}\n\n{unit}\n\n|  | {} |", columns.join(" | "));
    println!("|---|{}", "---:|".repeat(columns.len()));
}

/// A row: what was timed, and the cells.
pub fn row(name: &str, cells: &[String]) {
    println!("| {name} | {} |", cells.join(" | "));
}

/// A number with commas between its thousands.
pub fn whole(number: usize) -> String {
    match number {
        0..=999 => number.to_string(),
        _ => format!("{},{:03}", whole(number / 1_000), number % 1_000),
    }
}

/// A measured number with three digits, or with all before the point.
pub fn three(number: f64) -> String {
    match number.abs() {
        below if below < 0.995 => format!("{number:.3}"),
        below if below < 9.95 => format!("{number:.2}"),
        below if below < 99.5 => format!("{number:.1}"),
        _ => whole(number.round() as usize),
    }
}

/// A ratio.
pub fn ratio(of: f64, to: f64) -> String {
    format!("{:.2}", of / to)
}
