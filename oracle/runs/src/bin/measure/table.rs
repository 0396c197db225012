//! Tables in Markdown, and how times and numbers stand in them.
use runs::timing::{Spread, Timed};

/// Prints the head of a table, below a title.
pub fn head(title: &str, columns: &[&str], more: &[&str]) {
    println!("\n## {title}\n");
    let columns = [columns, more].concat();
    println!("| {} |\n|{}", columns.join(" | "), "---|".repeat(columns.len()));
}

pub fn line(cells: &[String]) {
    println!("| {} |", cells.join(" | "));
}

/// Both sides' times, and their ratio with its spread.
pub fn sides(timed: &Timed) -> [String; 3] {
    [time(timed.ours.median), time(timed.theirs.median), ratio(&timed.ratio)]
}

pub fn ratio(of: &Spread) -> String {
    format!("{:.2} ({:.2} to {:.2})", of.median, of.low, of.high)
}

pub fn time(nanoseconds: f64) -> String {
    match nanoseconds {
        t if t < 1e3 => format!("{t:.1} ns"),
        t if t < 1e6 => format!("{:.2} µs", t / 1e3),
        t => format!("{:.2} ms", t / 1e6),
    }
}

/// A number with a comma before every three digits.
pub fn grouped(number: usize) -> String {
    let digits = number.to_string();
    let before = |place: usize| if place > 0 && (digits.len() - place) % 3 == 0 { "," } else { "" };
    digits.char_indices().map(|(place, digit)| format!("{}{digit}", before(place))).collect()
}

pub fn size(nodes: usize, links: usize) -> String {
    format!("{}; {}", grouped(nodes), grouped(links))
}

pub fn name(of: &str) -> String {
    format!("`{of}`")
}
