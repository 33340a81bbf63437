//! The table and the other lines that are printed.

use crate::case::Line;
use crate::clock::Spread;
use crate::grow::Growth;

/// A ratio, and in brackets its lowest and highest over the runs.
fn ratio(spread: Spread) -> String {
    format!("{:.2} ({:.2} to {:.2})", spread.middle, spread.low, spread.high)
}

/// The same with one digit more, for what should be 1.
pub fn fine_ratio(spread: Spread) -> String {
    format!("{:.3} ({:.3} to {:.3})", spread.middle, spread.low, spread.high)
}

/// Microseconds; of a call that takes next to none of them, with two digits more.
fn time(spread: Spread) -> String {
    let digits = if spread.middle < 0.1 { 4 } else { 2 };
    format!("{:.digits$}", spread.middle)
}

/// Rows with their columns as wide as they need to be.
pub fn print(head: &[&str], rows: &[Vec<String>]) {
    let width = |column: usize| {
        rows.iter().map(|row| row[column].chars().count()).chain([head[column].chars().count()]).max().unwrap_or(0)
    };
    let widths: Vec<usize> = (0..head.len()).map(width).collect();
    let line = |cells: &mut dyn Iterator<Item = &str>| {
        let padded: Vec<String> = cells.zip(&widths).map(|(cell, width)| format!("{cell:<width$}")).collect();
        println!("| {} |", padded.join(" | "));
    };
    line(&mut head.iter().copied());
    println!("|{}|", widths.iter().map(|width| "-".repeat(width + 2)).collect::<Vec<_>>().join("|"));
    for row in rows {
        line(&mut row.iter().map(String::as_str));
    }
    println!();
}

/// The table of calls.
pub fn print_lines(lines: &[Line]) {
    let rows: Vec<Vec<String>> = lines
        .iter()
        .map(|line| {
            vec![
                line.case.call.to_string(),
                line.case.file(),
                time(line.spread(|times| times.library)),
                time(line.spread(|times| times.plain)),
                time(line.spread(|times| times.limit)),
                ratio(line.beside_plain()),
                ratio(line.beside_limit()),
                line.beside_open().map_or_else(String::new, ratio),
            ]
        })
        .collect();
    print(&["call", "file", "library µs", "plain µs", "limit µs", "to plain", "to limit", "to open"], &rows);
}

/// The growths.
pub fn print_growths(growths: &[Growth]) {
    let rows: Vec<Vec<String>> = growths
        .iter()
        .map(|growth| {
            let times: Vec<String> = growth.times.iter().map(|time| format!("{time:.2}")).collect();
            let exponent = growth.exponent().map_or("below the noise".to_string(), |exponent| format!("{exponent:.2}"));
            vec![growth.what.clone(), growth.by.to_string(), times.join(", "), exponent]
        })
        .collect();
    print(&["what", "with", "µs", "exponent"], &rows);
}
