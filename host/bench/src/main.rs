//! `bench`: the table, the growths, the stack and the verdicts, in less than a minute. `bench --quick` prints the
//! verdicts alone, in some ten seconds; any other word picks the lines of the table that have it.

use bench::case::Line;
use bench::{before, closed, grow, stack, suite, table, targets};
use face::Calls;
use std::process::ExitCode;
use std::time::Duration;

/// How often each line is measured, and for how long each time.
struct Effort {
    runs: usize,
    budget: Duration,
    growth: Duration,
}

const QUICK: Effort = Effort { runs: 3, budget: Duration::from_millis(12), growth: Duration::from_millis(60) };
const WHOLE: Effort = Effort { runs: 7, budget: Duration::from_millis(40), growth: Duration::from_millis(250) };

/// Measures the lines. Each has its turn once in every run, so that the runs of a line lie far apart.
fn measure(cases: Vec<bench::case::Case>, effort: &Effort) -> Vec<Line> {
    let mut lines: Vec<Line> = cases.into_iter().map(|case| Line { case, runs: Vec::new() }).collect();
    for _ in 0..effort.runs {
        for line in &mut lines {
            let times = line.case.run(effort.budget);
            line.runs.push(times);
        }
    }
    lines
}

fn main() -> ExitCode {
    let words: Vec<String> = std::env::args().skip(1).collect();
    let library = sdd::calls();
    match words.first().map(String::as_str) {
        Some(closed::WORD) => closed::make(&library),
        Some(before::WORD) => return ExitCode::from(u8::from(!before::measure(&words[1..]))),
        _ => measure_all(&words, &library),
    }
    ExitCode::SUCCESS
}

/// The table and the verdicts, or what the words ask for of them.
fn measure_all(words: &[String], library: &Calls) {
    let quick = words.iter().any(|word| word == "--quick");
    let picked: Vec<&String> = words.iter().filter(|word| !word.starts_with("--")).collect();
    let effort = if quick { QUICK } else { WHOLE };
    let mut cases = if quick { suite::quick() } else { suite::all() };
    cases.retain(|case| picked.iter().all(|word| case.name().contains(*word)));
    let lines = measure(cases, &effort);
    if !quick || !picked.is_empty() {
        table::print_lines(&lines);
    }
    if !picked.is_empty() {
        return;
    }
    let mut growths = grow::with_slots("library", library, effort.growth);
    if !quick {
        growths.extend(grow::with_records("library", library, effort.growth));
        growths.push(grow::of_find("library", library, effort.growth));
        growths.extend(grow::with_slots("plain", &plain::calls(), effort.growth));
        growths.push(grow::of_limit(effort.growth));
        table::print_growths(&growths);
    }
    let of_library: Vec<grow::Growth> =
        growths.into_iter().filter(|growth| growth.what.starts_with("library")).collect();
    let depths = stack::depths(library);
    if !quick {
        let rows: Vec<Vec<String>> =
            depths.iter().map(|depth| vec![format!("sdd_{}", depth.name), depth.bytes.to_string()]).collect();
        table::print(&["call", "deepest stack, bytes"], &rows);
    }
    let deepest = depths.iter().map(|depth| depth.bytes).max().unwrap_or(0);
    let left_alone = std::env::current_exe().is_ok_and(|path| closed::is_left_alone(&path));
    targets::print(&targets::verdicts(&lines, &of_library, deepest, left_alone));
}
