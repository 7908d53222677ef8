//! Markdown.
use crate::parted::parted;
use crate::timing::Times;

/// A count, with its thousands parted.
pub fn count(n: usize) -> String {
    parted(n as u64)
}

/// A number of nanoseconds or a ratio: whole from 100 on, else with one or two places.
pub fn number(x: f64) -> String {
    match x.abs() {
        size @ 100.0.. => format!("{}{}", if x < 0. { "-" } else { "" }, count(size.round() as usize)),
        10.0.. => format!("{x:.1}"),
        _ => format!("{x:.2}"),
    }
}

/// A row of cells.
pub fn row(cells: &[String]) {
    println!("| {} |", cells.join(" | "));
}

/// The first two lines of a table.
pub fn head(cells: &[&str]) {
    println!("\n| {} |\n|{}", cells.join(" | "), "---|".repeat(cells.len()));
}

pub fn head_of_ratios(other: &str) {
    let theirs = format!("{other}, ns: best, median");
    head(&["What", "Ours, ns: best, median", &theirs, "Times as fast: by medians, by bests", "At least", "Reached"]);
}

/// A row that compares; each goal is reached or not by the medians.
pub fn ratio(what: &str, ours: Times, theirs: Times, goals: &[f64]) {
    let by_medians = theirs.median / ours.median;
    let pair = |times: Times| format!("{}, {}", number(times.best), number(times.median));
    let each = |shown: &dyn Fn(&f64) -> String| goals.iter().map(shown).collect::<Vec<_>>().join(", ");
    let reached = each(&|goal| if by_medians >= *goal { "yes".into() } else { "no".into() });
    let ratios = format!("{}, {}", number(by_medians), number(theirs.best / ours.best));
    row(&[what.into(), pair(ours), pair(theirs), ratios, each(&f64::to_string), reached]);
}
