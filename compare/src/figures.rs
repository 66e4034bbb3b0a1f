//! What is printed of the samples: a line for each workload.

use crate::timing::Workload;

/// The least of some values.
fn least(values: impl Iterator<Item = f64>) -> f64 {
    values.fold(f64::INFINITY, f64::min)
}

/// The first quartile, the median and the third quartile.
fn quartiles(values: impl Iterator<Item = f64>) -> [f64; 3] {
    let mut sorted: Vec<f64> = values.collect();
    sorted.sort_by(f64::total_cmp);
    [1, 2, 3].map(|part| sorted[(sorted.len() - 1) * part / 4])
}

/// Prints what the columns of `line` are.
pub fn heading() {
    println!(
        "{:<66} {:>9} {:>9} {:>8}   {:>8} / {:>8} / {:>8} {:>5} {:>5}",
        "workload", "Rust ns", "port ns", "ratio", "q1", "median", "q3", "owed", "goal"
    );
}

/// Prints the line of a workload with these samples: the least sample of each side, their ratio, and the quartiles of the paired
/// samples' ratios. Answers whether the ratio or the median is above what is owed.
pub fn line(workload: &Workload, pairs: &[(f64, f64)]) -> bool {
    let (rust, port) = (least(pairs.iter().map(|pair| pair.0)), least(pairs.iter().map(|pair| pair.1)));
    let ratio = port / rust;
    let [low, median, high] = quartiles(pairs.iter().map(|pair| pair.1 / pair.0));
    let above = workload.budget.is_some_and(|budget| ratio.max(median) > budget.owed);
    let shown = |ratio: Option<f64>| ratio.map_or("-".to_string(), |ratio| format!("{ratio:.2}"));
    let owed = shown(workload.budget.map(|budget| budget.owed));
    let goal = shown(workload.budget.map(|budget| budget.goal));
    println!(
        "{:<66} {rust:>9.1} {port:>9.1} {ratio:>8.3}   {low:>8.3} / {median:>8.3} / {high:>8.3} {owed:>5} {goal:>5}{}",
        workload.name,
        if above { "  ABOVE" } else { "" }
    );
    above
}
