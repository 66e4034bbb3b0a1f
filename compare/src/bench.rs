//! Times the port (`libprune.a`) against the Rust it comes from (`src/remote/policy.rs`). `compare/bench` builds and starts it.
//!
//! Each side works on its own types: the Rust on text, `PruneExpr` and `ConfiguredRemote`, the port on bytes. Every rule passes
//! its check, and no workload ends at a refusal. Each workload is measured by processes of its own, started with `--row`.
#![deny(unsafe_code)]

mod figures;
mod inputs;
#[allow(dead_code)]
mod layout;
#[allow(unsafe_code)]
mod prune;
mod reference;
mod timing;
mod workloads;

// `policy.rs` names these at the crate's root.
use reference::{clock, remote, serde};

use inputs::Inputs;
use std::process::Command;
use std::time::Duration;
use timing::Workload;
use workloads::{checking, deciding, judging, printing, reading, Question, DECIDE, DECIDE_LARGE};

/// A day in milliseconds.
const DAY: u64 = 86_400_000;

/// How many processes measure each workload: where code, stack and heap lie differs from one to the next.
const PROCESSES: u32 = 8;

/// Deciding where the rule says evict, at an age of 100 days. A budget is given where the papers name the row.
fn evictions(inputs: &Inputs) -> Vec<Workload<'_>> {
    let Inputs { texts: [default, middle, _], three, short, twenty, most, .. } = inputs;
    [
        ("default rule", Some(DECIDE), default, three, 2),
        ("20 names", Some(DECIDE), &inputs.twenty_names, twenty, 20),
        ("default rule", Some(DECIDE), default, most, 2),
        ("default rule", Some(DECIDE), default, most, 64),
        ("1,000 nodes", Some(DECIDE_LARGE), &inputs.all_decide, short, 3),
        ("nas && offsite", None, &inputs.two_names, three, 2),
        ("274 bytes, 1st clause holds", None, middle, three, 2),
        ("333 alls, 1st holds", None, &inputs.first_all, short, 2),
        ("999 names, 1st holds", None, &inputs.first_name, short, 1),
    ]
    .into_iter()
    .flat_map(|(name, budget, rule, stores, confirmed)| {
        deciding(name, budget, Question { rule, stores, confirmed, age: 100 * DAY, evict: true })
    })
    .collect()
}

/// Every workload.
fn workloads(inputs: &Inputs) -> Vec<Workload<'_>> {
    let Inputs { texts: [default, middle, _], three, twenty, .. } = inputs;
    let young = Question { rule: default, stores: three, confirmed: 2, age: DAY, evict: false };
    let mut all: Vec<Workload> = inputs.texts.iter().flat_map(reading).collect();
    all.extend(inputs.texts.iter().flat_map(printing));
    all.push(checking("default rule", default, three));
    all.push(checking("rule of 274 bytes", middle, three));
    all.push(checking("20 names", &inputs.twenty_names, twenty));
    all.extend([default, middle].map(|rule| judging(rule, three)));
    all.extend(evictions(inputs));
    all.extend(deciding("default rule, log of 1 day", None, young));
    all
}

/// Measures the workload of a row here, for that many seconds, and prints its samples.
fn measure(row: usize, seconds: f64) {
    let inputs = Inputs::new();
    for (rust, port) in timing::measured(&mut workloads(&inputs)[row], Duration::from_secs_f64(seconds)) {
        println!("{rust} {port}");
    }
}

/// The samples of a process that measures a row.
fn samples(row: usize, seconds: f64) -> Vec<(f64, f64)> {
    let program = std::env::current_exe().expect("this program's path");
    let words = ["--row".to_string(), row.to_string(), seconds.to_string()];
    let ended = Command::new(program).args(words).output().expect("a process");
    assert!(ended.status.success(), "row {row}: {}", String::from_utf8_lossy(&ended.stderr));
    let pair = |line: &str| line.split_once(' ').and_then(|(rust, port)| Some((rust.parse().ok()?, port.parse().ok()?)));
    String::from_utf8_lossy(&ended.stdout).lines().map(|line| pair(line).expect("two numbers")).collect()
}

/// Measures every workload, each for its share of the time, and prints the lines.
fn bench(seconds: f64) {
    let inputs = Inputs::new();
    let workloads = workloads(&inputs);
    let share = seconds / workloads.len() as f64 / f64::from(PROCESSES);
    let mut above = 0;
    figures::heading();
    for (row, workload) in workloads.iter().enumerate() {
        let pairs: Vec<(f64, f64)> = (0..PROCESSES).flat_map(|_| samples(row, share)).collect();
        above += u32::from(figures::line(workload, &pairs));
    }
    println!("{} workloads, {above} above what is owed", workloads.len());
}

/// Does what the command line asks for; none where it is not understood.
fn run(words: &[&str]) -> Option<()> {
    let time = |word: &str| word.parse().ok().filter(|seconds| (0.0..=86_400.0).contains(seconds));
    match words {
        [] => bench(40.0),
        ["--seconds", seconds] => bench(time(seconds)?),
        ["--row", row, seconds] => measure(row.parse().ok()?, time(seconds)?),
        _ => return None,
    }
    Some(())
}

fn main() {
    let words: Vec<String> = std::env::args().skip(1).collect();
    if run(&words.iter().map(String::as_str).collect::<Vec<_>>()).is_none() {
        eprintln!("usage: compare/bench [--seconds N]");
        std::process::exit(2);
    }
}
