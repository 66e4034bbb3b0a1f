//! Compares the port (`libprune.a`) with the Rust it comes from (`src/remote/policy.rs`). `compare/run` builds and starts it.
#![deny(unsafe_code)]

mod bounds;
#[allow(unsafe_code)]
mod calls;
mod comparison;
mod draw;
#[allow(unsafe_code)]
mod faults;
mod large;
mod layout;
mod lent;
mod oracle;
#[allow(unsafe_code)]
mod pages;
mod placed;
mod plant;
mod port;
#[allow(unsafe_code)]
mod prune;
mod quoted;
mod random;
mod reference;
mod sequences;
mod shown;
mod stated;
mod tally;
mod turned;
mod twins;
mod wrapped;

// `policy.rs` names these at the crate's root.
use reference::{clock, remote, serde};

use comparison::Comparison;
use draw::Draw;
use plant::Plant;
use std::time::Duration;

/// What the command line asks for.
struct Options {
    seconds: u64,
    seed: u64,
    length: usize,
    plant: Plant,
}

/// The options of the command line, or none where they are not understood.
fn options() -> Option<Options> {
    let mut found = Options { seconds: 60, seed: 1, length: 5, plant: Plant::None };
    let mut words = std::env::args().skip(1);
    while let Some(word) = words.next() {
        let value = words.next()?;
        match word.as_str() {
            "--seconds" => found.seconds = value.parse().ok()?,
            "--seed" => found.seed = value.parse().ok()?,
            "--length" => found.length = value.parse().ok().filter(|&length| length >= 2)?,
            "--plant" => found.plant = Plant::named(&value)?,
            _ => return None,
        }
    }
    Some(found)
}

/// Runs every part: what is exhausted first, then drawn inputs until the time is up.
fn compare(options: &Options) -> bool {
    let mut tally = Comparison::new(options.plant, Duration::from_secs(options.seconds));
    let (stores, lists) = sequences::fixed();
    let tables = sequences::Tables { stores: &stores, lists: &lists };
    let mut draw = Draw::new(options.seed);
    pages::watch();
    stated::all(&mut tally, &stores, &lists);
    wrapped::all(&mut tally);
    placed::all(&mut tally, &tables);
    twins::all(&mut tally);
    large::all(&mut tally);
    sequences::short_texts(&mut tally, &tables);
    sequences::durations(&mut tally, &tables);
    bounds::all(&mut tally, &tables);
    turned::all(&mut tally);
    shown::small(&mut tally);
    sequences::tokens(&mut tally, &tables, options.length);
    loop {
        shown::random(&mut tally, &mut draw, 20);
        for _ in 0..20 {
            random::round(&mut tally, &mut draw);
        }
        if !tally.goes_on() {
            return tally.finish();
        }
    }
}

fn main() {
    let Some(options) = options() else {
        eprintln!("usage: compare/run [--seconds N] [--seed S] [--length N] [--plant MISTAKE]");
        eprintln!("a MISTAKE is one of {}", Plant::NAMES.map(|(name, _)| name).join(", "));
        std::process::exit(2);
    };
    // The deepest rules recurse thousands of calls deep on the Rust's side.
    let run = std::thread::Builder::new().stack_size(512 << 20).spawn(move || compare(&options));
    let same = run.expect("a thread").join().unwrap_or(false);
    std::process::exit(i32::from(!same));
}
