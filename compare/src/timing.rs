//! Times a call on both sides, sample by sample in turn.

use std::hint::black_box;
use std::time::{Duration, Instant};

/// What one sample of a side should take: short, so that many samples are left alone by whatever else the machine does.
const SAMPLE: Duration = Duration::from_micros(100);

/// What is owed of a call and its goal, as ratios.
#[derive(Clone, Copy)]
pub struct Budget {
    pub owed: f64,
    pub goal: f64,
}

/// One side of a workload: makes that many calls.
pub type Side<'a> = Box<dyn FnMut(u64) + 'a>;

/// A call with given inputs, on both sides; without a budget nothing is owed.
pub struct Workload<'a> {
    pub name: String,
    pub budget: Option<Budget>,
    pub rust: Side<'a>,
    pub port: Side<'a>,
}

/// A call as a side: its loop is beside it, so that only a whole sample goes through the pointer. Answers are freed here.
pub fn repeated<'a, T>(mut call: impl FnMut() -> T + 'a) -> Side<'a> {
    Box::new(move |count| {
        for _ in 0..count {
            black_box(call());
        }
    })
}

/// Samples of both sides in turn until the share of time is over: nanoseconds a call, the Rust's and the port's.
pub fn measured(workload: &mut Workload, share: Duration) -> Vec<(f64, f64)> {
    let start = Instant::now();
    let (rust, port) = (calls(&mut workload.rust), calls(&mut workload.port));
    let mut pairs = Vec::new();
    while start.elapsed() < share || pairs.len() < 20 {
        let pair = if pairs.len() % 2 == 0 {
            let first = sampled(&mut workload.rust, rust);
            (first, sampled(&mut workload.port, port))
        } else {
            let first = sampled(&mut workload.port, port);
            (sampled(&mut workload.rust, rust), first)
        };
        pairs.push(pair);
    }
    pairs
}

/// How many calls of a side make a sample: doubled until they take long enough to tell, then in proportion.
fn calls(side: &mut Side) -> u64 {
    let mut count = 1;
    loop {
        let least = (0..5).map(|_| sampled(side, count)).fold(f64::INFINITY, f64::min);
        let whole = SAMPLE.as_nanos() as f64;
        if least * count as f64 >= whole / 4.0 {
            return ((whole / least) as u64).max(1);
        }
        count *= 2;
    }
}

/// One sample of that many calls: nanoseconds a call.
fn sampled(side: &mut Side, count: u64) -> f64 {
    let start = Instant::now();
    side(count);
    start.elapsed().as_nanos() as f64 / count as f64
}
