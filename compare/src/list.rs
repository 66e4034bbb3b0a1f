//! Prints cases of the program `replay` with the Rust's own answers: a sample of what `compare/run` compares, made by the same
//! modules. `compare/make-list` builds and starts it. The port is neither called nor linked.
//!
//! Numbers, trees, decisions, verdicts and printed bytes are `policy.rs`'s, durations by the documents' rule (`reference.rs`). It
//! has no places; those are found as `oracle.rs` says. What the Rust has no answer to (1, 2, 3 and 15 to 19) stays out, and so do
//! the texts that document 02's Job 2 lists, for which its answers no longer apply (`quoted.rs`). Of each call, part and answer an
//! even sample is kept, of long lines fewer.
#![forbid(unsafe_code)]

mod bounds;
mod draw;
mod layout;
mod oracle;
mod quoted;
mod random;
mod reference;
mod sequences;
mod stated;
mod tally;

// `policy.rs` names these at the crate's root.
use reference::{clock, remote, serde};

use draw::Draw;
use oracle::{List, No, Stores};
use remote::policy::PruneExpr;
use std::collections::{BTreeMap, HashSet};
use std::io::Write;
use tally::Tally;

/// The seed of the drawn inputs, and how many rounds of them.
const SEED: u64 = 1;
const ROUNDS: usize = 6;

/// The most tokens of a sequence.
const TOKENS: usize = 3;

/// The calls, by their index.
const CALLS: [&str; 5] = ["read", "decide", "check", "judge", "print"];
const READ: usize = 0;
const DECIDE: usize = 1;
const CHECK: usize = 2;
const JUDGE: usize = 3;
const PRINT: usize = 4;

/// The answers of each call that must have cases: a refusal's number, or 0 for accepted; for decide 1 is evict and 0 keep.
const WANTED: [&[u8]; 5] = [
    &[0, 4, 5, 6, 7, 8, 9, 10, 11, 12, 13, 14],
    &[0, 1],
    &[0, 20, 21, 22],
    &[0, 4, 5, 6, 7, 8, 9, 10, 11, 12, 13, 14, 20, 21, 22],
    &[0],
];

/// How many cases each of these must have.
const LEAST: usize = 20;

/// The most bytes of a short, a middling and a long line.
const SIZES: [usize; 3] = [300, 1_000, 5_000];

/// How many lines of each size are kept of one part and one answer of each call: where it is accepted, and where it refuses.
const ACCEPTED: [[usize; 3]; 5] = [[75, 14, 2], [70, 10, 1], [30, 6, 1], [30, 4, 1], [120, 16, 2]];
const REFUSED: [[usize; 3]; 5] = [[14, 4, 1], [0; 3], [28, 5, 1], [8, 2, 0], [0; 3]];

/// What a line belongs to: the call, the part, the answer and the size.
type Group = (usize, usize, u8, usize);

/// The lines found so far, and whether all that was stated held and every error string was known.
struct Lines {
    part: usize,
    parts: Vec<&'static str>,
    seen: HashSet<String>,
    found: BTreeMap<Group, Vec<String>>,
    sound: bool,
}

/// Bytes in hex, a dash for none.
fn hex(bytes: &[u8]) -> String {
    if bytes.is_empty() {
        return "-".to_string();
    }
    let digit = |value: u8| char::from(b"0123456789abcdef"[usize::from(value)]);
    bytes.iter().flat_map(|byte| [digit(byte / 16), digit(byte % 16)]).collect()
}

impl Lines {
    /// None found yet.
    fn new() -> Self {
        Self { part: 0, parts: vec!["nothing"], seen: HashSet::new(), found: BTreeMap::new(), sound: true }
    }

    /// Takes a line, unless it is too long or was taken before.
    fn take(&mut self, call: usize, answer: u8, given: &str, end: &str) {
        let line = format!("{} {given} {end}", CALLS[call]);
        let Some(size) = SIZES.iter().position(|&size| line.len() <= size) else { return };
        if self.seen.insert(line.clone()) {
            self.found.entry((call, self.part, answer, size)).or_default().push(line);
        }
    }

    /// Takes a line with a refusal, where it is one of the Rust's own.
    fn take_refusal(&mut self, call: usize, (number, place): No, given: &str) {
        match number {
            4..=14 | 20..=22 => self.take(call, number, given, &format!("no {number} {place}")),
            0 => self.fact(CALLS[call], &[], false, &format!("an unknown error or no image: {given}")),
            _ => {}
        }
    }

    /// Takes a verdict on a text or an image, where the Rust can have the table, and answers its number, 0 for a pass.
    fn verdict(&mut self, call: usize, given: &[u8], stores: &Stores, answer: Result<(), No>) -> u8 {
        let given = format!("{} {}", hex(given), hex(&stores.bytes));
        match answer {
            _ if stores.known.is_err() => {}
            Ok(()) => self.take(call, 0, &given, "pass"),
            Err(refusal) => self.take_refusal(call, refusal, &given),
        }
        answer.map_or_else(|refusal| refusal.0, |()| 0)
    }

    /// Leaves of each group an even sample; the last line, which is often at a boundary, is in it.
    fn sample(&mut self) {
        for (&(call, _, answer, size), lines) in &mut self.found {
            let most = if answer == 0 || call == DECIDE { ACCEPTED } else { REFUSED };
            let (many, kept) = (lines.len(), most[call][size].min(lines.len()));
            *lines = (1..=kept).map(|at| std::mem::take(&mut lines[at * many / kept - 1])).collect();
        }
        self.found.retain(|_, lines| !lines.is_empty());
    }

    /// Prints the lines of each call, part by part, each answer in turn.
    fn print_all(&self) -> std::io::Result<()> {
        let mut out = std::io::BufWriter::new(std::io::stdout().lock());
        writeln!(out, "# The Rust's own answers, printed by compare/make-list: a sample of what compare/run compares")?;
        let mut last = None;
        for (&(call, part, _, _), lines) in &self.found {
            if last != Some((call, part)) {
                writeln!(out, "# {}: {}", CALLS[call], self.parts[part])?;
                last = Some((call, part));
            }
            for line in lines {
                writeln!(out, "{line}")?;
            }
        }
        out.flush()
    }

    /// How many cases an answer of a call has.
    fn many(&self, call: usize, answer: u8) -> usize {
        self.found.iter().filter(|(group, _)| (group.0, group.2) == (call, answer)).map(|(_, lines)| lines.len()).sum()
    }

    /// Counts the cases on standard error, and answers whether each answer has enough of them.
    fn count(&self) -> bool {
        let mut enough = self.sound;
        for (call, answers) in WANTED.iter().enumerate() {
            let counts: Vec<(u8, usize)> = answers.iter().map(|&answer| (answer, self.many(call, answer))).collect();
            let words: Vec<String> = counts.iter().map(|(answer, many)| format!("{answer}: {many}")).collect();
            let sum: usize = counts.iter().map(|count| count.1).sum();
            eprintln!("{sum:>6} {:<6}  {}", CALLS[call], words.join(", "));
            enough &= counts.iter().all(|count| count.1 >= LEAST);
        }
        eprintln!("{} cases", self.found.values().map(Vec::len).sum::<usize>());
        enough
    }
}

impl Tally for Lines {
    /// What follows belongs to the part of that name.
    fn part(&mut self, name: &'static str) {
        self.part = self.parts.iter().position(|&part| part == name).unwrap_or_else(|| {
            self.parts.push(name);
            self.parts.len() - 1
        });
    }

    /// Something that must hold of the Rust; the first that doesn't is shown.
    fn fact(&mut self, what: &str, _: &[(&str, &[u8])], holds: bool, note: &str) {
        if self.sound && !holds {
            eprintln!("{what}: {note}");
        }
        self.sound &= holds;
    }

    /// Nothing is written down of a text by itself.
    fn given(&mut self, _: &[u8]) {}

    /// Takes reading a text that the Rust has the answer to; the buffer is always the one that is just long enough.
    fn read(&mut self, text: &[u8], _: usize, due: &Result<Vec<u8>, No>) {
        if quoted::listed(text).is_some() {
            return;
        }
        let given = format!("{} 26628", hex(text));
        match due {
            Ok(image) => self.take(READ, 0, &given, &format!("ok {}", hex(image))),
            Err(refusal) => self.take_refusal(READ, *refusal, &given),
        }
    }

    /// Takes printing an image where the buffer holds the text.
    fn print(&mut self, image: &[u8], room: usize, due: Option<&str>) {
        if let Some(text) = due.filter(|text| text.len() <= room) {
            self.take(PRINT, 0, &format!("{} {room}", hex(image)), &format!("ok {}", hex(text.as_bytes())));
        }
    }

    /// Takes deciding on an image.
    fn decide(&mut self, image: &[u8], rule: Option<&PruneExpr>, stores: &Stores, age: u64, list: &List) -> Option<bool> {
        let evicts = oracle::decide(rule, stores, age, list).ok()?;
        let given = format!("{} {} {age} {}", hex(image), hex(&stores.bytes), hex(&list.bytes));
        self.take(DECIDE, u8::from(evicts), &given, if evicts { "evict" } else { "keep" });
        Some(evicts)
    }

    /// Takes checking an image.
    fn check(&mut self, image: &[u8], rule: Option<&PruneExpr>, stores: &Stores) {
        self.verdict(CHECK, image, stores, oracle::check(rule, stores));
    }

    /// Takes judging a text that the Rust has the answer to.
    fn judge(&mut self, text: &[u8], rule: &Result<PruneExpr, No>, stores: &Stores) -> u8 {
        if quoted::listed(text).is_some() {
            return oracle::judge(rule, stores).map_or_else(|refusal| refusal.0, |()| 0);
        }
        self.verdict(JUDGE, text, stores, oracle::judge(rule, stores))
    }
}

/// Makes the list and prints it; answers whether it is complete.
fn list() -> bool {
    let mut lines = Lines::new();
    let (stores, lists) = sequences::fixed();
    let tables = sequences::Tables { stores: &stores, lists: &lists };
    let mut draw = Draw::new(SEED);
    stated::all(&mut lines, &stores, &lists);
    sequences::short_texts(&mut lines, &tables);
    sequences::durations(&mut lines, &tables);
    sequences::tokens(&mut lines, &tables, TOKENS);
    bounds::all(&mut lines, &tables);
    for _ in 0..ROUNDS {
        random::round(&mut lines, &mut draw);
    }
    lines.sample();
    lines.count() & lines.print_all().is_ok()
}

fn main() {
    // The deepest rules recurse thousands of calls deep.
    let made = std::thread::Builder::new().stack_size(512 << 20).spawn(list);
    let complete = made.expect("a thread").join().unwrap_or(false);
    std::process::exit(i32::from(!complete));
}
