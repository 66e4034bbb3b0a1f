//! The comparison itself: each call made on lent memory, its answer and every lent byte compared with what is expected, all counted.

use crate::calls::{self, Call};
use crate::lent::{Memory, Place};
use crate::oracle::{self, List, No, Stores};
use crate::pages;
use crate::plant::Plant;
use crate::prune::TEXT_BYTES;
use crate::quoted;
use crate::remote::policy::PruneExpr;
use crate::tally::Tally;
use std::sync::atomic::Ordering;
use std::time::{Duration, Instant};

/// How many differences are printed.
const SHOWN: u64 = 10;

/// An answer: a value or a refusal.
type Answer = Result<usize, No>;

/// The expected answer, the port's as the library gives it, and what is wrong with lent memory, if anything is.
type Compared = (Answer, u64, Option<String>);

/// Counts, and the memory that calls are lent.
pub struct Comparison {
    pub compared: u64,
    pub different: u64,
    plant: Plant,
    start: Instant,
    end: Duration,
    part: usize,
    parts: Vec<(&'static str, u64)>,
    answers: [[u64; 256]; 5],
    held: [u64; 256],
    texts: u64,
    left_out: u64,
    memory: Memory,
}

impl Comparison {
    /// Nothing compared yet; random parts continue until `end`.
    pub fn new(plant: Plant, end: Duration) -> Self {
        Self {
            compared: 0,
            different: 0,
            plant,
            start: Instant::now(),
            end,
            part: 0,
            parts: vec![("nothing", 0)],
            answers: [[0; 256]; 5],
            held: [0; 256],
            texts: 0,
            left_out: 0,
            memory: Memory::new(),
        }
    }

    /// Whether there is time left.
    pub fn goes_on(&self) -> bool {
        self.start.elapsed() < self.end
    }

    /// Where the parts of the next calls are lent: a call's inputs in their order, and a buffer after its call's input.
    pub fn lend_at(&mut self, places: [Place; 3]) {
        self.memory.places = places;
    }

    /// Counts a comparison.
    fn count(&mut self) {
        self.compared += 1;
        self.parts[self.part].1 += 1;
        pages::COMPARED.store(self.compared, Ordering::Relaxed);
    }

    /// Counts a call, and reports it where the answer or the lent memory is not as expected. `extra` is the age or the buffer's
    /// length.
    fn settle(&mut self, call: Call, inputs: &[(&str, &[u8])], extra: (&str, u64), (expected, got, fault): Compared) {
        self.count();
        self.answers[call as usize][expected.map_or_else(|refusal| usize::from(refusal.0), |_| 0)] += 1;
        let due = packed(expected);
        if due == got && fault.is_none() {
            return;
        }
        let words = |answer: u64| format!("number {}, value {}", calls::split(answer).0, calls::split(answer).1);
        let mut note = format!("{} {}\n  due:  {}\n  port: {}", extra.0, extra.1, words(due), words(got));
        if let Some(fault) = fault {
            note += &format!("\n  {fault}");
        }
        self.report(Call::NAMES[call as usize], inputs, &note);
    }

    /// Counts a verdict that is held to what decisions show, and reports it where it is a different one.
    pub fn held(&mut self, text: &[u8], stores: &Stores, due: u8, verdict: u8) {
        let note = format!("the decisions show {due}, judge answers {verdict}");
        self.held[usize::from(due)] += 1;
        self.fact("judge held to decisions", &[("text", text), ("stores", &stores.bytes)], verdict == due, &note);
    }

    /// Counts a difference and prints it, unless enough were printed.
    fn report(&mut self, call: &str, inputs: &[(&str, &[u8])], answers: &str) {
        self.different += 1;
        if self.different > SHOWN {
            return;
        }
        println!("difference {} in {}, after {} compared: {call}", self.different, self.parts[self.part].0, self.compared);
        for (name, bytes) in inputs {
            let hex: String = bytes.iter().map(|byte| format!("{byte:02x}")).collect();
            println!("  {name} ({} bytes): {hex}\n    {:?}", bytes.len(), String::from_utf8_lossy(bytes));
        }
        println!("  {answers}");
    }

    /// Prints the counts and answers whether nothing differed.
    pub fn finish(&self) -> bool {
        println!("compared by part:");
        for (name, many) in self.parts.iter().filter(|part| part.1 > 0) {
            println!("  {many:>10}  {name}");
        }
        println!("compared by call and by the answer due (0: accepted):");
        for (call, found) in Call::NAMES.iter().zip(&self.answers).chain([(&"judge held to decisions", &self.held)]) {
            let many = |number: usize| format!("{number}: {}", found[number]);
            let words: Vec<String> = (0..256).filter(|&number| found[number] > 0).map(many).collect();
            println!("  {:>10}  {call:<6}  {}", found.iter().sum::<u64>(), words.join(", "));
        }
        println!("{} of {} texts held to document 02's Job 2, and not to the Rust", self.left_out, self.texts);
        println!("{:.1} seconds", self.start.elapsed().as_secs_f64());
        println!("{} compared, {} different", self.compared, self.different);
        self.different == 0
    }
}

impl Tally for Comparison {
    /// Counts what follows under that name.
    fn part(&mut self, name: &'static str) {
        self.part = self.parts.iter().position(|part| part.0 == name).unwrap_or_else(|| {
            self.parts.push((name, 0));
            self.parts.len() - 1
        });
    }

    /// Counts something that must hold, and reports it where it doesn't.
    fn fact(&mut self, what: &str, inputs: &[(&str, &[u8])], holds: bool, note: &str) {
        self.count();
        if !holds {
            self.report(what, inputs, note);
        }
    }

    /// Counts a text, and whether it is one that Job 2 lists; then the Rust's answer must differ from Job 2's.
    fn given(&mut self, text: &[u8]) {
        self.texts += 1;
        if quoted::listed(text).is_some() {
            self.left_out += 1;
            let changed = oracle::read(text) != oracle::read_by_rust(text);
            self.fact("a text that Job 2 lists", &[("text", text)], changed, "the Rust answers the same");
        }
    }

    /// Compares reading a text into a buffer of that length.
    fn read(&mut self, text: &[u8], room: usize, due: &Result<Vec<u8>, No>) {
        let expected = if room < 26_628 { Err((1, 0)) } else { due.as_ref().map(Vec::len).map_err(|refusal| *refusal) };
        let written: &[u8] = if expected.is_ok() { due.as_ref().unwrap() } else { &[] };
        let (input, buffer) = self.memory.lend_room(text, room);
        let got = self.plant.read(input, buffer);
        let fault = self.memory.room_fault(text, room, written);
        self.settle(Call::Read, &[("text", text)], ("buffer", room as u64), (expected, got, fault));
    }

    /// Compares printing an image into a buffer of that length.
    fn print(&mut self, image: &[u8], room: usize, due: Option<&str>) {
        assert!(due.map_or(0, str::len) <= TEXT_BYTES, "a text is longer than any should be");
        let expected = match due {
            None => Err((16, 0)),
            Some(text) if text.len() > room => Err((1, 0)),
            Some(text) => Ok(text.len()),
        };
        let written: &[u8] = if expected.is_ok() { due.unwrap().as_bytes() } else { &[] };
        let (input, buffer) = self.memory.lend_room(image, room);
        let got = self.plant.print(input, buffer);
        let fault = self.memory.room_fault(image, room, written);
        self.settle(Call::Print, &[("image", image)], ("buffer", room as u64), (expected, got, fault));
    }

    /// Compares deciding on an image and answers the port's decision.
    fn decide(&mut self, image: &[u8], rule: Option<&PruneExpr>, stores: &Stores, age: u64, list: &List) -> Option<bool> {
        let expected = oracle::decide(rule, stores, age, list).map(usize::from);
        let given: [&[u8]; 3] = [image, &stores.bytes, &list.bytes];
        let [first, second, third] = self.memory.lend(given);
        let got = self.plant.decide(first, second, age, third);
        let inputs: [(&str, &[u8]); 3] = [("image", image), ("stores", &stores.bytes), ("list", &list.bytes)];
        let fault = self.memory.fault(given);
        self.settle(Call::Decide, &inputs, ("age", age), (expected, got, fault));
        match got {
            0 => Some(false),
            1 => Some(true),
            _ => None,
        }
    }

    /// Compares checking an image.
    fn check(&mut self, image: &[u8], rule: Option<&PruneExpr>, stores: &Stores) {
        let expected = oracle::check(rule, stores).map(|()| 0);
        let [first, second] = self.memory.lend([image, &stores.bytes]);
        let got = self.plant.check(first, second);
        let fault = self.memory.fault([image, &stores.bytes]);
        let inputs: [(&str, &[u8]); 2] = [("image", image), ("stores", &stores.bytes)];
        self.settle(Call::Check, &inputs, ("age", u64::MAX), (expected, got, fault));
    }

    /// Compares judging a text and answers the port's verdict: 0 for a pass, else the number.
    fn judge(&mut self, text: &[u8], rule: &Result<PruneExpr, No>, stores: &Stores) -> u8 {
        let expected = oracle::judge(rule, stores).map(|()| 0);
        let [first, second] = self.memory.lend([text, &stores.bytes]);
        let got = self.plant.judge(first, second);
        let fault = self.memory.fault([text, &stores.bytes]);
        let inputs: [(&str, &[u8]); 2] = [("text", text), ("stores", &stores.bytes)];
        self.settle(Call::Judge, &inputs, ("age", u64::MAX), (expected, got, fault));
        verdict(got)
    }
}

/// An expected answer as the library gives it. An error string that is not known, 0, is expected of no call.
fn packed(expected: Answer) -> u64 {
    match expected {
        Ok(value) => value as u64,
        Err((0, _)) => u64::MAX,
        Err((number, place)) => calls::answer(number.into(), place as u64),
    }
}

/// The verdict of an answer: 0 for a pass, else the number; 255 for one that no call has.
fn verdict(answer: u64) -> u8 {
    match calls::split(answer) {
        (0, 0) => 0,
        (number @ 1..=22, _) => number as u8,
        _ => 255,
    }
}
