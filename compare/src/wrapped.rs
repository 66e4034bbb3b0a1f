//! The wrapper that users copy, `prune.rs`: what its calls answer is the library's answer, whole.

use crate::calls::{self, Part, Room};
use crate::comparison::Comparison;
use crate::layout;
use crate::oracle;
use crate::prune::{self, Refusal, IMAGE_BYTES};
use crate::tally::Tally;
use std::panic::{self, AssertUnwindSafe};

/// A call of the wrapper that fills a buffer.
type Filling = fn(&[u8], &mut [u8]) -> Result<usize, Refusal>;

/// Texts that lead to every sort of answer, with `nas` readable and `vault` write-only.
const TEXTS: [&str; 9] =
    ["nas && readable(1)", "vault || nas", "older_than(1d)", "nas && attic", "", "nas &", "any(", "'any'(a)", "older_than(0s)"];

/// An answer of the wrapper as the library gives it.
fn packed(answer: Result<usize, Refusal>) -> u64 {
    answer.map_or_else(|refusal| calls::answer(refusal.number.into(), refusal.place.into()), |value| value as u64)
}

/// Compares a call of the wrapper, which panics on an answer that it doesn't know, with the library's own.
fn same(tally: &mut Comparison, call: &str, input: &[u8], library: u64, wrapper: impl FnOnce() -> Result<usize, Refusal>) {
    let answer = panic::catch_unwind(AssertUnwindSafe(wrapper)).ok();
    let note = format!("the wrapper answers {answer:?}, the library {library:#x}");
    tally.fact(call, &[("input", input)], answer.map(packed) == Some(library), &note);
}

/// Compares checking, judging and deciding.
fn with_stores(tally: &mut Comparison, text: &[u8], image: &[u8], stores: &[u8]) {
    let (lent, table) = (Some(image), Some(stores));
    same(tally, "wrapper: check", image, calls::check(lent, table), || prune::check(image, stores).map(|()| 0));
    same(tally, "wrapper: judge", text, calls::judge(Some(text), table), || prune::judge(text, stores).map(|()| 0));
    for age in [0, 86_400_000] {
        for list in [&b"\x01\0\x03\0\0\x03nas"[..], b"\0\0\0\0", b"\x01"] {
            let library = calls::decide(lent, table, age, Some(list));
            same(tally, "wrapper: decide", image, library, || prune::decide(image, stores, age, list).map(usize::from));
        }
    }
}

/// Compares a call that fills a buffer of that length, by the answer and by the buffer.
fn filling(tally: &mut Comparison, call: &str, input: &[u8], room: usize, library: fn(Part, Room) -> u64, wrapper: Filling) {
    let (mut first, mut second) = (vec![0; room], vec![0; room]);
    let answer = library(Some(input), Some(&mut first));
    same(tally, call, input, answer, || wrapper(input, &mut second));
    tally.fact(call, &[("input", input)], first == second, "the buffers differ");
}

/// Compares every call of the wrapper.
pub fn all(tally: &mut Comparison) {
    tally.part("the wrapper");
    for text in TEXTS.map(str::as_bytes) {
        for room in [IMAGE_BYTES, IMAGE_BYTES - 1] {
            filling(tally, "wrapper: read", text, room, calls::read, prune::read);
        }
        let image = oracle::read(text).ok().and_then(|rule| layout::encode(&rule)).unwrap_or(vec![0; 3]);
        for room in [0, 17, 100] {
            filling(tally, "wrapper: print", &image, room, calls::print, prune::print);
        }
        for entries in [&[(0, "nas"), (2, "vault")][..], &[(0, "nas"), (0, "nas")], &[(3, "nas")]] {
            with_stores(tally, text, &image, &layout::table(entries));
        }
    }
}
