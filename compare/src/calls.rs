//! The library's calls as the comparison makes them: memory that may be null where it has no bytes, and the answer as the library
//! gives it, all 64 bits.

use crate::prune;
use std::ptr::{self, NonNull};

/// Memory that a call may read: none is null, with length 0.
pub type Part<'a> = Option<&'a [u8]>;

/// Memory that a call may fill: none is null, with length 0.
pub type Room<'a> = Option<&'a mut [u8]>;

/// The calls.
#[derive(Debug, Clone, Copy, PartialEq, Eq)]
pub enum Call {
    Read,
    Decide,
    Check,
    Judge,
    Print,
}

impl Call {
    /// Their names, by their index.
    pub const NAMES: [&str; 5] = ["read", "decide", "check", "judge", "print"];
}

/// The number and the value of an answer.
pub fn split(answer: u64) -> (u64, u64) {
    (answer >> 32, answer & u64::from(u32::MAX))
}

/// The answer of that number and value.
pub fn answer(number: u64, value: u64) -> u64 {
    number << 32 | value
}

/// No bytes, at an address where nothing is.
pub fn dangling<'a>() -> &'a mut [u8] {
    // SAFETY: a slice of no bytes may be anywhere but at null.
    unsafe { std::slice::from_raw_parts_mut(NonNull::dangling().as_ptr(), 0) }
}

/// The address and the length of a part.
fn lent(part: Part) -> (*const u8, usize) {
    part.map_or((ptr::null(), 0), |bytes| (bytes.as_ptr(), bytes.len()))
}

/// The address and the length of memory to fill.
fn lent_mut(room: Room) -> (*mut u8, usize) {
    room.map_or((ptr::null_mut(), 0), |bytes| (bytes.as_mut_ptr(), bytes.len()))
}

/// Reads.
pub fn read(text: Part, image: Room) -> u64 {
    let ((text, size), (image, room)) = (lent(text), lent_mut(image));
    // SAFETY: both are there for their lengths and don't overlap. The same holds for the calls below.
    unsafe { prune::prune_read(text, size, image, room) }
}

/// Decides.
pub fn decide(image: Part, stores: Part, age: u64, list: Part) -> u64 {
    let ((image, size), (stores, most), (list, many)) = (lent(image), lent(stores), lent(list));
    unsafe { prune::prune_decide(image, size, stores, most, age, list, many) }
}

/// Checks.
pub fn check(image: Part, stores: Part) -> u64 {
    let ((image, size), (stores, most)) = (lent(image), lent(stores));
    unsafe { prune::prune_check(image, size, stores, most) }
}

/// Judges.
pub fn judge(text: Part, stores: Part) -> u64 {
    let ((text, size), (stores, most)) = (lent(text), lent(stores));
    unsafe { prune::prune_judge(text, size, stores, most) }
}

/// Prints.
pub fn print(image: Part, text: Room) -> u64 {
    let ((image, size), (text, room)) = (lent(image), lent_mut(text));
    unsafe { prune::prune_print(image, size, text, room) }
}
