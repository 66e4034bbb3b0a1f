//! Prune rules, proved: a safe face of `libprune.a` (`tools/staticlib`). Copy this file and link the library, e.g.
//! `rustc main.rs -L native=target/staticlib -l static=prune`; it needs nothing else
//! (Rust 1.82 or later).
//!
//! Each call is either accepted or refused with a number (1 to 22, the table of document 01) and a place. A refusal writes
//! nothing. An accepted call that fills a buffer changes nothing beyond the length that it answers. The library's answers are
//! handed on whole; on one that `prune.h` does not have a call panics, because the library is then another one.

/// A buffer of this length holds the image of every text that reads.
pub const IMAGE_BYTES: usize = 26_628;

/// A buffer of this length holds the text of every image: printing into it is never refused with 1.
pub const TEXT_BYTES: usize = 90_026;

/// A refusal: its number in the table of document 01, and its place (a byte of the text for 3 to 15, a store's index for 18, a
/// node's index for 20, else 0).
#[derive(Debug, Clone, Copy, PartialEq, Eq)]
pub struct Refusal {
    pub number: u8,
    pub place: u32,
}

// The library's calls as they are. Those below are safe.
unsafe extern "C" {
    pub fn prune_read(text: *const u8, text_len: usize, image: *mut u8, image_len: usize) -> u64;
    pub fn prune_decide(
        image: *const u8,
        image_len: usize,
        stores: *const u8,
        stores_len: usize,
        age: u64,
        list: *const u8,
        list_len: usize,
    ) -> u64;
    pub fn prune_check(image: *const u8, image_len: usize, stores: *const u8, stores_len: usize) -> u64;
    pub fn prune_judge(text: *const u8, text_len: usize, stores: *const u8, stores_len: usize) -> u64;
    pub fn prune_print(image: *const u8, image_len: usize, text: *mut u8, text_len: usize) -> u64;
}

/// An answer of the library, number × 2^32 + value, as a value or a refusal.
fn unpacked(answer: u64) -> Result<u32, Refusal> {
    let value = answer as u32;
    match answer >> 32 {
        0 => Ok(value),
        number @ 1..=22 => Err(Refusal { number: number as u8, place: value }),
        _ => unknown(answer),
    }
}

/// The length that an accepted call answers, of a buffer of `room` bytes.
fn length(size: u32, room: usize) -> usize {
    match size as usize {
        size if size <= room => size,
        _ => unknown(size.into()),
    }
}

/// A decision: 1 is evict, 0 is keep.
fn decision(value: u32) -> bool {
    match value {
        0 => false,
        1 => true,
        _ => unknown(value.into()),
    }
}

/// A pass: 0.
fn pass(value: u32) {
    if value != 0 {
        unknown(value.into())
    }
}

/// An answer that no call of this library has.
#[cold]
fn unknown(answer: u64) -> ! {
    panic!("not an answer of libprune.a: {answer:#x}")
}

/// Reads a rule's text into an image. Answers the image's length. Refuses with 1 (a buffer shorter than [`IMAGE_BYTES`]) to 15.
pub fn read(text: &[u8], image: &mut [u8]) -> Result<usize, Refusal> {
    // SAFETY: both slices are valid for their lengths and don't overlap; the library stays inside them.
    let answer = unsafe { prune_read(text.as_ptr(), text.len(), image.as_mut_ptr(), image.len()) };
    unpacked(answer).map(|size| length(size, image.len()))
}

/// Decides on the rule of an image, for a table of stores, an age in milliseconds and a confirmed list: true for evict, false
/// for keep. Refuses with 16, 17, 18 or 19.
pub fn decide(image: &[u8], stores: &[u8], age: u64, list: &[u8]) -> Result<bool, Refusal> {
    let (many, most, size) = (image.len(), stores.len(), list.len());
    // SAFETY: the slices are valid for their lengths; the library only reads them.
    unpacked(unsafe { prune_decide(image.as_ptr(), many, stores.as_ptr(), most, age, list.as_ptr(), size) }).map(decision)
}

/// Checks whether the rule of an image may be set for a table of stores. Refuses with 16, 17, 18, 20, 21 or 22.
pub fn check(image: &[u8], stores: &[u8]) -> Result<(), Refusal> {
    // SAFETY: the slices are valid for their lengths; the library only reads them.
    unpacked(unsafe { prune_check(image.as_ptr(), image.len(), stores.as_ptr(), stores.len()) }).map(pass)
}

/// Judges a rule's text: reads it, then checks. Refuses with 2 to 15, 17, 18, 20, 21 or 22.
pub fn judge(text: &[u8], stores: &[u8]) -> Result<(), Refusal> {
    // SAFETY: the slices are valid for their lengths; the library only reads them.
    unpacked(unsafe { prune_judge(text.as_ptr(), text.len(), stores.as_ptr(), stores.len()) }).map(pass)
}

/// Prints the rule of an image. Answers the text's length. Refuses with 16, and with 1 where the buffer is shorter than the text.
pub fn print(image: &[u8], text: &mut [u8]) -> Result<usize, Refusal> {
    // SAFETY: both slices are valid for their lengths and don't overlap; the library stays inside them.
    let answer = unsafe { prune_print(image.as_ptr(), image.len(), text.as_mut_ptr(), text.len()) };
    unpacked(answer).map(|size| length(size, text.len()))
}
