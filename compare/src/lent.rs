//! Memory that is lent to calls: each part between two guards (`pages.rs`), at the place that is asked for or drawn. The bytes
//! around it are known, and all are compared after the call.

use crate::calls::{self, Part, Room};
use crate::draw::Draw;
use crate::pages::{self, Pages};
use std::ops::Range;

/// The longest part that is lent, beyond the longest text that prints.
const MOST: usize = 100_000;

/// How many bytes on each side of a part are compared after the call, where they are not a guard's; those of an input.
const FRAME: usize = 64;
const FRAMES: [[u8; FRAME]; 2] = [[0x5a; FRAME], [0xc3; FRAME]];

/// How long the pattern of a buffer's memory is; then it begins again.
const PERIOD: usize = 4096;

/// How many bytes come before an aligned buffer, at the least: more than the longest input of a call that fills one.
const BEFORE: usize = 32_768;

/// Where a part is lent.
#[derive(Debug, Clone, Copy, PartialEq, Eq)]
pub enum Place {
    /// At a place that is drawn anew for each call.
    Drawn,
    /// Its end is where the guard after it begins.
    End,
    /// The same, and an input can't be written.
    ReadOnly,
    /// It begins where the guard before it ends.
    Start,
    /// Its address divided by 64 leaves this remainder. A buffer then begins where its input ends.
    Aligned(usize),
    /// For a part of no bytes: an address where nothing is.
    Dangling,
    /// For a part of no bytes: null.
    Null,
    /// For an input: where that earlier input of its call is, which has the same bytes.
    Same(usize),
    /// For the input of a call that fills a buffer: it ends where the buffer begins.
    BeforeBuffer,
}

/// The byte at a position of a buffer's memory before a call: no two neighbours are the same, and there is no short period.
fn pattern(at: usize) -> u8 {
    (at.wrapping_mul(0x9e37_79b9) >> 11) as u8 ^ 0xa5
}

/// A range of memory, cut where the pattern begins again.
fn pieces(range: Range<usize>) -> impl Iterator<Item = Range<usize>> {
    let end = move |at: usize| range.end.min((at / PERIOD + 1) * PERIOD);
    std::iter::successors(Some(range.start..end(range.start)), move |piece| Some(piece.end..end(piece.end)))
        .take_while(|piece| !piece.is_empty())
}

/// Bytes that a call may only read.
struct Input {
    pages: Pages,
    place: Place,
    start: usize,
    end: usize,
}

impl Input {
    /// Nothing lent yet.
    fn new() -> Self {
        Self { pages: Pages::new(MOST + 2 * FRAME), place: Place::Start, start: 0, end: 0 }
    }

    /// Whether the bytes are in this memory, and not elsewhere.
    fn is_here(&self) -> bool {
        matches!(self.place, Place::End | Place::ReadOnly | Place::Start | Place::Aligned(_))
    }

    /// The bytes around those lent.
    fn frame(&self) -> [Range<usize>; 2] {
        let last = self.pages.bytes().len().min(self.end + FRAME);
        [self.start.saturating_sub(FRAME)..self.start, self.end..last]
    }

    /// Puts the bytes at a place, in a frame.
    fn put(&mut self, bytes: &[u8], place: Place) {
        if self.place == Place::ReadOnly {
            self.pages.set_writable(true);
        }
        self.place = place;
        if !self.is_here() {
            return;
        }
        self.start = match place {
            Place::End | Place::ReadOnly => self.pages.bytes().len() - bytes.len(),
            Place::Aligned(remainder) => FRAME + remainder % FRAME,
            _ => 0,
        };
        self.end = self.start + bytes.len();
        let [before, after] = self.frame();
        let memory = self.pages.bytes_mut();
        memory[before.clone()].copy_from_slice(&FRAMES[0][..before.len()]);
        memory[self.start..self.end].copy_from_slice(bytes);
        memory[after.clone()].copy_from_slice(&FRAMES[1][..after.len()]);
        if place == Place::ReadOnly {
            self.pages.set_writable(false);
        }
    }

    /// Whether the bytes and their frame are as before.
    fn intact(&self, bytes: &[u8]) -> bool {
        let ([before, after], memory) = (self.frame(), self.pages.bytes());
        !self.is_here()
            || memory[self.start..self.end] == *bytes
                && memory[before.clone()] == FRAMES[0][..before.len()]
                && memory[after.clone()] == FRAMES[1][..after.len()]
    }
}

/// A buffer that a call may fill, and the call's input where that is right before it.
struct Output {
    pages: Pages,
    pattern: Vec<u8>,
    place: Place,
    start: usize,
    /// How many bytes before the buffer are the input's.
    input: usize,
}

impl Output {
    /// Nothing lent yet.
    fn new() -> Self {
        let pages = Pages::new(BEFORE + MOST + 2 * FRAME);
        let pattern = (0..PERIOD).map(pattern).collect();
        let mut output = Self { pages, pattern, place: Place::Start, start: 0, input: 0 };
        output.restore_all();
        output
    }

    /// Whether a range is as it was before the call.
    fn unchanged(&self, range: Range<usize>) -> bool {
        let memory = self.pages.bytes();
        pieces(range).all(|piece| memory[piece.clone()] == self.pattern[piece.start % PERIOD..][..piece.len()])
    }

    /// Puts a range back as it was before the call.
    fn restore(&mut self, range: Range<usize>) {
        let memory = self.pages.bytes_mut();
        for piece in pieces(range) {
            memory[piece.clone()].copy_from_slice(&self.pattern[piece.start % PERIOD..][..piece.len()]);
        }
    }

    /// Puts everything back as it was before the call.
    fn restore_all(&mut self) {
        self.restore(0..self.pages.bytes().len());
    }

    /// Puts a buffer of that length at a place, with the input right before it where it is aligned.
    fn put(&mut self, input: &[u8], room: usize, place: Place) {
        self.place = place;
        (self.start, self.input) = match place {
            Place::End | Place::ReadOnly => (self.pages.bytes().len() - room, 0),
            Place::Aligned(remainder) => (BEFORE + remainder % FRAME, input.len()),
            _ => (0, 0),
        };
        let first = self.start - self.input;
        self.pages.bytes_mut()[first..self.start].copy_from_slice(&input[..self.input]);
    }

    /// The bytes right before the buffer that are the input's, and the buffer of that length.
    fn lend(&mut self, room: usize) -> (&[u8], Room<'_>) {
        let (before, rest) = self.pages.bytes_mut().split_at_mut(self.start);
        let buffer = match self.place {
            Place::Null => None,
            Place::Dangling => Some(calls::dangling()),
            _ => Some(&mut rest[..room]),
        };
        (&before[self.start - self.input..], buffer)
    }

    /// Whether a buffer of that length now holds exactly the bytes written, the input before it is as it was, and so is all else
    /// around them.
    fn holds(&self, input: &[u8], room: usize, written: &[u8]) -> bool {
        let (memory, first, end) = (self.pages.bytes(), self.start - self.input, self.start + written.len());
        let last = memory.len().min(self.start + room + FRAME);
        written.len() <= room
            && memory[self.start..end] == *written
            && memory[first..self.start] == input[..self.input]
            && self.unchanged(end..last)
            && self.unchanged(first.saturating_sub(FRAME)..first)
    }
}

/// All memory that is lent.
pub struct Memory {
    inputs: [Input; 3],
    output: Output,
    draw: Draw,
    /// Where the parts of a call are lent: its inputs in their order, and a buffer after its call's input.
    pub places: [Place; 3],
}

/// An input of a call as it is lent.
fn part(inputs: &[Input], index: usize) -> Part<'_> {
    let input = &inputs[index];
    match input.place {
        Place::Null => None,
        Place::Same(other) => part(inputs, other),
        _ if input.is_here() => Some(&input.pages.bytes()[input.start..input.end]),
        _ => Some(calls::dangling()),
    }
}

impl Memory {
    /// Nothing lent yet; all places are drawn.
    pub fn new() -> Self {
        let inputs = std::array::from_fn(|_| Input::new());
        Self { inputs, output: Output::new(), draw: Draw::new(0), places: [Place::Drawn; 3] }
    }

    /// The place of a part of that length: half of those drawn end at a guard, few of which are read-only, because that takes long.
    fn place(&mut self, index: usize, size: usize) -> Place {
        match self.places[index] {
            Place::Drawn if size == 0 => self.draw.of(&[Place::End, Place::Start, Place::Dangling, Place::Null]),
            Place::Drawn => {
                let drawn = self.draw.below(64 * FRAME);
                let end = if drawn == 0 { Place::ReadOnly } else { Place::End };
                [end, Place::End, Place::Start, Place::Aligned(drawn / 4)][drawn % 4]
            }
            place => place,
        }
    }

    /// Lends the inputs of a call.
    pub fn lend<const N: usize>(&mut self, given: [&[u8]; N]) -> [Part<'_>; N] {
        for (index, bytes) in given.iter().enumerate() {
            let place = self.place(index, bytes.len());
            assert!(!matches!(place, Place::Same(other) if given[other] != *bytes), "other bytes at the same place");
            self.inputs[index].put(bytes, place);
        }
        std::array::from_fn(|index| part(&self.inputs, index))
    }

    /// Lends the input of a call and a buffer of that length.
    pub fn lend_room(&mut self, given: &[u8], room: usize) -> (Part<'_>, Room<'_>) {
        let (input, place) = (self.place(0, given.len()), self.place(1, room));
        let input = if let Place::Aligned(_) = place { Place::BeforeBuffer } else { input };
        self.inputs[0].put(given, input);
        self.output.put(given, room, place);
        let (before, buffer) = self.output.lend(room);
        let input = if input == Place::BeforeBuffer { Some(before) } else { part(&self.inputs, 0) };
        (input, buffer)
    }

    /// What is wrong with the memory after a call that was lent these inputs, if anything is.
    pub fn fault<const N: usize>(&self, given: [&[u8]; N]) -> Option<String> {
        if pages::touched() {
            return Some("memory before or after a part was touched, or an input written".to_string());
        }
        let intact = self.inputs.iter().zip(given).all(|(input, bytes)| input.intact(bytes));
        (!intact).then(|| "an input or the bytes around it were changed".to_string())
    }

    /// What is wrong with the memory after a call that was lent this input and a buffer of that length, into which it should have
    /// written these bytes, if anything is. The buffer is put back as it was.
    pub fn room_fault(&mut self, given: &[u8], room: usize, written: &[u8]) -> Option<String> {
        let fault = self.fault([given]);
        if self.output.holds(given, room, written) {
            self.output.restore(self.output.start - self.output.input..self.output.start + written.len());
            return fault;
        }
        let begins = &self.output.pages.bytes()[self.output.start..][..room.min(written.len() + 32)];
        let found =
            format!("the buffer or the bytes before it differ; it should begin {written:02x?}\n  and begins {begins:02x?}");
        self.output.restore_all();
        Some(fault.map_or(String::new(), |fault| fault + "; ") + &found)
    }
}
