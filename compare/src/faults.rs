//! Mistakes in an answer as it is handed over, and in which memory is touched: what a port with one makes of a call.

use crate::calls::{self, Call, Part, Room};
use crate::plant::Plant;

/// The most nodes of a rule, and the most stores, that a port with a mistake in large ones looks at.
const FEW_NODES: u16 = 1_000;
const FEW_STORES: u64 = 53;

/// Reads a byte that may not be lent.
fn touch(at: *const u8) {
    // SAFETY: none, which is the mistake; `pages.rs` notices what is not lent.
    unsafe { at.read_volatile() };
}

/// Reads a byte that may not be lent and writes it again.
fn rewrite(at: *mut u8) {
    // SAFETY: none, as above.
    unsafe { at.write_volatile(at.read_volatile()) };
}

/// How many nodes an image says that it has.
fn nodes(image: Part) -> u16 {
    u16::from_le_bytes(image.and_then(|bytes| bytes.first_chunk().copied()).unwrap_or_default())
}

/// The bytes of a part that has some.
fn some<'a>(part: &Part<'a>) -> Option<&'a [u8]> {
    part.filter(|bytes| !bytes.is_empty())
}

/// The address at which a part begins.
fn address(part: Part) -> usize {
    part.map_or(0, |bytes| bytes.as_ptr() as usize)
}

impl Plant {
    /// Touches what a port with a mistake touches of a call's inputs, or beside them.
    pub fn touches(self, inputs: &[Part]) {
        match (self, inputs.first().and_then(some), inputs.last().and_then(some)) {
            (Plant::After, _, Some(bytes)) => touch(bytes.as_ptr_range().end),
            (Plant::Before, Some(bytes), _) => touch(bytes.as_ptr().wrapping_sub(1)),
            (Plant::Written, Some(bytes), _) => rewrite(bytes.as_ptr().cast_mut()),
            (Plant::Empty, ..) => {
                inputs.iter().filter(|part| some(part).is_none()).for_each(|part| touch(address(*part) as *const u8))
            }
            _ => {}
        }
    }

    /// What a port with a mistake makes of the answer to a call with these inputs.
    pub fn answered(self, call: Call, inputs: &[Part], answer: u64) -> u64 {
        let (number, value) = calls::split(answer);
        match self {
            Plant::Keep if call == Call::Decide && answer == 0 => 2,
            Plant::Pass if matches!(call, Call::Check | Call::Judge) && answer == 0 => 5,
            Plant::Number if number > 0 => calls::answer(number + 256, value),
            Plant::Null if inputs.contains(&None) => calls::answer(16, 0),
            Plant::Shared if call == Call::Decide && address(inputs[1]) == address(inputs[2]) && number == 0 => 0,
            Plant::Twins if number == 18 && value >= FEW_STORES => 0,
            Plant::Unconfirmed if call == Call::Check && number == 21 && nodes(inputs[0]) > FEW_NODES => 0,
            Plant::Archive if call == Call::Check && number == 22 && nodes(inputs[0]) > FEW_NODES => 0,
            Plant::Place if number == 20 => calls::answer(number, value % 256),
            _ => answer,
        }
    }

    /// What a port with a mistake refuses where it is lent this input and this buffer, if it does.
    pub fn refuses(self, input: Part, buffer: &Room) -> Option<u64> {
        match (self, buffer) {
            (Plant::NullBuffer, None) => Some(calls::answer(16, 0)),
            (Plant::Adjacent, Some(bytes)) if input.is_some_and(|input| input.as_ptr_range().end == bytes.as_ptr()) => {
                Some(calls::answer(1, 0))
            }
            _ => None,
        }
    }

    /// What a port with a mistake does to a buffer, or beside it, after a call with that answer.
    pub fn fills(self, buffer: &mut [u8], answer: u64) {
        if buffer.is_empty() {
            return;
        }
        match (self, calls::split(answer)) {
            (Plant::BufferEnd, _) => rewrite(buffer.as_mut_ptr_range().end),
            (Plant::BufferStart, _) => rewrite(buffer.as_mut_ptr().wrapping_sub(1)),
            (Plant::Aligned, (0, size @ 1..)) if buffer.as_ptr() as usize % 16 == 13 => buffer[size as usize - 1] ^= 1,
            _ => {}
        }
    }
}
