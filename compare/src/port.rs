//! The port as the comparison calls it: the library's calls and, where a mistake is planted, the answers of a port with it. A
//! comparison that finds no difference then is itself at fault.

use crate::calls::{self, Call, Part, Room};
use crate::layout;
use crate::plant::Plant;
use crate::prune::IMAGE_BYTES;
use crate::quoted::{self, Listed};
use std::borrow::Cow;

impl Plant {
    /// The text that a port with a mistake in words takes the text for.
    fn taken(self, text: Part<'_>) -> Option<Cow<'_, [u8]>> {
        let text = text?;
        let words = match self {
            Plant::Readable | Plant::Call => quoted::listed(text),
            Plant::Flag if text.starts_with(b"'") => return Some(marked(text).into()),
            Plant::Inside => return Some(joined_ms(text).into()),
            _ => None,
        };
        Some(match (self, words) {
            (Plant::Readable, Some(Listed::Names(places))) => places.iter().fold(text.to_vec(), unmarked).into(),
            (Plant::Call, Some(Listed::Bracket((_, bracket)))) => unmarked(text.to_vec(), &word_before(text, bracket)).into(),
            _ => text.into(),
        })
    }

    /// Reads.
    pub fn read(self, text: Part, mut image: Room) -> u64 {
        let given = text.unwrap_or_default();
        let refused = match self {
            Plant::Blank => spaced_duration(given).map(|place| calls::answer(13, place)),
            Plant::Count => quoted_count(given).map(|place| calls::answer(12, place)),
            _ => None,
        };
        let room = image.as_ref().map_or(0, |image| image.len());
        if let Some(answer) = refused.filter(|_| room >= IMAGE_BYTES).or_else(|| self.refuses(text, &image)) {
            return answer;
        }
        self.touches(&[text]);
        let answer = calls::read(self.taken(text).as_deref(), image.as_deref_mut());
        let image = image.unwrap_or_default();
        self.fills(image, answer);
        self.answered(Call::Read, &[text], self.misread(given, image, answer))
    }

    /// What a port with a mistake in reading makes of an answer, and does to the image.
    fn misread(self, text: &[u8], image: &mut [u8], answer: u64) -> u64 {
        match (self, calls::split(answer)) {
            (Plant::Week, (0, 16)) if image[4] == 1 => {
                let span = u64::from_le_bytes(image[8..16].try_into().unwrap()) - weeks(text) * 86_400_000;
                image[8..16].copy_from_slice(&span.to_le_bytes());
            }
            (Plant::Read, (7..=14, place)) if matches!(text.get(place as usize), Some(b'"' | b'\'')) => return answer + 1,
            (Plant::Buffer, (0, size)) if (size as usize) < image.len() && image[0] >= 3 => image[size as usize] = 0,
            _ => {}
        }
        answer
    }

    /// Decides.
    pub fn decide(self, image: Part, stores: Part, age: u64, list: Part) -> u64 {
        let age = if self == Plant::Decide { age.saturating_sub(1) } else { age };
        self.touches(&[image, stores, list]);
        self.answered(Call::Decide, &[image, stores, list], calls::decide(image, stores, age, list))
    }

    /// Checks.
    pub fn check(self, image: Part, stores: Part) -> u64 {
        self.touches(&[image, stores]);
        match calls::check(image, stores) {
            answer if self == Plant::Check && answer >> 32 == 22 && !singly(image, stores) => 0,
            answer => self.answered(Call::Check, &[image, stores], answer),
        }
    }

    /// Judges.
    pub fn judge(self, text: Part, stores: Part) -> u64 {
        self.touches(&[text, stores]);
        let answer = calls::judge(self.taken(text).as_deref(), stores);
        if self == Plant::Check && answer >> 32 == 22 {
            let mut image = vec![0; IMAGE_BYTES];
            let size = calls::read(text, Some(&mut image)) as usize;
            return self.check(Some(&image[..size]), stores);
        }
        self.answered(Call::Judge, &[text, stores], answer)
    }

    /// Prints.
    pub fn print(self, image: Part, mut text: Room) -> u64 {
        if let Some(answer) = self.refuses(image, &text) {
            return answer;
        }
        self.touches(&[image]);
        let answer = calls::print(image, text.as_deref_mut());
        let text = text.unwrap_or_default();
        self.fills(text, answer);
        match (self, calls::split(answer)) {
            (Plant::Print, (0, size)) => replace(&mut text[..size as usize], b"(0s)", b"(0d)"),
            (Plant::Weeks, (0, size)) => replace(&mut text[..size as usize], b"(7d)", b"(1w)"),
            (Plant::Buffer, (1, _)) => text.iter_mut().take(1).for_each(|byte| *byte = 0),
            _ => {}
        }
        self.answered(Call::Print, &[image], answer)
    }
}

/// Puts four bytes in place of the first four that are these.
fn replace(text: &mut [u8], these: &[u8; 4], others: &[u8; 4]) {
    if let Some(at) = text.windows(4).position(|part| part == these) {
        text[at..at + 4].copy_from_slice(others);
    }
}

/// Where the quoted word before that place begins.
fn word_before(text: &[u8], place: usize) -> usize {
    let close = text[..place].iter().rposition(|byte| b"'\"".contains(byte)).unwrap();
    text[..close].iter().rposition(|&byte| byte == text[close]).unwrap()
}

/// The text with blanks in place of the marks of the quoted word at that place.
fn unmarked(mut text: Vec<u8>, &place: &usize) -> Vec<u8> {
    let (mark, start) = (text[place], place + 1);
    let end = start + text[start..].iter().position(|&byte| byte == mark).unwrap();
    text[place] = b' ';
    text[end] = b' ';
    text
}

/// The text with marks around a `readable` that ends it.
fn marked(text: &[u8]) -> Vec<u8> {
    match text.strip_suffix(b" readable") {
        Some(start) => [start, b" 'readable'"].concat(),
        None => text.to_vec(),
    }
}

/// Whether a byte is a blank: 9 to 13 or 32.
fn is_blank(byte: u8) -> bool {
    matches!(byte, 9..=13 | 32)
}

/// The weeks of a text that reads as one duration; no other letter of it is a `w`.
fn weeks(text: &[u8]) -> u64 {
    let Some(unit) = text.iter().position(|&byte| byte == b'w') else { return 0 };
    let digits = text[..unit].iter().rev().skip_while(|&&byte| is_blank(byte)).take_while(|byte| byte.is_ascii_digit());
    digits.zip(0..).map(|(digit, power)| u64::from(digit - b'0') * 10_u64.pow(power)).sum()
}

/// Whether a text reads as one node, of that kind.
fn is_leaf(text: &[u8], kind: u8) -> bool {
    let mut image = vec![0; IMAGE_BYTES];
    calls::read(Some(text), Some(&mut image)) == 16 && image[4] == kind
}

/// Where the word begins in a text that reads as readable(k), with the count in quotes.
fn quoted_count(text: &[u8]) -> Option<u64> {
    text.iter().position(|byte| b"'\"".contains(byte)).filter(|_| is_leaf(text, 2)).map(|place| place as u64)
}

/// Where the word begins in a text that reads as one duration, in quotes, with a blank between digits and a unit.
fn spaced_duration(text: &[u8]) -> Option<u64> {
    let open = text.iter().rposition(|&byte| byte == b'(')?;
    let place = open + text[open..].iter().position(|byte| b"'\"".contains(byte))?;
    let spaced = text[place..].windows(2).any(|pair| pair[0].is_ascii_digit() && is_blank(pair[1]));
    (spaced && is_leaf(text, 1)).then_some(place as u64)
}

/// The text with a blank inside `ms`, at the end of a quoted word, put after it.
fn joined_ms(text: &[u8]) -> Vec<u8> {
    let mut joined = text.to_vec();
    for at in 3..text.len() {
        if &text[at - 3..at] == b"m s" && b"'\"".contains(&text[at]) {
            joined[at - 3..at].copy_from_slice(b"ms ");
        }
    }
    joined
}

/// Whether a rule evicts at the largest age on one write-only store alone.
fn singly(image: Part, stores: Part) -> bool {
    let entries = layout::entries(stores.unwrap_or_default(), 2).unwrap_or_default();
    let archive = entries.iter().filter(|entry| entry.0 == 2);
    archive.map(|entry| layout::table(&[(0, &entry.1)])).any(|list| calls::decide(image, stores, u64::MAX, Some(&list)) == 1)
}
