//! The expected answers: the Rust's own wherever it has one, document 01's rule where the text, the image or a table lies
//! outside what the Rust knows, document 02's on the texts that Job 2 lists (`quoted.rs`). An error string becomes its number. The
//! place of a parse refusal is found without a parser: the token that decides is the last of the shortest beginning of the text, cut
//! after a token, on which the Rust gives the same error.

use crate::layout;
use crate::quoted::{self, Listed};
use crate::remote::config::{ConfiguredRemote, RemoteMode};
use crate::remote::policy::{PruneContext, PruneExpr};
use std::collections::HashSet;
use std::time::Duration;

/// A refusal's number and place.
pub type No = (u8, usize);

/// The beginnings of the Rust's error strings and the number of each.
const ERRORS: [(&str, u8); 19] = [
    ("expected '&&' after '&'", 4),
    ("expected '||' after '|'", 4),
    ("unclosed quote starting with ", 5),
    ("unexpected character '", 6),
    ("expected expression, found ", 7),
    ("expected ')' but found ", 8),
    ("expected ')' closing ", 8),
    ("unexpected trailing token: ", 9),
    ("unknown function '", 10),
    ("expected duration in older_than(...), found ", 11),
    ("expected integer count in readable(...), found ", 11),
    ("expected count k in at_least(k, ...), found ", 11),
    ("expected ',' after count in at_least, found ", 11),
    ("invalid integer count in readable(", 12),
    ("invalid count in at_least: '", 12),
    ("invalid duration in older_than: ", 13),
    ("prune_rule references unknown remote '", 20),
    ("prune_rule can be satisfied without any remote confirmations", 21),
    ("prune_rule can be satisfied solely by write-only (archival) remotes", 22),
];

/// The number of an error string of the Rust; 0 for one that is not known, which no call answers.
fn number(error: &str) -> u8 {
    if let Some((_, number)) = ERRORS.iter().find(|(start, _)| error.starts_with(start)) {
        return *number;
    }
    // These begin with the function's name as it was written.
    let word = error.split(' ').next().unwrap_or("");
    let list = ["oneof", "any", "allof", "all", "at_least"].iter().any(|name| word.eq_ignore_ascii_case(name));
    if list && error[word.len()..].starts_with(" requires at least one ") {
        14
    } else {
        0
    }
}

/// A token's sort (its first byte, `w` for a word or a sign in letters), where it begins and where it ends.
pub type Span = (u8, usize, usize);

/// The tokens of a text, or the place of the leftmost fault.
pub fn spans(text: &[u8]) -> Result<Vec<Span>, usize> {
    let is_word = |byte: &u8| byte.is_ascii_alphanumeric() || b"_-.".contains(byte);
    let (mut found, mut at) = (Vec::new(), 0);
    while at < text.len() {
        let (first, rest) = (text[at], &text[at + 1..]);
        let (sort, size) = match first {
            9..=13 | 32 => {
                at += 1;
                continue;
            }
            b'(' | b')' | b',' => (first, 1),
            b'&' | b'|' if rest.first() == Some(&first) => (first, 2),
            b'"' | b'\'' => (b'w', 2 + rest.iter().position(|&byte| byte == first).ok_or(at)?),
            _ if is_word(&first) => (b'w', 1 + rest.iter().take_while(|byte| is_word(byte)).count()),
            _ => return Err(at),
        };
        found.push((sort, at, at + size));
        at += size;
    }
    Ok(found)
}

/// The bracket that opens while 64 are open, if the text has one: its index among the tokens.
fn too_deep(tokens: &[Span]) -> Option<usize> {
    let mut open = 0;
    for (index, token) in tokens.iter().enumerate() {
        match token.0 {
            b'(' if open == 64 => return Some(index),
            b'(' => open += 1,
            b')' => open -= 1,
            _ => {}
        }
    }
    None
}

/// The index of the token on which a parse refusal is decided; the number of tokens where it is the text's end.
fn deciding(text: &str, tokens: &[Span], error: &str) -> usize {
    if error.ends_with("found None") {
        return tokens.len();
    }
    // The text cut after `low` tokens gives another answer, cut after `high` tokens this error.
    let (mut low, mut high) = (0, tokens.len());
    while high - low > 1 {
        let middle = (low + high) / 2;
        match PruneExpr::parse(&text[..tokens[middle - 1].2]) {
            Err(other) if other == error => high = middle,
            _ => low = middle,
        }
    }
    high - 1
}

/// What a text reads as: by document 02 where Job 2 lists it, else by the Rust.
pub fn read(text: &[u8]) -> Result<PruneExpr, No> {
    match quoted::listed(text) {
        None => read_by_rust(text),
        Some(Listed::Bracket(refusal)) => Err(refusal),
        // The Rust reads the text with other names in their places, which begin with bytes that the text lacks.
        Some(Listed::Names(places)) => {
            let mut lacking = (1..128).filter(|byte| !text.contains(byte) && !b"'\"".contains(byte));
            let firsts = [b'r', b'R'].map(|first| (lacking.next().expect("a byte that the text lacks"), first));
            let mut other = text.to_vec();
            for place in places {
                other[place + 1] = firsts[usize::from(text[place + 1] == b'R')].0;
            }
            read_by_rust(&other).map(|rule| restored(rule, &firsts))
        }
    }
}

/// The rule with the second byte of each pair in place of the first in its names.
fn restored(rule: PruneExpr, pairs: &[(u8, u8)]) -> PruneExpr {
    let each = |children: Vec<PruneExpr>| children.into_iter().map(|child| restored(child, pairs)).collect();
    match rule {
        PruneExpr::Remote(name) => {
            let change = |name: String, pair: &(u8, u8)| name.replace(char::from(pair.0), &char::from(pair.1).to_string());
            PruneExpr::Remote(pairs.iter().fold(name, change))
        }
        PruneExpr::AtLeast(k, children) => PruneExpr::AtLeast(k, each(children)),
        PruneExpr::All(children) => PruneExpr::All(each(children)),
        PruneExpr::Any(children) => PruneExpr::Any(each(children)),
        leaf => leaf,
    }
}

/// What a text reads as by the Rust, and by document 01 where the Rust has no such answer.
pub fn read_by_rust(text: &[u8]) -> Result<PruneExpr, No> {
    if text.len() > 2048 {
        return Err((2, 0));
    }
    if let Some(place) = text.iter().position(|&byte| byte >= 128) {
        return Err((3, place));
    }
    let text = std::str::from_utf8(text).unwrap();
    let answer = PruneExpr::parse(text);
    let tokens = match (spans(text.as_bytes()), &answer) {
        (Ok(tokens), _) => tokens,
        (Err(place), Err(error)) => return Err((number(error), place)),
        (Err(place), Ok(_)) => return Err((0, place)),
    };
    let place = |index: usize| tokens.get(index).map_or(text.len(), |token| token.1);
    let deep = too_deep(&tokens);
    match answer {
        Ok(rule) => match deep {
            Some(index) => Err((15, place(index))),
            None => Ok(rule),
        },
        Err(error) => {
            let (number, at) = (number(&error), deciding(text, &tokens, &error));
            match deep {
                // A bracket found where none is allowed is not opened; an unknown function's is.
                Some(index) if index < at || index == at && number == 10 => Err((15, place(index))),
                _ => Err((number, place(at - before(number, &error)))),
            }
        }
    }
}

/// How many tokens the place of a refusal is before the token that decides it.
fn before(number: u8, error: &str) -> usize {
    match number {
        10 | 13 => 1,
        14 if error.starts_with("at_least requires at least one target") => 4,
        14 => 2,
        _ => 0,
    }
}

/// A table of stores: its bytes, and its stores or the refusal that is expected.
pub struct Stores {
    pub bytes: Vec<u8>,
    pub known: Result<Vec<ConfiguredRemote>, No>,
}

impl Stores {
    /// The table that these bytes are. With twins, the refusal names the first store whose name an earlier one has.
    pub fn of(bytes: Vec<u8>) -> Self {
        let known = match layout::entries(&bytes, 2) {
            None => Err((17, 0)),
            Some(entries) => match (0..entries.len()).find(|&at| entries[..at].iter().any(|other| other.1 == entries[at].1)) {
                Some(place) => Err((18, place)),
                None => Ok(entries.into_iter().map(|(mode, name)| ConfiguredRemote { name, mode: mode_of(mode) }).collect()),
            },
        };
        Self { bytes, known }
    }
}

/// The Rust's mode of a number.
fn mode_of(number: u8) -> RemoteMode {
    [RemoteMode::ReadWrite, RemoteMode::ReadOnly, RemoteMode::WriteOnly][usize::from(number)]
}

/// A confirmed list: its bytes, and its names unless it is badly made.
pub struct List {
    pub bytes: Vec<u8>,
    pub names: Option<Vec<String>>,
}

impl List {
    /// The list that these bytes are.
    pub fn of(bytes: Vec<u8>) -> Self {
        let names = layout::entries(&bytes, 0).map(|entries| entries.into_iter().map(|entry| entry.1).collect());
        Self { bytes, names }
    }
}

/// What deciding answers for a rule, or for bytes that are no rule's image.
pub fn decide(rule: Option<&PruneExpr>, stores: &Stores, age: u64, list: &List) -> Result<bool, No> {
    let rule = rule.ok_or((16, 0))?;
    let known = stores.known.as_ref().map_err(|refusal| *refusal)?;
    let names = list.names.as_ref().ok_or((19, 0))?;
    let confirmed: HashSet<&str> = names.iter().map(String::as_str).collect();
    Ok(rule.evaluate(&PruneContext::new(Duration::from_millis(age), &confirmed, known)))
}

/// The index of the first node, children before their parent, that names no store; `next` counts the nodes.
fn unknown(rule: &PruneExpr, known: &[ConfiguredRemote], next: &mut usize) -> Option<usize> {
    let mut found = None;
    match rule {
        PruneExpr::Remote(name) if !known.iter().any(|store| store.name == *name) => found = Some(*next),
        PruneExpr::AtLeast(_, children) | PruneExpr::All(children) | PruneExpr::Any(children) => {
            for child in children {
                found = found.or(unknown(child, known, next));
            }
        }
        _ => {}
    }
    *next += 1;
    found
}

/// What checking answers for a rule, or for bytes that are no rule's image.
pub fn check(rule: Option<&PruneExpr>, stores: &Stores) -> Result<(), No> {
    let rule = rule.ok_or((16, 0))?;
    let known = stores.known.as_ref().map_err(|refusal| *refusal)?;
    rule.validate_safety(known).map_err(|error| match number(&error) {
        20 => (20, unknown(rule, known, &mut 0).unwrap_or(usize::MAX)),
        number => (number, 0),
    })
}

/// What judging answers for a text that reads as a rule, or doesn't.
pub fn judge(rule: &Result<PruneExpr, No>, stores: &Stores) -> Result<(), No> {
    rule.as_ref().map_err(|refusal| *refusal).and_then(|rule| check(Some(rule), stores))
}
