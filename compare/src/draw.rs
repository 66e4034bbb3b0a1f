//! Drawn inputs: numbers by a seed, rules, spellings of rules, edits of bytes, tables and lists.

use crate::layout;
use crate::remote::policy::PruneExpr;
use std::time::Duration;

/// Numbers drawn by splitmix64, the same for the same seed.
pub struct Draw(u64);

impl Draw {
    /// The drawing of a seed.
    pub fn new(seed: u64) -> Self {
        Self(seed)
    }

    /// Any number.
    pub fn number(&mut self) -> u64 {
        self.0 = self.0.wrapping_add(0x9e37_79b9_7f4a_7c15);
        let mut mixed = self.0;
        mixed = (mixed ^ (mixed >> 30)).wrapping_mul(0xbf58_476d_1ce4_e5b9);
        mixed = (mixed ^ (mixed >> 27)).wrapping_mul(0x94d0_49bb_1331_11eb);
        mixed ^ (mixed >> 31)
    }

    /// A number below `most`.
    pub fn below(&mut self, most: usize) -> usize {
        (self.number() % most as u64) as usize
    }

    /// One of several.
    pub fn of<T: Copy>(&mut self, from: &[T]) -> T {
        from[self.below(from.len())]
    }

    /// True once in `many`.
    pub fn once_in(&mut self, many: usize) -> bool {
        self.below(many) == 0
    }
}

/// Names that stores have, and some that none has.
pub const NAMES: [&str; 12] = ["a", "b", "c", "nas", "vault", "cellar", "nas2", "NAS", "b-1", "a.b", "x_y", "30d"];

/// Names that only an image or quotes can hold.
const ODD: [&str; 10] = ["", " ", "a b", "and", "readable", "(", "a && b", "'", "\0", "\x7f"];

/// The milliseconds of a week.
const WEEK: u64 = 604_800_000;

/// A count: mostly small, at times at an end.
fn count(draw: &mut Draw) -> usize {
    match draw.below(16) {
        0 => usize::MAX,
        1 => draw.number() as usize,
        2 => draw.below(100),
        _ => draw.below(4),
    }
}

/// A duration in milliseconds; `any` allows those that no text has.
fn span(draw: &mut Draw, any: bool) -> u64 {
    let small = [
        0,
        1,
        999,
        1_000,
        1_001,
        59_999,
        60_000,
        3_599_999,
        3_600_000,
        86_399_999,
        86_400_000,
        604_799_999,
        WEEK,
        691_200_000,
        2_592_000_000,
    ];
    match draw.below(8) {
        0 if any => draw.number() >> draw.below(64),
        1 if any => u64::MAX - draw.below(3) as u64,
        2 => draw.of(&[WEEK, 86_400_000, 3_600_000, 60_000, 1_000, 1]) * [1, 23, 24, 59, 60, 999_999_999][draw.below(6)],
        3 => draw.number() % 1_000_000_000_000,
        _ => draw.of(&small),
    }
}

/// A rule of at most that depth. `any` allows names and durations that no text has unquoted.
pub fn rule(draw: &mut Draw, depth: usize, any: bool) -> PruneExpr {
    if depth == 0 || draw.once_in(3) {
        return match draw.below(6) {
            0 => PruneExpr::OlderThan(Duration::from_millis(span(draw, any))),
            1 => PruneExpr::Readable(count(draw)),
            2 if any => PruneExpr::Remote(draw.of(&ODD).to_string()),
            _ => PruneExpr::Remote(draw.of(&NAMES).to_string()),
        };
    }
    let children = (0..draw.of(&[1, 2, 2, 2, 3, 3, 4, 7])).map(|_| rule(draw, depth - 1, any)).collect();
    match draw.below(3) {
        0 => PruneExpr::AtLeast(count(draw), children),
        1 => PruneExpr::All(children),
        _ => PruneExpr::Any(children),
    }
}

/// Blanks, mostly none or one.
fn blanks(draw: &mut Draw, text: &mut String) {
    text.push_str(draw.of(&["", "", "", " ", " ", "\t", "\n ", "\r\n", "\x0b\x0c", "   "]));
}

/// A function's name, at times in other letters, seldom in quotes, where it names a store.
fn word(draw: &mut Draw, spelled: &str, text: &mut String) {
    let folded: String = spelled.chars().map(|c| if draw.once_in(8) { c.to_ascii_uppercase() } else { c }).collect();
    match draw.below(80) {
        0 => text.push_str(&format!("'{folded}'")),
        1 => text.push_str(&format!("\"{folded}\"")),
        _ => text.push_str(&folded),
    }
}

/// A duration in one of its spellings: at times with weeks, at times in quotes with blanks around its numbers and units.
fn spelled(draw: &mut Draw, span: Duration) -> String {
    let (weeks, rest) = (span.as_millis() as u64 / WEEK, Duration::from_millis(span.as_millis() as u64 % WEEK));
    let plain = match weeks {
        0 => crate::clock::format_duration(span),
        _ if draw.once_in(2) => crate::clock::format_duration(span),
        _ if rest.is_zero() => format!("{weeks}w"),
        _ => format!("{weeks}w{}", crate::clock::format_duration(rest)),
    };
    if !draw.once_in(3) {
        return plain;
    }
    let mut quoted = "'".to_string();
    let mut digits = None;
    for c in plain.chars() {
        if digits != Some(c.is_ascii_digit()) {
            blanks(draw, &mut quoted);
        }
        digits = Some(c.is_ascii_digit());
        quoted.push(c);
    }
    blanks(draw, &mut quoted);
    quoted + "'"
}

/// Writes a rule in one of its spellings: blanks, quotes, signs or functions, unneeded brackets. Where the name of a
/// function is quoted, it is another rule or none.
pub fn spell(draw: &mut Draw, rule: &PruneExpr, text: &mut String) {
    let brackets = usize::from(draw.once_in(6)) * (1 + draw.below(2));
    blanks(draw, text);
    text.push_str(&"(".repeat(brackets));
    match rule {
        PruneExpr::Remote(name) if draw.once_in(6) => text.push_str(&format!("'{name}'")),
        PruneExpr::Remote(name) => text.push_str(name),
        PruneExpr::OlderThan(span) => {
            word(draw, "older_than", text);
            text.push('(');
            text.push_str(&spelled(draw, *span));
            text.push(')');
        }
        PruneExpr::Readable(1) if draw.once_in(2) => word(draw, "readable", text),
        PruneExpr::Readable(k) => {
            word(draw, "readable", text);
            text.push_str(&if draw.once_in(4) { format!("('+0{k}')") } else { format!("({k})") });
        }
        PruneExpr::AtLeast(k, children) => {
            word(draw, "at_least", text);
            text.push_str(&format!(" ({k},"));
            listed(draw, children, ",", text);
            text.push(')');
        }
        PruneExpr::All(children) => joined(draw, children, &["all", "allof"], &["&&", " and ", " AND "], text),
        PruneExpr::Any(children) => joined(draw, children, &["any", "oneof"], &["||", " or ", " Or "], text),
    }
    text.push_str(&")".repeat(brackets));
    blanks(draw, text);
}

/// Writes rules with a sign between them.
fn listed(draw: &mut Draw, children: &[PruneExpr], sign: &str, text: &mut String) {
    for (index, child) in children.iter().enumerate() {
        if index > 0 {
            text.push_str(sign);
        }
        spell(draw, child, text);
    }
}

/// Writes an all or an any as a function or as a chain.
fn joined(draw: &mut Draw, children: &[PruneExpr], functions: &[&str], signs: &[&str], text: &mut String) {
    let sign = draw.of(signs);
    match draw.below(3) {
        0 => {
            let function = draw.of(functions);
            word(draw, function, text);
            text.push('(');
            listed(draw, children, ",", text);
            text.push(')');
        }
        1 => {
            text.push('(');
            listed(draw, children, sign, text);
            text.push(')');
        }
        _ => listed(draw, children, sign, text),
    }
}

/// Pieces that edits of a text put in.
const PIECES: [&[u8]; 37] = [
    b"(",
    b")",
    b",",
    b"&&",
    b"||",
    b"&",
    b"|",
    b"'",
    b"\"",
    b"a",
    b" ",
    b"\t",
    b"#",
    b"\x80",
    b"\xff",
    b"and",
    b"or",
    b"1",
    b"d",
    b"ms",
    b"w",
    b"+",
    b"readable",
    b"'readable'",
    b"'any'",
    b"older_than(",
    b"any(",
    b"all(",
    b"at_least(1,",
    b"at_least(",
    b"-",
    b".",
    b"\x00",
    b"\x1c",
    b"9999999999",
    b"A",
    b"[",
];

/// Edits a text: takes some bytes out, puts a piece in, or puts one in place of others.
pub fn edit_text(draw: &mut Draw, text: &mut Vec<u8>) {
    let at = draw.below(text.len() + 1);
    let out = draw.of(&[0, 0, 1, 1, 1, 2, 5]).min(text.len() - at);
    let piece = if out > 0 && draw.once_in(2) { b"" } else { draw.of(&PIECES) };
    text.splice(at..at + out, piece.iter().copied());
}

/// Edits the bytes of an image, a table or a list: a bit flipped, a byte set, put in or taken out, two exchanged, the end cut or
/// made longer.
pub fn edit_bytes(draw: &mut Draw, bytes: &mut Vec<u8>) {
    let some = draw.of(&[0, 1, 2, 3, 4, 5, 6, 64, 65, 127, 128, 255]);
    if bytes.is_empty() {
        bytes.push(some);
        return;
    }
    let at = draw.below(bytes.len());
    match draw.below(9) {
        0 | 1 => bytes[at] ^= 1 << draw.below(8),
        2 | 3 => bytes[at] = some,
        4 => bytes.insert(at, some),
        5 => drop(bytes.remove(at)),
        6 => {
            let other = draw.below(bytes.len());
            bytes.swap(at, other);
        }
        7 => bytes.truncate(bytes.len() - 1 - draw.below(bytes.len().min(4))),
        _ => bytes.push(some),
    }
}

/// Edits one field of an image that holds at least a node: a node's tag or argument, n or m.
pub fn edit_image(draw: &mut Draw, bytes: &mut [u8]) {
    let n = usize::from(u16::from_le_bytes([bytes[0], bytes[1]]));
    let index = draw.below(n.max(1));
    let (at, size) = match draw.below(8) {
        0 => (0, 2),
        1 => (2, 2),
        2 | 3 => (4 + 4 * index, 1),
        4 | 5 => (4 + 4 * index + 1, 3),
        _ => (4 + 4 * n + 8 * index, 8),
    };
    let Some(field) = bytes.get_mut(at..at + size) else { return };
    let mut whole = [0; 8];
    whole[..size].copy_from_slice(field);
    let value = u64::from_le_bytes(whole);
    let value = match draw.below(5) {
        0 => value.wrapping_add(1),
        1 => value.wrapping_sub(1),
        2 => value ^ (1 << draw.below(8 * size)),
        3 => draw.below(7) as u64,
        _ => value.wrapping_add(1 << 16),
    };
    field.copy_from_slice(&value.to_le_bytes()[..size]);
}

/// A table of up to `most` stores with those modes at most, or a list. Names are seldom the same unless `twins`.
pub fn table(draw: &mut Draw, most: usize, mode: usize, twins: bool) -> Vec<u8> {
    let many = if draw.once_in(8) { most } else { draw.below(most + 1) };
    let mut names: Vec<String> = Vec::new();
    while names.len() < many {
        let name = match draw.below(8) {
            0 if draw.once_in(4) => draw.of(&ODD).to_string(),
            1 if draw.once_in(8) => draw.of(&["n", "m", "\x7f"]).repeat(draw.of(&[1, 7, 8, 9, 254, 255])),
            2 | 3 => format!("s{}", draw.below(200)),
            _ => draw.of(&NAMES).to_string(),
        };
        if twins || !names.contains(&name) {
            names.push(name);
        } else {
            names.push(format!("{}-{}", names.len(), draw.below(9)));
        }
    }
    let entries: Vec<(u8, &str)> = names.iter().map(|name| (draw.below(mode + 1) as u8, name.as_str())).collect();
    layout::table(&entries)
}
