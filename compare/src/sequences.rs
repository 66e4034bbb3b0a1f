//! Inputs that are exhausted: token sequences, short texts and short durations.

use crate::layout;
use crate::oracle::{List, Stores};
use crate::tally::Tally;

/// Tokens of which all sequences up to the full length are made; they reach 4 to 14.
const TOKENS: [&str; 19] = [
    "(",
    ")",
    ",",
    "&&",
    "||",
    "a",
    "older_than",
    "readable",
    "any",
    "ALL",
    "at_least",
    "2",
    "1d",
    "''",
    "and",
    "'OR'",
    "&",
    "'",
    "#",
];

/// Tokens used in sequences up to one less than the full length. Long ones and a foreign byte, made below, reach 2, 3
/// and 15 in sequences up to two less.
const MORE: [&str; 7] = ["'1w 2 ms'", "'+1'", "\"", "|", "x.", "'Readable'", "\"any\""];

/// Calls up to their bracket or comma, whose sequences go one token further.
const CALLS: [&str; 9] = ["any(", "ALL(", "at_least(2,", "(", ")", ",", "&&", "||", "a"];

/// Signs, brackets and a name, whose sequences go two tokens further.
const CHAINS: [&str; 6] = ["a", "(", ")", "&&", "||", "oneof("];

/// The bytes of the shortest texts.
const BYTES: &[u8; 20] = b"(),&|'\"ab1d+# \t_-\x00\x7f\x80";

/// The bytes of the shortest durations.
const DURATION: &[u8; 6] = b"1wdms ";

/// Whether a byte can be part of a word.
fn in_word(byte: Option<&u8>) -> bool {
    byte.is_some_and(|byte| byte.is_ascii_alphanumeric() || b"_-.".contains(byte))
}

/// The tables and lists that texts are judged and decided with.
pub struct Tables<'a> {
    pub stores: &'a [Stores],
    pub lists: &'a [List],
}

/// The tables and lists that texts are judged and decided with where nothing is drawn.
pub fn fixed() -> (Vec<Stores>, Vec<List>) {
    let tables: [&[(u8, &str)]; 7] = [
        &[],
        &[(0, "a")],
        &[(2, "a")],
        &[(0, "nas"), (2, "a"), (1, "2"), (2, "1d"), (0, ""), (2, "OR"), (0, "Readable")],
        &[(2, "a"), (2, ""), (2, "2"), (2, "older_than"), (0, "any"), (2, "ALL"), (2, "at_least"), (1, "b")],
        &[(0, "a"), (1, "b"), (0, "a")],
        &[
            (2, "b"),
            (0, "a"),
            (1, "n"),
            (2, "x."),
            (0, "older_than"),
            (0, "any"),
            (1, "ALL"),
            (0, "at_least"),
            (0, "2"),
            (0, "1d"),
        ],
    ];
    let lists: [&[(u8, &str)]; 5] = [
        &[],
        &[(0, "a")],
        &[(0, "b"), (0, ""), (0, "2"), (0, "Readable")],
        &[(0, "a"), (0, "a"), (0, "any"), (0, "nobody")],
        &[(0, "1d"), (0, "nas")],
    ];
    let mut stores: Vec<Stores> = tables.iter().map(|entries| Stores::of(layout::table(entries))).collect();
    stores.push(Stores::of(vec![1, 0, 1, 0, 3, 1, b'a']));
    (stores, lists.iter().map(|entries| List::of(layout::table(entries))).collect())
}

/// Tallies the sequences of exactly `length` tokens, chosen by counting; where the alphabet goes beyond its first `plain`
/// tokens, only those with a token from there on.
fn of_length(tally: &mut dyn Tally, tables: &Tables, alphabet: &[Vec<u8>], plain: usize, length: usize, turn: &mut u64) {
    let mut chosen = vec![0; length];
    let mut text = Vec::new();
    loop {
        if plain == alphabet.len() || chosen.iter().any(|&index| index >= plain) {
            text.clear();
            for (at, &index) in chosen.iter().enumerate() {
                let token = &alphabet[index];
                let gap: &[u8] = match (*turn + at as u64) % 5 {
                    0 | 1 => b" ",
                    2 if at > 0 => b"\t\n",
                    _ if in_word(text.last()) && in_word(token.first()) => b" ",
                    _ => b"",
                };
                text.extend_from_slice(gap);
                text.extend_from_slice(token);
            }
            if *turn % 3 == 1 {
                text.push(b' ');
            }
            tally.text(&text, *turn, tables.stores, tables.lists);
            *turn += 1;
        }
        let Some(at) = chosen.iter().rposition(|&index| index + 1 < alphabet.len()) else { return };
        chosen[at] += 1;
        chosen[at + 1..].fill(0);
    }
}

/// An alphabet as bytes.
fn alphabet(tokens: &[&str]) -> Vec<Vec<u8>> {
    tokens.iter().map(|token| token.as_bytes().to_vec()).collect()
}

/// Tallies all token sequences up to that length, shorter ones that have rarer or long tokens among them, and longer ones over
/// two small alphabets.
pub fn tokens(tally: &mut dyn Tally, tables: &Tables, longest: usize) {
    let (plain, calls, chains) = (alphabet(&TOKENS), alphabet(&CALLS), alphabet(&CHAINS));
    let mut more = plain.clone();
    more.extend(alphabet(&MORE));
    let mut long = more.clone();
    long.extend([vec![b'('; 62], vec![b'('; 64], vec![b' '; 2040], vec![0x80], b"any(".repeat(63), vec![b')'; 62]]);
    let parts = [
        ("token sequences", &plain, plain.len(), longest),
        ("token sequences with rarer tokens", &more, plain.len(), longest - 1),
        ("token sequences with long tokens", &long, more.len(), longest - 2),
        ("token sequences of calls", &calls, calls.len(), longest + 1),
        ("token sequences of chains", &chains, chains.len(), longest + 2),
    ];
    let mut turn = 0;
    for (name, alphabet, plain, longest) in parts {
        tally.part(name);
        for length in 0..=longest {
            of_length(tally, tables, alphabet, plain, length, &mut turn);
        }
    }
}

/// Tallies all durations of up to six of the chosen bytes, in quotes.
pub fn durations(tally: &mut dyn Tally, tables: &Tables) {
    let mut turn = 0;
    tally.part("short durations");
    for length in 0..=6 {
        for code in 0..DURATION.len().pow(length) {
            let word = (0..length).map(|at| DURATION[code / DURATION.len().pow(at) % DURATION.len()]);
            let text: Vec<u8> = b"older_than('".iter().copied().chain(word).chain(*b"')").collect();
            tally.text(&text, turn, tables.stores, tables.lists);
            turn += 1;
        }
    }
}

/// Tallies all texts up to three of the chosen bytes, and all of up to two bytes of any sort.
pub fn short_texts(tally: &mut dyn Tally, tables: &Tables) {
    let mut turn = 0;
    tally.part("short texts");
    let mut compare = |text: &[u8]| {
        tally.text(text, turn, tables.stores, tables.lists);
        turn += 1;
    };
    for &first in BYTES {
        for &second in BYTES {
            for &third in BYTES {
                compare(&[first, second, third]);
            }
        }
    }
    for first in 0..=255 {
        compare(&[first]);
        for second in 0..=255 {
            compare(&[first, second]);
        }
    }
}
