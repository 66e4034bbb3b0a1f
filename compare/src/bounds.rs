//! Inputs at the boundaries of document 01: lengths, depths, numbers, buffers, and the largest images, tables and lists.

use crate::layout;
use crate::oracle::{self, List, Stores};
use crate::remote::policy::PruneExpr;
use crate::sequences::Tables;
use crate::tally::Tally;
use std::time::Duration;

/// The middle repeated between two ends and cut so that the text has exactly that length.
fn filled(before: &str, middle: &str, after: &str, length: usize) -> Vec<u8> {
    let room = length.saturating_sub(before.len() + after.len());
    let mut text = before.as_bytes().to_vec();
    text.extend(middle.bytes().cycle().take(room));
    text.extend_from_slice(after.as_bytes());
    text
}

/// Texts of every sort, 2,046 to 2,050 bytes long and of other lengths that matter.
fn lengths(compare: &mut dyn FnMut(&[u8])) {
    let makes = [
        ("", " ", ""),
        ("", " ", "a"),
        ("a", " ", ""),
        ("a", " ", "b"),
        ("a", " ", "&"),
        ("", "n", ""),
        ("'", "n", "'"),
        ("'", "n", ""),
        ("", "a||", "a"),
        ("", "a&&", ""),
        ("", "a and ", "b"),
        ("any(", "a,", "a)"),
        ("any(", "a,", ")"),
        ("", "()", ""),
        ("(", "a", ")"),
        ("older_than('", " ", "1d')"),
        ("readable(", "0", "1)"),
        ("readable('+", "0", "7')"),
        ("readable(", "1", ")"),
        ("", "''||", "''"),
        ("", "(a)&&", "a"),
        ("at_least(1,", "a,", "readable)"),
        ("", "(", ""),
        ("", ")", ""),
        ("", "#", ""),
        ("", "'\"'", ""),
        ("a", "\u{7f}", ""),
        ("", "\u{80}", ""),
        ("a||'", "\u{e9}", "'"),
        ("", "readable||", "a"),
        ("", "any(a)&&", "b"),
        ("", "a\t", ""),
        ("", ",", ""),
    ];
    for (before, middle, after) in makes {
        for length in [0, 1, 63, 64, 65, 255, 256, 511, 512, 513, 1023, 1024, 2045, 2046, 2047, 2048, 2049, 2050, 4096, 30_000] {
            compare(&filled(before, middle, after, length));
        }
    }
}

/// Brackets of every sort, 61 to 66 deep, with every sort of innermost text, closed in full, short by one or not at all.
fn depths(compare: &mut dyn FnMut(&[u8])) {
    let opens = ["(", "any(", "ALL(", "at_least(1,", "any(b,", "(b && ", "(b||", "x("];
    let inner = [
        "",
        "a",
        "older_than(1d)",
        "older_than((",
        "readable(2)",
        "readable((",
        "x(a)",
        "x((",
        "any()",
        "at_least(0,a)",
        "at_least((",
        "(a)",
        "((a))",
        "a (",
        "older_than(1d (",
        "readable(1 (",
        "any(a) (",
        "at_least(1 (",
        "at_least(1,(",
        "readable",
        "'readable'",
        "'readable'(1)",
        "'a'(",
        "\"any\" (a)",
        "any('any'(a",
        "readable('2'(",
        "at_least('2'(a))",
        "'('",
        "(a)&&(a)",
        "and",
        ")",
        ",",
        "readable(x",
        "older_than(x)",
        "any(a,",
    ];
    for open in opens {
        for deep in 61..=66 {
            for middle in inner {
                for closes in [deep, deep - 1, deep + 1, 0] {
                    compare(format!("{}{middle}{}", open.repeat(deep), ")".repeat(closes)).as_bytes());
                }
            }
        }
    }
    // Depth is given back on closing.
    for deep in [1, 32, 63, 64, 65] {
        let once = format!("{}a{}", "(".repeat(deep), ")".repeat(deep));
        compare(format!("{once} && {once} || any({once}, {once})").as_bytes());
        compare(format!("{once} || (((({once}))))").as_bytes());
    }
}

/// Counts and durations at their ends, in each call that takes one.
fn numbers(compare: &mut dyn FnMut(&[u8])) {
    let zeros = "0".repeat(1900);
    let counts = [
        "0",
        "1",
        "+1",
        "++1",
        "+",
        "-1",
        "-0",
        " 1",
        "1 ",
        "",
        "00",
        "1.0",
        "1e3",
        "0x1",
        "18446744073709551614",
        "18446744073709551615",
        "18446744073709551616",
        "18446744073709551625",
        "018446744073709551615",
        "018446744073709551616",
        "99999999999999999999",
        "184467440737095516150",
        "36893488147419103232",
        "9223372036854775807",
        "9223372036854775808",
        "4294967295",
        "4294967296",
        "1_000",
        "1a",
        "a",
    ];
    for count in counts.iter().map(|count| count.to_string()).chain([
        format!("{zeros}1"),
        format!("{zeros}18446744073709551615"),
        format!("+{zeros}"),
    ]) {
        for quote in ["", "'", "\""] {
            compare(format!("readable({quote}{count}{quote})").as_bytes());
            compare(format!("at_least({quote}{count}{quote}, a, b)").as_bytes());
        }
    }
    let numerals = [
        "",
        "0",
        "1",
        "9",
        "00000001",
        "000000001",
        "0000000001",
        "99999999",
        "999999999",
        "1000000000",
        "9999999999",
        "+1",
        "-1",
        "1.5",
    ];
    let units = [
        "", "d", "h", "m", "s", "ms", "D", "H", "M", "S", "MS", "Ms", "w", "us", "ns", "day", "days", "mm", "mms", "sm", " d",
        "d ", "d h", "W", "ww", "wd", "week", " w", " ms", "m s", " m s", "\t\x0bd", "\x1cd", "\x00w",
    ];
    for numeral in numerals {
        for unit in units {
            compare(format!("older_than({numeral}{unit})").as_bytes());
            compare(format!("older_than('{numeral}{unit}')").as_bytes());
            compare(format!("older_than('\t {numeral}{unit} \x0b')").as_bytes());
        }
    }
    // Parts in every order, with and without blanks between them.
    let parts = ["1d", "23h", "59m", "999999999s", "7ms", "0ms", "1000000000d", "2w", "3 w", "30 d", "1 ms", "1 m s"];
    for first in parts {
        for second in parts {
            for gap in ["", " ", "\t\r\n", "\x1c", ",", "+"] {
                compare(format!("older_than('{first}{gap}{second}')").as_bytes());
                compare(format!("older_than('{first}{gap}{second}{gap}1ms')").as_bytes());
            }
        }
    }
    compare(b"older_than(999999999d999999999h999999999m999999999s999999999ms)");
    compare(b"older_than(999999999w999999999d999999999h999999999m999999999s999999999ms)");
    // A duration with a blank is quoted whole.
    for text in ["30 d", "2 w", "1w 1d", "'1' d", "1 'd'", "'1 'd"] {
        compare(format!("older_than({text})").as_bytes());
    }
}

/// Reads into buffers of every length around the one that is needed.
fn rooms(tally: &mut dyn Tally) {
    let texts: [&[u8]; 8] =
        [b"a", b"", b"&", b"a &", b"\x80", b"nas && readable(1)", &[b' '; 2049], &filled("", "a||", "a", 2047)];
    for text in texts {
        tally.given(text);
        let due = oracle::read(text).and_then(|rule| layout::encode(&rule).ok_or((0, 0)));
        for room in (0..60).chain(26_500..26_760).chain([16, 1000, 13_314, 32_768, 65_535, 65_536, 99_999]) {
            tally.read(text, room, &due);
        }
    }
}

/// Rules nested as deep, and with as many children, as images allow, and one more; the longest text; the longest names.
fn large_rules() -> Vec<PruneExpr> {
    let leaf = |name: &str| PruneExpr::Remote(name.to_string());
    let mut rules = Vec::new();
    for depth in [1, 64, 65, 255, 1000, 2046, 2047, 2048] {
        for way in 0..4 {
            let mut rule = leaf("a");
            for level in 0..depth {
                rule = match (way + level * (way / 3)) % 3 {
                    0 => PruneExpr::All(vec![rule]),
                    1 => PruneExpr::Any(vec![rule]),
                    _ => PruneExpr::AtLeast(1, vec![rule]),
                };
            }
            rules.push(rule);
        }
    }
    for many in [1, 2, 64, 255, 256, 1024, 2046, 2047, 2048] {
        rules.push(PruneExpr::All(vec![leaf("a"); many]));
        rules.push(PruneExpr::Any(vec![leaf(""); many]));
        rules.push(PruneExpr::AtLeast(many, vec![leaf("b"); many]));
        rules.push(PruneExpr::AtLeast(many + 1, vec![PruneExpr::OlderThan(Duration::from_millis(u64::MAX)); many]));
        rules.push(PruneExpr::Any(vec![PruneExpr::Readable(usize::MAX); many]));
    }
    for size in [0, 1, 254, 255, 256, 257, 2047, 2048, 2049] {
        rules.push(leaf(&"n".repeat(size)));
        rules.push(PruneExpr::Any(vec![leaf(&"n".repeat(size)), leaf("a")]));
    }
    let mut longest = vec![PruneExpr::OlderThan(Duration::from_millis(u64::MAX)); 2046];
    longest.push(leaf(&"n".repeat(2048)));
    rules.push(PruneExpr::All(longest));
    rules
}

/// Tables and lists of 0, 1, 63, 64 and 65 entries with names of every length, and the bytes around them.
fn tables(tally: &mut dyn Tally) {
    let rule = PruneExpr::Any(vec![
        PruneExpr::Remote("n".repeat(255)),
        PruneExpr::Readable(64),
        PruneExpr::OlderThan(Duration::from_millis(5)),
    ]);
    let image = layout::encode(&rule).unwrap();
    let mut made: Vec<Vec<u8>> =
        vec![vec![], vec![0], vec![0; 2], vec![0; 3], vec![0; 4], vec![0; 5], vec![255; 4], vec![0, 1, 0, 0], vec![0, 0, 0, 1]];
    for many in [0, 1, 2, 31, 32, 33, 63, 64, 65, 255, 256] {
        for size in [0, 1, 3, 254, 255] {
            for mode in 0..=3 {
                let names: Vec<String> =
                    (0..many).map(|index| format!("{index:0>size$}").chars().rev().take(size).collect()).collect();
                let entries: Vec<(u8, &str)> = names.iter().map(|name| (mode, name.as_str())).collect();
                let bytes = layout::table(&entries);
                for other in [1_usize, 255, 256] {
                    let mut longer = bytes.clone();
                    longer[2..4].copy_from_slice(&((bytes.len() + other) as u16).to_le_bytes());
                    made.push(longer);
                }
                let mut foreign = bytes.clone();
                *foreign.last_mut().unwrap() |= 128;
                let mut trailing = bytes.clone();
                trailing.push(b'a');
                made.extend([bytes[..bytes.len() - 1].to_vec(), foreign, trailing, bytes]);
            }
        }
    }
    tally.given(b"readable");
    let (good, none) = (layout::table(&[(0, "a"), (2, "b")]), layout::table(&[]));
    for bytes in made {
        let (stores, list) = (Stores::of(bytes.clone()), List::of(bytes));
        tally.check(&image, Some(&rule), &stores);
        tally.judge(b"readable", &oracle::read(b"readable"), &stores);
        for age in [4, 5] {
            tally.decide(&image, Some(&rule), &stores, age, &List::of(none.clone()));
            tally.decide(&image, Some(&rule), &Stores::of(good.clone()), age, &list);
            tally.decide(&image, Some(&rule), &stores, age, &list);
        }
    }
}

/// Tallies all of the above.
pub fn all(tally: &mut dyn Tally, given: &Tables) {
    let mut turn = 0;
    for (name, part) in [("lengths", lengths as fn(&mut dyn FnMut(&[u8]))), ("depths", depths), ("counts and durations", numbers)]
    {
        tally.part(name);
        part(&mut |text| {
            tally.text(text, turn, given.stores, given.lists);
            turn += 1;
        });
    }
    tally.part("buffers");
    rooms(tally);
    tally.part("large rules");
    for rule in large_rules() {
        let Some(image) = layout::encode(&rule) else { continue };
        for way in 0..4 {
            tally.printing(&image, Some(&rule), way);
        }
        for (stores, list) in given.stores.iter().zip(given.lists.iter().cycle()) {
            tally.check(&image, Some(&rule), stores);
            for age in [0, u64::MAX - 1, u64::MAX] {
                tally.decide(&image, Some(&rule), stores, age, list);
            }
        }
    }
    tally.part("tables and lists at their ends");
    tables(tally);
}
