//! The answers that document 01, document 02's Jobs 1 and 2 and the design's list of traps state themselves, and some that follow
//! from one sentence of theirs. The answers that the comparison holds the port to, the Rust's among them, must be these.

use crate::layout;
use crate::oracle::{self, List, Stores};
use crate::tally::Tally;

/// Texts that read: the numbers of nodes and of name bytes, and what they print as.
const READ: [(&str, u8, u8, &str); 30] = [
    ("nas && readable(1)", 3, 3, "nas && readable(1)"),
    ("a && b || c", 5, 3, "a && b || c"),
    ("a && (b && c)", 5, 3, "a && b && c"),
    ("(a && b) && c", 4, 3, "a && b && c"),
    ("older_than(\"1h 30m\")", 1, 0, "older_than(1h30m)"),
    ("'READABLE'", 1, 8, "READABLE"),
    ("\"Readable\"", 1, 8, "Readable"),
    ("readable && 'readable'", 3, 8, "readable(1) && readable"),
    ("'nas' && readable", 3, 3, "nas && readable(1)"),
    ("any('any', 'readable')", 3, 11, "any || readable"),
    ("'and'", 1, 3, "and"),
    ("readable('2')", 1, 0, "readable(2)"),
    ("at_least(\"1\", a)", 2, 1, "at_least(1, a)"),
    ("any(a,b) || c", 4, 3, "a || b || c"),
    ("c || any(a,b)", 5, 3, "c || a || b"),
    ("at_least(1,a) || b", 4, 2, "at_least(1, a) || b"),
    ("a && a", 3, 2, "a && a"),
    ("a.and.b", 1, 7, "a.and.b"),
    ("2", 1, 1, "2"),
    ("30d", 1, 3, "30d"),
    ("any", 1, 3, "any"),
    ("''", 1, 0, ""),
    ("all(any(a))", 3, 1, "(a)"),
    ("older_than(0s)", 1, 0, "older_than(0s)"),
    ("older_than(2w)", 1, 0, "older_than(14d)"),
    ("older_than('30 d')", 1, 0, "older_than(30d)"),
    ("older_than(\"1w 1d\")", 1, 0, "older_than(8d)"),
    ("older_than('1 ms')", 1, 0, "older_than(1ms)"),
    ("older_than('\t1 \x0b\x0c\r\nw ')", 1, 0, "older_than(7d)"),
    ("older_than(999999999w)", 1, 0, "older_than(6999999993d)"),
];

/// Texts that don't: the number and the place.
const REFUSED: [(&str, u8, usize); 58] = [
    ("any(a,)", 7, 6),
    ("any()", 14, 0),
    ("", 7, 0),
    ("older_than(1h 30m)", 8, 14),
    ("readable(x", 12, 9),
    ("older_than(x", 8, 12),
    (") a &", 4, 4),
    ("'a # b", 5, 0),
    ("a # '", 6, 2),
    ("a &&& b", 4, 4),
    ("older_than(x y", 8, 13),
    ("any( ", 7, 5),
    ("a'b'", 9, 1),
    ("any(a,any())", 14, 6),
    ("and(a)", 7, 0),
    ("'and'(a)", 9, 5),
    ("'any'(a)", 9, 5),
    ("'any'(a) || b", 9, 5),
    ("'readable'(1)", 9, 10),
    ("''(", 9, 2),
    ("('any'(a))", 8, 6),
    ("any('any'(a))", 8, 9),
    ("at_least(1, 'x' (a))", 8, 16),
    ("readable('2'(", 8, 12),
    ("at_least('2'(a))", 11, 12),
    ("'any'(a) &", 4, 9),
    (") 'any'(a)", 7, 0),
    ("'a' b 'any'(a)", 9, 4),
    ("(((((((((((((((((((((((((((((((((((((((((((((((((((((((((((((((('a'(", 8, 67),
    ("((((((((((((((((((((((((((((((((((((((((((((((((((((((((((((((((a(", 15, 65),
    ("a (b)", 10, 0),
    ("older_than(1mms)", 13, 11),
    ("older_than('1m s')", 13, 11),
    ("older_than(1ms1s)", 13, 11),
    ("older_than(30D)", 13, 11),
    ("older_than(30 d)", 8, 14),
    ("older_than('1 m s')", 13, 11),
    ("older_than('1w1w')", 13, 11),
    ("older_than('1d1w')", 13, 11),
    ("older_than('1W')", 13, 11),
    ("older_than('1000000000 w')", 13, 11),
    ("older_than(' 1 ')", 13, 11),
    ("older_than(6999999993d)", 13, 11),
    ("at_least(2)", 11, 10),
    ("at_least(2,)", 14, 0),
    ("at_least(2, ", 7, 12),
    ("any(", 7, 4),
    ("()", 7, 1),
    ("(a,b)", 8, 2),
    ("a \x1c b", 6, 2),
    ("readable(' 1')", 12, 9),
    ("readable(+1)", 6, 9),
    ("readable('18446744073709551616')", 12, 9),
    ("older_than(1000000000s)", 13, 11),
    ("'\u{e9}' &", 3, 1),
    ("\0", 6, 0),
    ("((((((((((((((((((((((((((((((((((((((((((((((((((((((((((((((((older_than(1d)", 15, 74),
    ("(((((((((((((((((((((((((((((((((((((((((((((((((((((((((((((((older_than((", 11, 74),
];

/// Verdicts with nas (read-write), vault and cellar (write-only): the number, 0 for a pass.
const VERDICTS: [(&str, u8); 8] = [
    ("nas || vault", 22),
    ("at_least(0, nas)", 21),
    ("at_least(2, nas, vault)", 0),
    ("vault && cellar", 22),
    ("nas && readable(1)", 0),
    ("older_than(30d) && readable(1)", 0),
    ("older_than(30d)", 21),
    ("older_than(0s) || attic", 20),
];

/// Compares the expected answers with those stated, and the port with both.
pub fn all(tally: &mut dyn Tally, stores: &[Stores], lists: &[List]) {
    tally.part("stated answers");
    for (text, n, m, printed) in READ {
        let rule = oracle::read(text.as_bytes());
        let image = rule.as_ref().ok().and_then(layout::encode).unwrap_or(vec![0; 4]);
        let same = image[..4] == [n, 0, m, 0] && rule.is_ok_and(|rule| rule.to_string() == printed);
        tally.fact("stated", &[("text", text.as_bytes())], same, &format!("stated: {n} nodes, {m} name bytes, {printed:?}"));
        tally.text(text.as_bytes(), 0, stores, lists);
    }
    for (text, number, place) in REFUSED {
        let due = oracle::read(text.as_bytes());
        let note = format!("stated: {number} at {place}; due {due:?}");
        tally.fact("stated", &[("text", text.as_bytes())], due == Err((number, place)), &note);
        tally.text(text.as_bytes(), 0, stores, lists);
    }
    let table = Stores::of(layout::table(&[(0, "nas"), (2, "vault"), (2, "cellar")]));
    for (text, number) in VERDICTS {
        tally.given(text.as_bytes());
        let verdict = tally.judge(text.as_bytes(), &oracle::read(text.as_bytes()), &table);
        let note = format!("stated: {number}; judge answers {verdict}");
        tally.fact("stated", &[("text", text.as_bytes())], verdict == number, &note);
    }
}
