//! Bytes that are exhausted: every small image, and every byte of some images, tables and lists at every value.

use crate::layout;
use crate::oracle::{self, List, Stores};
use crate::remote::policy::PruneExpr;
use crate::tally::Tally;

/// The texts whose images are damaged byte by byte.
const TEXTS: [&str; 7] = [
    "a",
    "''",
    "nas && readable(1)",
    "a && (b && c) || older_than(1ms)",
    "at_least(2, all(nas, older_than(1d)), any(vault, readable))",
    "all(any(a), any(''), '')",
    "any(all(at_least(0, readable(0))))",
];

/// Compares printing images of up to four nodes of every kind and size, most of which do not tile.
fn small_images(tally: &mut dyn Tally) {
    const KINDS: [u32; 6] = [0, 1, 3, 4, 5, 6];
    tally.part("all images of up to four nodes");
    for n in 1..=4_usize {
        for code in 0..36_usize.pow(n as u32) {
            let mut image = vec![n as u8, 0, 0, 0];
            let node = |at: usize| code / 36_usize.pow(at as u32) % 36;
            for at in 0..n {
                let tag = KINDS[node(at) % 6] + 256 * (node(at) / 6) as u32;
                image.extend_from_slice(&tag.to_le_bytes());
            }
            for at in 0..n {
                let argument = u64::from(KINDS[node(at) % 6] == 3);
                image.extend_from_slice(&argument.to_le_bytes());
            }
            let text = layout::decode(&image).as_ref().map(PruneExpr::to_string);
            tally.print(&image, 64, text.as_deref());
        }
    }
}

/// The bytes with each one set to each value, and cut after each.
fn turned(bytes: &[u8], mut compare: impl FnMut(&[u8])) {
    let mut copy = bytes.to_vec();
    for at in 0..bytes.len() {
        for value in 0..=255 {
            copy[at] = value;
            compare(&copy);
        }
        copy[at] = bytes[at];
        compare(&bytes[..at]);
    }
    copy.push(0);
    compare(&copy);
}

/// Compares printing, checking and deciding on images with each byte at each value.
fn turned_images(tally: &mut dyn Tally) {
    let stores = Stores::of(layout::table(&[(0, "nas"), (2, "vault"), (1, "a"), (2, "b"), (2, "")]));
    let list = List::of(layout::table(&[(0, "vault"), (0, "b"), (0, "")]));
    tally.part("images with each byte at each value");
    for text in TEXTS {
        let image = layout::encode(&oracle::read(text.as_bytes()).unwrap()).unwrap();
        let mut turn = 0;
        turned(&image, |bytes| {
            let rule = layout::decode(bytes);
            tally.printing(bytes, rule.as_ref(), turn);
            tally.check(bytes, rule.as_ref(), &stores);
            tally.decide(bytes, rule.as_ref(), &stores, 86_400_000, &list);
            turn += 1;
        });
    }
}

/// Compares checking, judging and deciding with tables and lists with each byte at each value.
fn turned_tables(tally: &mut dyn Tally) {
    let text = b"at_least(2, nas, vault, x, '', readable)";
    tally.given(text);
    let read = oracle::read(text);
    let rule = read.as_ref().ok();
    let image = layout::encode(rule.unwrap()).unwrap();
    let good = layout::table(&[(0, "nas"), (0, "vault"), (0, ""), (0, "x")]);
    tally.part("tables and lists with each byte at each value");
    for entries in [
        &[(0, "nas"), (2, "vault"), (1, "x"), (2, "")][..],
        &[(0, "nas"), (0, "x")],
        &[(0, "nas"), (0, "naS"), (0, "n"), (0, "a")],
        &[],
    ] {
        turned(&layout::table(entries), |bytes| {
            let (stores, list) = (Stores::of(bytes.to_vec()), List::of(bytes.to_vec()));
            tally.check(&image, rule, &stores);
            tally.judge(text, &read, &stores);
            tally.decide(&image, rule, &stores, 0, &List::of(good.clone()));
            tally.decide(&image, rule, &Stores::of(good.clone()), 0, &list);
            tally.decide(&image, rule, &stores, 0, &list);
        });
    }
}

/// Compares all of the above.
pub fn all(tally: &mut dyn Tally) {
    turned_images(tally);
    turned_tables(tally);
    small_images(tally);
}
