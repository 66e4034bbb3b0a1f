//! Tables with one pair of twins, wherever the two are.

use crate::comparison::Comparison;
use crate::layout;
use crate::oracle::{self, List, Stores};
use crate::tally::Tally;

/// The most stores of a table.
const MOST: usize = 64;

/// A table of `many` stores with names of that length or a little more, each another but for the one at `second`, which is the one
/// at `first`.
fn table(many: usize, size: usize, first: usize, second: usize) -> Vec<u8> {
    let named = |index: usize| format!("{index:0>width$}", width = size + index % 3);
    let names: Vec<String> = (0..many).map(|at| named(if at == second { first } else { at })).collect();
    let modes = [0, 2, 1].into_iter().cycle();
    let entries: Vec<(u8, &str)> = modes.zip(names.iter().map(String::as_str)).collect();
    layout::table(&entries)
}

/// Compares checking, judging and deciding with a table of twins at every pair of places, in a full table and in one that ends with
/// the second of them; and the same tables without twins.
pub fn all(tally: &mut Comparison) {
    tally.part("tables with one pair of twins");
    let text = b"readable && older_than(1d)";
    let read = oracle::read(text);
    let (rule, list) = (read.as_ref().ok(), List::of(layout::table(&[(0, "00"), (0, "63")])));
    let image = layout::encode(rule.unwrap()).unwrap();
    tally.given(text);
    for second in 0..MOST {
        for first in 0..=second {
            let size = [2, 7, 8, 9, 16, 40][(first + second) % 6];
            for many in [MOST, second + 1] {
                let stores = Stores::of(table(many, size, first, second));
                tally.check(&image, rule, &stores);
                tally.judge(text, &read, &stores);
                tally.decide(&image, rule, &stores, 86_400_000, &list);
            }
        }
    }
}
