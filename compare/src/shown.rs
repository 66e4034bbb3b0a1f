//! Judge held to what decide shows, whatever is proved: for every table of up to three stores in every combination of modes, a
//! rule passes exactly if no decision, at any age that matters and for any set of confirmed names, evicts without a readable
//! store confirmed; 21 exactly if it evicts at the largest age with nothing confirmed; 22 exactly if not that, and it evicts at
//! the largest age with just the write-only stores confirmed.

use crate::comparison::Comparison;
use crate::draw::{self, Draw};
use crate::layout;
use crate::oracle::{self, List, No, Stores};
use crate::remote::policy::PruneExpr;
use crate::tally::{self, Tally};

/// The stores' names; a table has the first of them, as many as it has modes.
const NAMES: [&str; 3] = ["a", "b", "c"];

/// A table with the modes that it was made from.
struct Modes {
    modes: Vec<u8>,
    stores: Stores,
}

/// Every table of up to three stores.
fn all_tables() -> Vec<Modes> {
    let mut found = Vec::new();
    for many in 0..=3 {
        for code in 0..3_usize.pow(many) {
            let modes: Vec<u8> = (0..many).map(|at| (code / 3_usize.pow(at) % 3) as u8).collect();
            let entries: Vec<(u8, &str)> = modes.iter().zip(NAMES).map(|(mode, name)| (*mode, name)).collect();
            found.push(Modes { stores: Stores::of(layout::table(&entries)), modes });
        }
    }
    found
}

/// The list of each set of the three names; bit i represents name i.
fn all_lists() -> Vec<List> {
    let entries = |set: usize| (0..3).filter(move |at| set >> at & 1 == 1).map(|at| (0, NAMES[at])).collect::<Vec<_>>();
    (0..8).map(|set| List::of(layout::table(&entries(set)))).collect()
}

/// The texts of all small rules: leaves, and combinators over pairs of leaves and over one small combinator.
fn small_rules() -> Vec<String> {
    let leaves =
        ["a", "b", "c", "readable", "readable(0)", "readable(2)", "readable(3)", "older_than(0s)", "older_than(1d)", "d"];
    let mut texts: Vec<String> = leaves.iter().map(|leaf| leaf.to_string()).collect();
    let mut pairs = Vec::new();
    for first in leaves {
        for second in leaves {
            for (before, sign) in [
                ("all(", ","),
                ("any(", ","),
                ("at_least(0,", ","),
                ("at_least(1,", ","),
                ("at_least(2,", ","),
                ("at_least(3,", ","),
            ] {
                pairs.push(format!("{before}{first}{sign}{second})"));
            }
        }
    }
    for (index, pair) in pairs.iter().enumerate() {
        let leaf = leaves[index % leaves.len()];
        texts.push(format!("{pair} && {leaf}"));
        texts.push(format!("{leaf} || {pair}"));
        texts.push(format!("at_least(2, {pair}, a, b, c)"));
    }
    texts.extend(pairs);
    texts
}

/// A drawn rule over the three names, as a text.
fn drawn(draw: &mut Draw) -> String {
    let mut rule = draw::rule(draw, 3, false);
    rename(draw, &mut rule);
    let mut text = String::new();
    draw::spell(draw, &rule, &mut text);
    text
}

/// Puts names of the three stores, seldom another, in place of a rule's names, and counts that matter in place of large ones.
fn rename(draw: &mut Draw, rule: &mut PruneExpr) {
    match rule {
        PruneExpr::Remote(name) => *name = if draw.once_in(60) { "d".to_string() } else { draw.of(&NAMES).to_string() },
        PruneExpr::OlderThan(_) => {}
        PruneExpr::Readable(k) => *k %= 4,
        PruneExpr::AtLeast(k, children) => {
            *k %= children.len() + 2;
            children.iter_mut().for_each(|child| rename(draw, child));
        }
        PruneExpr::All(children) | PruneExpr::Any(children) => children.iter_mut().for_each(|child| rename(draw, child)),
    }
}

/// Whether a rule names none but the first `many` stores.
fn knows(rule: &PruneExpr, many: usize) -> bool {
    match rule {
        PruneExpr::Remote(name) => NAMES[..many].contains(&name.as_str()),
        PruneExpr::AtLeast(_, children) | PruneExpr::All(children) | PruneExpr::Any(children) => {
            children.iter().all(|child| knows(child, many))
        }
        _ => true,
    }
}

/// The number that the port's own decisions show for a rule and a table: 0 for a pass.
fn shown(tally: &mut Comparison, image: &[u8], rule: &PruneExpr, table: &Modes, lists: &[List]) -> u8 {
    let many = table.modes.len();
    let set = |readable: bool| (0..many).filter(|&at| (table.modes[at] < 2) == readable).fold(0, |set, at| set | 1 << at);
    let (readable, archive): (usize, usize) = (set(true), set(false));
    let (mut unsafe_somewhere, mut with_nothing, mut with_archive) = (false, false, false);
    for (names, list) in lists.iter().enumerate().take(1 << many) {
        for age in tally::ages(rule) {
            if tally.decide(image, Some(rule), &table.stores, age, list) != Some(true) {
                continue;
            }
            unsafe_somewhere |= names & readable == 0;
            with_nothing |= age == u64::MAX && names == 0;
            with_archive |= age == u64::MAX && names == archive && archive != 0;
        }
    }
    if with_nothing {
        21
    } else if with_archive {
        22
    } else if unsafe_somewhere {
        // Neither 21 nor 22, and yet it evicts where it must not: no verdict can be right.
        99
    } else {
        0
    }
}

/// Holds judge on a text to the decisions, for every table.
fn hold(tally: &mut Comparison, text: &str, tables: &[Modes], lists: &[List]) {
    tally.given(text.as_bytes());
    let read: Result<PruneExpr, No> = oracle::read(text.as_bytes());
    let Ok(rule) = &read else {
        for table in tables {
            tally.judge(text.as_bytes(), &read, &table.stores);
        }
        return;
    };
    let Some(image) = layout::encode(rule) else { return };
    tally.read(text.as_bytes(), 26_628, &Ok(image.clone()));
    for table in tables {
        let due = match table.modes.len() {
            0 => 0,
            many if !knows(rule, many) => 20,
            _ => shown(tally, &image, rule, table, lists),
        };
        let verdict = tally.judge(text.as_bytes(), &read, &table.stores);
        tally.check(&image, Some(rule), &table.stores);
        tally.held(text.as_bytes(), &table.stores, due, verdict);
    }
}

/// Holds judge to the decisions on all small rules.
pub fn small(tally: &mut Comparison) {
    let (tables, lists) = (all_tables(), all_lists());
    tally.part("judge held to every decision, small rules");
    for text in small_rules() {
        hold(tally, &text, &tables, &lists);
    }
}

/// Holds judge to the decisions on drawn rules.
pub fn random(tally: &mut Comparison, draw: &mut Draw, many: usize) {
    let (tables, lists) = (all_tables(), all_lists());
    tally.part("judge held to every decision, drawn rules");
    for _ in 0..many {
        let text = drawn(draw);
        hold(tally, &text, &tables, &lists);
    }
}
