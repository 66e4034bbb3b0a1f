//! Rules of 1,001 to 2,048 nodes in which one leaf decides, most of them with that leaf at a node above 255: by the leaf 21, 22,
//! 20 at its node, or a pass. So document 01 has the answer by construction, and the Rust's must be the same.

use crate::comparison::Comparison;
use crate::layout;
use crate::oracle::{self, List, No, Stores};
use crate::remote::policy::PruneExpr;
use crate::tally::Tally;
use std::time::Duration;

/// The leaves that decide, as they are written, and the number that each leads to, 0 for a pass: with `n` readable, `v` write-only
/// and no `x`.
const LEAVES: [(&str, u8); 4] = [("older_than(1d)", 21), ("v", 22), ("x", 20), ("n", 0)];

/// The shapes: five of one combinator over leaves, then pairs, a comb, and combinators of one child each.
const SHAPES: usize = 8;

/// The rule of a leaf's text.
fn leaf(text: &str) -> PruneExpr {
    PruneExpr::parse(text).expect("a leaf")
}

/// A combinator over leaves, of which the one at `place` decides: the others evict at the largest age or only with `n` confirmed,
/// by `way` all alike or in turn, and the combinator asks for one more than evict.
fn flat(way: usize, nodes: usize, place: usize, decides: PruneExpr) -> PruneExpr {
    let (age, name) = (PruneExpr::OlderThan(Duration::from_millis(u64::MAX)), leaf("n"));
    let others = [[&name, &name], [&age, &age], [&name, &name], [&age, &age], [&name, &age]][way];
    let mut children: Vec<PruneExpr> = (0..nodes - 1).map(|at| others[at % 2].clone()).collect();
    children[place] = decides;
    let evict = (0..nodes - 1).filter(|&at| at != place && *others[at % 2] == age).count();
    match way {
        0 => PruneExpr::Any(children),
        1 => PruneExpr::All(children),
        _ => PruneExpr::AtLeast(evict + 1, children),
    }
}

/// Any of pairs, each all of an age and a name; in the one at about `place` the leaf decides. With the leaf's node.
fn pairs(nodes: usize, place: usize, decides: PruneExpr) -> (PruneExpr, usize) {
    let (many, pair) = ((nodes - 1) / 3, place.min(nodes - 4) / 3);
    let (age, name) = (leaf("older_than(1d)"), leaf("n"));
    let second = |at: usize| if at == pair { &decides } else { &name };
    let mut children: Vec<PruneExpr> = (0..many).map(|at| PruneExpr::All(vec![age.clone(), second(at).clone()])).collect();
    children.resize(many + (nodes - 1) % 3, name.clone());
    (PruneExpr::Any(children), 3 * pair + 1)
}

/// Each an any of a name and the next, the leaf innermost; all of one more where the nodes are even. With the leaf's node.
fn comb(nodes: usize, decides: PruneExpr) -> (PruneExpr, usize) {
    let levels = (nodes - 1) / 2;
    let rule = (0..levels).fold(decides, |rule, _| PruneExpr::Any(vec![leaf("n"), rule]));
    (if nodes % 2 == 0 { PruneExpr::All(vec![rule]) } else { rule }, levels)
}

/// Combinators of one child each around the leaf, which is node 0.
fn nested(nodes: usize, decides: PruneExpr) -> PruneExpr {
    (1..nodes).fold(decides, |rule, level| match level % 3 {
        0 => PruneExpr::All(vec![rule]),
        1 => PruneExpr::Any(vec![rule]),
        _ => PruneExpr::AtLeast(1, vec![rule]),
    })
}

/// A rule of that shape and that many nodes, and the node of the leaf that decides, at or near `place` where the shape has it free.
fn shaped(shape: usize, nodes: usize, place: usize, decides: PruneExpr) -> (PruneExpr, usize) {
    match shape {
        0..=4 => (flat(shape, nodes, place, decides), place),
        5 => pairs(nodes, place, decides),
        6 => comb(nodes, decides),
        _ => (nested(nodes, decides), 0),
    }
}

/// What document 01 has for a rule that a leaf at that node decides.
fn due(number: u8, node: usize) -> Result<(), No> {
    match number {
        0 => Ok(()),
        20 => Err((20, node)),
        _ => Err((number, 0)),
    }
}

/// Compares checking and deciding on images of every shape, with the leaf that decides at nodes from 256 on.
fn images(tally: &mut Comparison, stores: &Stores, lists: &[List]) {
    tally.part("rules of more than 1,000 nodes");
    let mut turn = 0;
    for nodes in (1_001..2_048).step_by(37).chain([1_002, 1_023, 1_024, 1_025, 2_046, 2_047, 2_048]) {
        for shape in 0..SHAPES {
            turn += 1;
            let place = 256 + turn * 37 % (nodes - 257);
            for (text, number) in LEAVES {
                let (rule, node) = shaped(shape, nodes, place, leaf(text));
                let image = layout::encode(&rule).expect("an image");
                let holds = oracle::check(Some(&rule), stores) == due(number, node) && image[..2] == (nodes as u16).to_le_bytes();
                tally.fact("by construction", &[("image", &image)], holds, &format!("shape {shape}: {number} at {node}"));
                tally.check(&image, Some(&rule), stores);
                for list in lists {
                    tally.decide(&image, Some(&rule), stores, u64::MAX, list);
                }
                tally.decide(&image, Some(&rule), stores, 0, &lists[0]);
            }
        }
    }
}

/// Compares all calls on texts of up to 2,048 bytes that read as more than 1,000 nodes: any of pairs, and the leaf among them.
fn texts(tally: &mut Comparison, stores: &[Stores], lists: &[List]) {
    tally.part("texts of more than 1,000 nodes");
    for (leaf, number) in LEAVES {
        let pairs = (2_048 - leaf.len()) / 6;
        for before in (0..=pairs).step_by(11) {
            let text = format!("{}{leaf}{}", "n&&n||".repeat(before), "||n&&n".repeat(pairs - before));
            let read = oracle::read(text.as_bytes());
            let image = read.as_ref().ok().and_then(layout::encode).unwrap_or(vec![0; 2]);
            let many = u16::from_le_bytes([image[0], image[1]]);
            let holds = oracle::judge(&read, &stores[0]) == due(number, 3 * before) && many > 1_000;
            let note = format!("{number} at {}, {many} nodes", 3 * before);
            tally.fact("by construction", &[("text", text.as_bytes())], holds, &note);
            tally.text(text.as_bytes(), before as u64, stores, lists);
        }
    }
}

/// Compares all of the above.
pub fn all(tally: &mut Comparison) {
    let stores = [Stores::of(layout::table(&[(0, "n"), (2, "v"), (1, "r"), (2, "w")]))];
    let lists = [&[(0, "n")][..], &[], &[(0, "v"), (0, "w")]].map(|entries| List::of(layout::table(entries)));
    images(tally, &stores[0], &lists);
    texts(tally, &stores, &lists);
}
