//! Where memory is lent, exhausted: parts of no bytes at every sort of address, buffers at every alignment right after their
//! input, one part lent as several inputs, and inputs that can't be written.

use crate::comparison::Comparison;
use crate::draw::{self, Draw};
use crate::layout;
use crate::lent::Place;
use crate::oracle::{self, List, Stores};
use crate::remote::policy::PruneExpr;
use crate::sequences::Tables;
use crate::tally::Tally;
use std::time::Duration;

/// Texts that read and texts that don't, with buffers of these lengths.
const TEXTS: [&str; 8] = [
    "nas",
    "nas && readable(1)",
    "''",
    "",
    "nas &",
    "at_least(2, all(nas, older_than(1d)), any(vault, readable))",
    "((",
    "\u{e9}",
];
const ROOMS: [usize; 4] = [26_628, 26_627, 26_629, 30_001];

/// A part whole, and without bytes at every sort of place.
fn ways(bytes: &[u8]) -> [(&[u8], Place); 5] {
    [(bytes, Place::Drawn), (&[], Place::End), (&[], Place::Start), (&[], Place::Dangling), (&[], Place::Null)]
}

/// Compares every call with each part whole, and without bytes at every sort of place.
fn empty(tally: &mut Comparison) {
    tally.part("parts of no bytes");
    let text = b"nas && readable(1)";
    let image = layout::encode(&oracle::read(text).unwrap()).unwrap();
    let table = layout::table(&[(0, "nas")]);
    for (text, first) in ways(text) {
        let rule = oracle::read(text);
        let due = rule.as_ref().map_err(|refusal| *refusal).map(|rule| layout::encode(rule).unwrap());
        for (room, second) in ways(&[0; 26_628]) {
            tally.lend_at([first, second, Place::Drawn]);
            tally.read(text, room.len(), &due);
        }
        for (stores, second) in ways(&table) {
            tally.lend_at([first, second, Place::Drawn]);
            tally.judge(text, &rule, &Stores::of(stores.to_vec()));
        }
    }
    for (image, first) in ways(&image) {
        let rule = layout::decode(image);
        let printed = rule.as_ref().map(PruneExpr::to_string);
        for (room, second) in ways(text) {
            tally.lend_at([first, second, Place::Drawn]);
            tally.print(image, room.len(), printed.as_deref());
        }
        for (stores, second) in ways(&table) {
            let stores = Stores::of(stores.to_vec());
            tally.lend_at([first, second, Place::Drawn]);
            tally.check(image, rule.as_ref(), &stores);
            for (list, third) in ways(&table) {
                tally.lend_at([first, second, third]);
                tally.decide(image, rule.as_ref(), &stores, 0, &List::of(list.to_vec()));
            }
        }
    }
}

/// Compares reading and printing into buffers at every alignment, each of which begins where the input ends.
fn aligned(tally: &mut Comparison) {
    tally.part("buffers right after their input");
    for text in TEXTS.map(str::as_bytes) {
        tally.given(text);
        let rule = oracle::read(text);
        let due = rule.as_ref().map_err(|refusal| *refusal).map(|rule| layout::encode(rule).unwrap());
        for remainder in 0..64 {
            tally.lend_at([Place::Drawn, Place::Aligned(remainder), Place::Drawn]);
            for room in ROOMS {
                tally.read(text, room, &due);
            }
            if let (Ok(image), Ok(rule)) = (&due, &rule) {
                let printed = rule.to_string();
                for room in [printed.len(), printed.len() + 1, printed.len() + 33, printed.len().saturating_sub(1)] {
                    tally.print(image, room, Some(&printed));
                }
            }
        }
    }
}

/// Rules that go by which of these names are confirmed.
fn rules_over(names: &[String]) -> Vec<PruneExpr> {
    let leaves: Vec<PruneExpr> = names.iter().cloned().map(PruneExpr::Remote).collect();
    let mut rules = vec![
        PruneExpr::Readable(names.len()),
        PruneExpr::Readable(names.len() + 1),
        PruneExpr::All(vec![PruneExpr::OlderThan(Duration::ZERO), PruneExpr::Remote("nobody".to_string())]),
    ];
    if !leaves.is_empty() {
        rules.extend([PruneExpr::All(leaves.clone()), PruneExpr::Any(leaves.clone())]);
        rules.push(PruneExpr::AtLeast(leaves.len() / 2 + 1, leaves));
    }
    rules
}

/// Compares calls with one part lent as several of their inputs: stores and list, and each pair of others.
fn shared(tally: &mut Comparison) {
    tally.part("one part as several inputs");
    let mut draw = Draw::new(1);
    for way in 0..120 {
        let bytes = draw::table(&mut draw, [3, 8, 64][way % 3], usize::from(way % 7 == 6), way % 8 == 7);
        let names: Vec<String> = layout::entries(&bytes, 2).unwrap().into_iter().map(|entry| entry.1).collect();
        let (stores, list) = (Stores::of(bytes.clone()), List::of(bytes.clone()));
        for rule in rules_over(&names) {
            let Some(image) = layout::encode(&rule) else { continue };
            tally.lend_at([Place::Drawn, Place::Drawn, Place::Same(1)]);
            tally.decide(&image, Some(&rule), &stores, 0, &list);
            tally.lend_at([Place::Drawn, Place::Same(0), Place::Same(0)]);
            let (stores, list) = (Stores::of(image.clone()), List::of(image.clone()));
            tally.decide(&image, Some(&rule), &stores, 0, &list);
            tally.check(&image, Some(&rule), &stores);
        }
        tally.lend_at([Place::Drawn, Place::Same(0), Place::Drawn]);
        tally.judge(&bytes, &oracle::read(&bytes), &stores);
        tally.check(&bytes, layout::decode(&bytes).as_ref(), &stores);
        tally.decide(&bytes, layout::decode(&bytes).as_ref(), &stores, 0, &list);
    }
}

/// Compares every call with inputs that can't be written.
fn read_only(tally: &mut Comparison, stores: &[Stores], lists: &[List]) {
    tally.part("inputs that are read-only");
    tally.lend_at([Place::ReadOnly; 3]);
    for turn in 0..40 {
        for text in TEXTS.map(str::as_bytes) {
            tally.text(text, turn, stores, lists);
        }
    }
}

/// Compares all of the above; then places are drawn again.
pub fn all(tally: &mut Comparison, given: &Tables) {
    empty(tally);
    aligned(tally);
    shared(tally);
    read_only(tally, given.stores, given.lists);
    tally.lend_at([Place::Drawn; 3]);
}
