//! Drawn inputs, a round at a time until the time is up.

use crate::draw::{self, Draw};
use crate::layout;
use crate::oracle::{self, List, Stores};
use crate::remote::policy::PruneExpr;
use crate::tally::{self, Tally};

/// Tables and lists of a round, some of them badly made.
struct Given {
    stores: Vec<Stores>,
    lists: Vec<List>,
}

/// Draws tables and lists of up to that many entries.
fn given(draw: &mut Draw, most: usize) -> Given {
    let stores = (0..12).map(|at| {
        let mut bytes = draw::table(draw, most, 2, at == 3);
        if at % 6 == 1 {
            draw::edit_bytes(draw, &mut bytes);
        }
        Stores::of(bytes)
    });
    let stores = stores.collect();
    let lists = (0..12).map(|at| {
        let mut bytes = draw::table(draw, most, usize::from(at == 5), at % 2 == 0);
        if at % 6 == 1 {
            draw::edit_bytes(draw, &mut bytes);
        }
        List::of(bytes)
    });
    Given { lists: lists.collect(), stores }
}

/// Spelled and printed rules, then the same damaged by one to three edits.
fn texts(tally: &mut dyn Tally, draw: &mut Draw, given: &Given) {
    for _ in 0..300 {
        let depth = 1 + draw.below(4);
        let odd = draw.once_in(4);
        let rule = draw::rule(draw, depth, odd);
        let mut text = rule.to_string();
        if draw.once_in(2) {
            text.clear();
            draw::spell(draw, &rule, &mut text);
        }
        tally.part("drawn rules");
        tally.text(text.as_bytes(), draw.number(), &given.stores, &given.lists);
        tally.part("drawn rules, damaged");
        for edits in 1..=3 {
            let mut damaged = text.as_bytes().to_vec();
            for _ in 0..edits {
                draw::edit_text(draw, &mut damaged);
            }
            tally.text(&damaged, draw.number(), &given.stores, &given.lists);
        }
    }
}

/// A drawn rule nested to about the deepest that a text may be.
fn deep(draw: &mut Draw, text: &str) -> String {
    let deep = 60 + draw.below(7);
    let open = draw.of(&["(", "any(", "all(a,", "at_least(1,", "(b||", "(c &&"]);
    format!("{}{text}{}", open.repeat(deep), ")".repeat(deep))
}

/// A drawn rule made as long as a text may be, or a little shorter or longer.
fn long(draw: &mut Draw, mut text: String) -> String {
    let unit = draw.of(&[" ", "||a", " and b", "&&(a)", "\t", " or any(c)", "||'x y'"]);
    let length = 2046 + draw.below(4);
    while text.len() + unit.len() <= length {
        text.push_str(unit);
    }
    while text.len() < length {
        text.push(' ');
    }
    text
}

/// Many drawn rules in one text.
fn wide(draw: &mut Draw, mut text: String) -> String {
    let length = 200 + draw.below(1800);
    while text.len() < length {
        let rule = draw::rule(draw, 2, false);
        text.push_str(draw.of(&["||", "&&", " or ", " and ", "||("]));
        draw::spell(draw, &rule, &mut text);
    }
    let open = text.matches("||(").count();
    text + &")".repeat(open)
}

/// Texts near the longest and the deepest, then edited once.
fn bounds(tally: &mut dyn Tally, draw: &mut Draw, given: &Given) {
    tally.part("drawn at the boundaries");
    for way in 0..12 {
        let rule = draw::rule(draw, 3, false);
        let mut text = String::new();
        draw::spell(draw, &rule, &mut text);
        text = match way % 3 {
            0 => deep(draw, &text),
            1 => long(draw, text),
            _ => wide(draw, text),
        };
        let mut bytes = text.into_bytes();
        tally.text(&bytes, draw.number(), &given.stores, &given.lists);
        draw::edit_text(draw, &mut bytes);
        tally.text(&bytes, draw.number(), &given.stores, &given.lists);
    }
}

/// Images of drawn rules, then the same damaged: 16 exactly where they are no rule's image.
fn images(tally: &mut dyn Tally, draw: &mut Draw, given: &Given) {
    for way in 0..120 {
        let depth = draw.below(5);
        let mut rule = draw::rule(draw, depth, true);
        if way % 40 == 0 {
            let many = 20 + draw.below(200);
            rule = PruneExpr::All((0..many).map(|_| draw::rule(draw, 2, true)).collect());
        }
        let Some(image) = layout::encode(&rule) else { continue };
        tally.part("images");
        on_image(tally, draw, &image, Some(&rule), given);
        tally.part("images, damaged");
        for _ in 0..6 {
            let mut damaged = image.clone();
            for _ in 0..draw.of(&[1, 1, 1, 2, 3]) {
                if draw.once_in(3) || damaged.len() < 16 {
                    draw::edit_bytes(draw, &mut damaged);
                } else {
                    draw::edit_image(draw, &mut damaged);
                }
            }
            let rule = layout::decode(&damaged);
            on_image(tally, draw, &damaged, rule.as_ref(), given);
        }
    }
}

/// Prints, checks and decides on an image.
fn on_image(tally: &mut dyn Tally, draw: &mut Draw, image: &[u8], rule: Option<&PruneExpr>, given: &Given) {
    tally.printing(image, rule, draw.number());
    let (at, list) = (draw.below(given.stores.len()), draw.below(given.lists.len()));
    tally.check(image, rule, &given.stores[at]);
    let ages = rule.map_or(vec![u64::MAX], tally::ages);
    for _ in 0..2 {
        tally.decide(image, rule, &given.stores[at], draw.of(&ages), &given.lists[list]);
    }
}

/// Tables and lists of up to 64 entries, whole and damaged, with rules that name what they hold.
fn tables(tally: &mut dyn Tally, draw: &mut Draw) {
    for way in 0..40 {
        let most = if way % 4 == 0 { 64 } else { 6 };
        let whole = (draw::table(draw, most, 2, way % 10 == 3), draw::table(draw, most, 0, way % 2 == 0));
        tally.part("tables and lists");
        for round in 0..5 {
            let (mut stores, mut list) = whole.clone();
            if round > 0 {
                tally.part("tables and lists, damaged");
                draw::edit_bytes(draw, if round % 2 == 0 { &mut stores } else { &mut list });
            }
            let (stores, list) = (Stores::of(stores), List::of(list));
            for _ in 0..3 {
                let rule = over(draw, &stores, &list);
                let Some(image) = layout::encode(&rule) else { continue };
                tally.check(&image, Some(&rule), &stores);
                let text = rule.to_string();
                tally.given(text.as_bytes());
                tally.judge(text.as_bytes(), &oracle::read(text.as_bytes()), &stores);
                for age in tally::ages(&rule) {
                    tally.decide(&image, Some(&rule), &stores, age, &list);
                }
            }
        }
    }
}

/// A drawn rule most of whose names are in the table or on the list.
fn over(draw: &mut Draw, stores: &Stores, list: &List) -> PruneExpr {
    let mut names: Vec<&str> = Vec::new();
    if let Ok(known) = &stores.known {
        names.extend(known.iter().map(|store| store.name.as_str()));
    }
    if let (Some(listed), true) = (&list.names, draw.once_in(2)) {
        names.extend(listed.iter().map(String::as_str));
    }
    let depth = draw.below(4);
    let mut rule = draw::rule(draw, depth, true);
    rename(draw, &mut rule, &names);
    rule
}

/// Puts some of the names in place of nearly all of a rule's names, and counts up to their number in place of others.
fn rename(draw: &mut Draw, rule: &mut PruneExpr, names: &[&str]) {
    match rule {
        PruneExpr::Remote(name) if !names.is_empty() && !draw.once_in(12) => *name = draw.of(names).to_string(),
        PruneExpr::Readable(k) if !draw.once_in(8) => *k = draw.below(names.len() + 2),
        PruneExpr::AtLeast(_, children) | PruneExpr::All(children) | PruneExpr::Any(children) => {
            children.iter_mut().for_each(|child| rename(draw, child, names));
        }
        _ => {}
    }
}

/// One round of each.
pub fn round(tally: &mut dyn Tally, draw: &mut Draw) {
    let most = draw.of(&[3, 6, 12, 64]);
    let given = given(draw, most);
    texts(tally, draw, &given);
    bounds(tally, draw, &given);
    images(tally, draw, &given);
    tables(tally, draw);
}
