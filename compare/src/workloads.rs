//! The five calls on both sides, alike. What a call needs besides its inputs, the set or the list of confirmed names or a buffer
//! for the answer, is there before the clock starts (`ready`), or each side makes it and frees it inside the clock (`made`).
//!
//! Rules, images and tables are there on both sides, and every input and every answer goes through `black_box`.

use crate::inputs::{list_of, set_of, Rule, Stores};
use crate::layout;
use crate::prune::{self, IMAGE_BYTES, TEXT_BYTES};
use crate::remote::policy::{PruneContext, PruneExpr};
use crate::timing::{repeated, Budget, Side, Workload};
use std::collections::HashSet;
use std::fmt::Write;
use std::hint::black_box;
use std::time::Duration;

/// The budgets of the calls.
const READ: Budget = Budget { owed: 0.40, goal: 0.30 };
const PRINT: Budget = Budget { owed: 0.35, goal: 0.25 };
const CHECK: Budget = Budget { owed: 0.35, goal: 0.20 };
const JUDGE: Budget = Budget { owed: 0.40, goal: 0.30 };
pub const DECIDE: Budget = Budget { owed: 0.60, goal: 0.50 };
pub const DECIDE_LARGE: Budget = Budget { owed: 0.60, goal: 0.30 };

/// The two workloads of a call, each the Rust's side and the port's.
fn both<'a>(name: &str, budget: Option<Budget>, ready: [Side<'a>; 2], made: [Side<'a>; 2]) -> [Workload<'a>; 2] {
    let row = |how, [rust, port]: [Side<'a>; 2]| Workload { name: format!("{name}: {how}"), budget, rust, port };
    [row("ready", ready), row("made", made)]
}

/// Reading. The Rust always allocates its value, so in `ready`, where the port fills a buffer that is there, it has more to do;
/// in `made` the port copies its image into memory of its own.
pub fn reading(rule: &Rule) -> [Workload<'_>; 2] {
    let text = rule.text.as_str();
    let (mut filled, mut copied) = (vec![0; IMAGE_BYTES], vec![0; IMAGE_BYTES]);
    let rust = move || PruneExpr::parse(black_box(text));
    let port = move |image: &mut [u8]| prune::read(black_box(text.as_bytes()), image);
    let kept = move || port(black_box(&mut copied)).map(|size| copied[..size].to_vec());
    both(
        &format!("read, {} bytes", text.len()),
        Some(READ),
        [repeated(rust), repeated(move || port(black_box(&mut filled)))],
        [repeated(rust), repeated(kept)],
    )
}

/// Printing; both must print the same. In `ready` both write into a buffer that is there, in `made` into memory of its own.
pub fn printing(rule: &Rule) -> [Workload<'_>; 2] {
    let (mut filled, mut copied) = (vec![0; TEXT_BYTES], vec![0; TEXT_BYTES]);
    let mut text = String::with_capacity(TEXT_BYTES);
    let rust = move || black_box(&rule.value);
    let port = move |text: &mut [u8]| prune::print(black_box(&rule.image), text);
    let size = port(&mut filled).expect("a text");
    assert!(filled[..size] == *rust().to_string().as_bytes(), "print differs: {}", rule.text);
    let written = move || {
        let text = black_box(&mut text);
        text.clear();
        write!(text, "{}", rust())
    };
    let kept = move || port(black_box(&mut copied)).map(|size| copied[..size].to_vec());
    both(
        &format!("print, rule of {} bytes", rule.text.len()),
        Some(PRINT),
        [repeated(written), repeated(move || port(black_box(&mut filled)))],
        [repeated(move || rust().to_string()), repeated(kept)],
    )
}

/// Checking; both must pass the rule. What either side needs for it, it makes itself.
pub fn checking<'a>(name: &str, rule: &'a Rule, stores: &'a Stores) -> Workload<'a> {
    let rust = move || black_box(&rule.value).validate_safety(black_box(&stores.known));
    let port = move || prune::check(black_box(&rule.image), black_box(&stores.bytes));
    assert_eq!(rust(), Ok(()), "{name}");
    assert_eq!(port(), Ok(()), "{name}");
    Workload {
        name: format!("check, {} stores, {name}", stores.known.len()),
        budget: Some(CHECK),
        rust: repeated(rust),
        port: repeated(port),
    }
}

/// Judging: reading, then checking; both must pass the text. Neither side hands out the rule.
pub fn judging<'a>(rule: &'a Rule, stores: &'a Stores) -> Workload<'a> {
    let text = rule.text.as_str();
    let rust = move || PruneExpr::parse(black_box(text)).and_then(|rule| rule.validate_safety(black_box(&stores.known)));
    let port = move || prune::judge(black_box(text.as_bytes()), black_box(&stores.bytes));
    assert_eq!(rust(), Ok(()), "{text}");
    assert_eq!(port(), Ok(()), "{text}");
    Workload {
        name: format!("judge, {} stores, {} bytes", stores.known.len(), text.len()),
        budget: Some(JUDGE),
        rust: repeated(rust),
        port: repeated(port),
    }
}

/// What is to be decided, and the answer that both must give: true for evict.
pub struct Question<'a> {
    pub rule: &'a Rule,
    pub stores: &'a Stores,
    /// How many stores, the first ones, are confirmed.
    pub confirmed: usize,
    /// In milliseconds.
    pub age: u64,
    pub evict: bool,
}

/// Deciding. In `ready` the Rust's set and the port's list are there, in `made` each is made from the same names and freed.
pub fn deciding<'a>(name: &str, budget: Option<Budget>, question: Question<'a>) -> [Workload<'a>; 2] {
    let Question { rule, stores, confirmed, age, evict } = question;
    let names = stores.names(confirmed);
    let (set, list) = (set_of(&names), list_of(&names));
    assert!(list == layout::table(&names.iter().map(|&name| (0, name)).collect::<Vec<_>>()), "another list: {name}");
    let span = Duration::from_millis(age);
    let rust = move |set: &HashSet<&str>| {
        black_box(&rule.value).evaluate(&PruneContext::new(black_box(span), set, black_box(&stores.known)))
    };
    let port = move |list: &[u8]| prune::decide(black_box(&rule.image), black_box(&stores.bytes), black_box(age), list);
    assert_eq!(rust(&set), evict, "{name}");
    assert_eq!(port(&list), Ok(evict), "{name}");
    let same = names.clone();
    both(
        &format!("decide, {} stores, {confirmed} confirmed, {name}", stores.known.len()),
        budget,
        [repeated(move || rust(black_box(&set))), repeated(move || port(black_box(&list)))],
        [
            repeated(move || rust(black_box(&set_of(black_box(&names))))),
            repeated(move || port(black_box(&list_of(black_box(&same))))),
        ],
    )
}
