//! The rules, the stores and the confirmed names of the workloads, each as both sides take it.

use crate::layout;
use crate::prune::{self, IMAGE_BYTES};
use crate::remote::config::{ConfiguredRemote, RemoteMode};
use crate::remote::policy::PruneExpr;
use std::collections::HashSet;
use std::time::Duration;

/// The default rule, 30 bytes.
const DEFAULT: &str = "older_than(30d) && readable(1)";

/// Clauses of longer rules; joined once with ` || ` they are 274 bytes.
const CLAUSES: [&str; 6] = [
    "(older_than(30d) && readable(1))",
    "(older_than(7d) && nas && offsite)",
    "at_least(2, nas, offsite, glacier) && older_than(12h30m)",
    "all(nas, any(offsite, glacier), older_than(1d))",
    "(readable(2) && older_than(36h))",
    "oneof('nas', \"offsite\") && older_than(90d) && glacier",
];

/// A rule on both sides: its text where it has one, the Rust's value, the port's image.
pub struct Rule {
    pub text: String,
    pub value: PruneExpr,
    pub image: Vec<u8>,
}

impl Rule {
    /// The rule of a text; both sides must read it as the same rule.
    fn read(text: &str) -> Self {
        let rule = Self::of(PruneExpr::parse(text).expect("a rule"));
        let mut image = vec![0; IMAGE_BYTES];
        let size = prune::read(text.as_bytes(), &mut image).expect("a rule");
        assert!(image[..size] == rule.image, "read differs: {text}");
        Self { text: text.to_string(), ..rule }
    }

    /// The rule of a value, without a text.
    fn of(value: PruneExpr) -> Self {
        let image = layout::encode(&value).expect("an image");
        Self { text: String::new(), value, image }
    }

    /// The rule of a value that has 1,000 nodes.
    fn of_1000(value: PruneExpr) -> Self {
        let rule = Self::of(value);
        assert_eq!(u16::from_le_bytes([rule.image[0], rule.image[1]]), 1000, "other than 1,000 nodes");
        rule
    }
}

/// A text of that many bytes: clauses in turn while they fit, then blanks.
fn text_of(size: usize) -> String {
    let mut text = CLAUSES[0].to_string();
    for clause in CLAUSES.iter().cycle().skip(1) {
        if text.len() + 4 + clause.len() > size {
            break;
        }
        text = text + " || " + clause;
    }
    format!("{text:size$}")
}

/// A rule that names a store.
fn named(name: &str) -> PruneExpr {
    PruneExpr::Remote(name.to_string())
}

/// A rule of 1,000 nodes, all of which decide: nothing settles it before its last node, from either end.
fn all_decide() -> PruneExpr {
    let group = || {
        let either = vec![named("s3"), PruneExpr::OlderThan(Duration::from_secs(9_000 * 86_400))];
        let most = vec![named("nas"), named("usb"), named("s3"), PruneExpr::Readable(2)];
        PruneExpr::All(vec![PruneExpr::AtLeast(1, either), PruneExpr::AtLeast(2, most)])
    };
    PruneExpr::All((0..111).map(|_| group()).collect())
}

/// Any of 333 alls of two names, 1,000 nodes: the Rust leaves it after the first all where nas and usb are confirmed.
fn first_all() -> PruneExpr {
    let all = |at: usize| PruneExpr::All(vec![named(if at == 0 { "nas" } else { "s3" }), named("usb")]);
    PruneExpr::Any((0..333).map(all).collect())
}

/// Any of 999 names, 1,000 nodes: the Rust leaves it after the first name where nas is confirmed.
fn first_name() -> PruneExpr {
    PruneExpr::Any((0..999).map(|at| named(if at == 0 { "nas" } else { "s3" })).collect())
}

/// A table of stores on both sides.
pub struct Stores {
    pub known: Vec<ConfiguredRemote>,
    pub bytes: Vec<u8>,
}

impl Stores {
    /// The table of these modes (0 read-write, 1 read-only, 2 write-only) and names.
    fn of(entries: &[(u8, &str)]) -> Self {
        let modes = [RemoteMode::ReadWrite, RemoteMode::ReadOnly, RemoteMode::WriteOnly];
        let known = |&(mode, name): &(u8, &str)| ConfiguredRemote { name: name.to_string(), mode: modes[usize::from(mode)] };
        Self { known: entries.iter().map(known).collect(), bytes: layout::table(entries) }
    }

    /// That many stores whose names share a beginning, every fourth write-only.
    fn many(count: usize) -> Self {
        let names: Vec<String> = (1..=count).map(|index| format!("store-{index:02}")).collect();
        let entries: Vec<(u8, &str)> =
            names.iter().enumerate().map(|(index, name)| ([0, 1, 0, 2][index % 4], name.as_str())).collect();
        Self::of(&entries)
    }

    /// The names of the first stores.
    pub fn names(&self, count: usize) -> Vec<&str> {
        self.known.iter().take(count).map(|store| store.name.as_str()).collect()
    }
}

/// The confirmed names as the Rust takes them.
pub fn set_of<'a>(names: &[&'a str]) -> HashSet<&'a str> {
    names.iter().copied().collect()
}

/// The confirmed names as the port takes them: how many, their bytes together, a zero each, their lengths, the names.
pub fn list_of(names: &[&str]) -> Vec<u8> {
    let total: usize = names.iter().map(|name| name.len()).sum();
    let mut list = Vec::with_capacity(4 + 2 * names.len() + total);
    list.extend_from_slice(&(names.len() as u16).to_le_bytes());
    list.extend_from_slice(&(total as u16).to_le_bytes());
    list.resize(4 + names.len(), 0);
    list.extend(names.iter().map(|name| name.len() as u8));
    for name in names {
        list.extend_from_slice(name.as_bytes());
    }
    list
}

/// The rules and tables of all workloads.
pub struct Inputs {
    /// Rules of 30 (the default rule), 274 and 2,000 bytes.
    pub texts: [Rule; 3],
    pub two_names: Rule,
    pub twenty_names: Rule,
    pub all_decide: Rule,
    pub first_all: Rule,
    pub first_name: Rule,
    /// nas, offsite and glacier, as the texts name them.
    pub three: Stores,
    /// nas, usb and s3, as the rules of 1,000 nodes name them.
    pub short: Stores,
    pub twenty: Stores,
    pub most: Stores,
}

impl Inputs {
    /// Makes them.
    pub fn new() -> Self {
        let texts = [DEFAULT.to_string(), text_of(274), text_of(2000)].map(|text| Rule::read(&text));
        assert!(texts.iter().map(|rule| rule.text.len()).eq([30, 274, 2000]), "texts of other lengths");
        let twenty = Stores::many(20);
        Self {
            texts,
            two_names: Rule::read("nas && offsite"),
            twenty_names: Rule::read(&twenty.names(20).join(" && ")),
            all_decide: Rule::of_1000(all_decide()),
            first_all: Rule::of_1000(first_all()),
            first_name: Rule::of_1000(first_name()),
            three: Stores::of(&[(0, "nas"), (1, "offsite"), (2, "glacier")]),
            short: Stores::of(&[(0, "nas"), (1, "usb"), (2, "s3")]),
            twenty,
            most: Stores::many(64),
        }
    }
}
