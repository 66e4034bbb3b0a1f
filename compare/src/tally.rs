//! What the modules that make inputs hand them to: `comparison.rs` makes each call and compares, `list.rs` writes each down.

use crate::layout;
use crate::oracle::{self, List, No, Stores};
use crate::remote::policy::PruneExpr;

/// Takes the inputs of calls, with the expected answers or what they follow from.
pub trait Tally {
    /// What follows belongs to the part of that name.
    fn part(&mut self, name: &'static str);

    /// Something that must hold; `what` and `note` say what it is, the inputs what it is about.
    fn fact(&mut self, what: &str, inputs: &[(&str, &[u8])], holds: bool, note: &str);

    /// A text that is to be read and judged.
    fn given(&mut self, text: &[u8]);

    /// A text to be read into a buffer of that length; `due` is the expected image or refusal.
    fn read(&mut self, text: &[u8], room: usize, due: &Result<Vec<u8>, No>);

    /// An image to be printed into a buffer of that length; `due` is the expected text, none where the bytes are no image.
    fn print(&mut self, image: &[u8], room: usize, due: Option<&str>);

    /// An image to be decided on, and the rule whose image it is, if any. Answers the decision.
    fn decide(&mut self, image: &[u8], rule: Option<&PruneExpr>, stores: &Stores, age: u64, list: &List) -> Option<bool>;

    /// An image to be checked, and the rule whose image it is, if any.
    fn check(&mut self, image: &[u8], rule: Option<&PruneExpr>, stores: &Stores);

    /// A text to be judged, and what it reads as. Answers the verdict: 0 for a pass, else the number.
    fn judge(&mut self, text: &[u8], rule: &Result<PruneExpr, No>, stores: &Stores) -> u8;

    /// Everything that a text leads to: reading, judging and, where it reads, checking, printing and a decision.
    /// `turn` chooses buffers and tables.
    fn text(&mut self, text: &[u8], turn: u64, tables: &[Stores], lists: &[List]) {
        self.given(text);
        let rule = oracle::read(text);
        let due = rule.as_ref().map_err(|refusal| *refusal).and_then(|rule| layout::encode(rule).ok_or((0, 0)));
        let rooms = [26_628, 26_628, 26_629, 26_628, 30_000, 26_628, 65_536, 26_660];
        self.read(text, rooms[turn as usize % 8], &due);
        if turn % 16 == 5 {
            let short = [26_627, 0, 26_627, text.len(), 26_600, 16];
            self.read(text, short[turn as usize / 16 % 6], &due);
        }
        let stores = &tables[turn as usize % tables.len()];
        self.judge(text, &rule, stores);
        if let (Ok(rule), Ok(image)) = (&rule, &due) {
            self.check(image, Some(rule), stores);
            self.printing(image, Some(rule), turn);
            let list = &lists[turn as usize / 3 % lists.len()];
            let ages = ages(rule);
            self.decide(image, Some(rule), stores, ages[turn as usize % ages.len()], list);
        }
    }

    /// An image to be printed into buffers of about the text's length.
    fn printing(&mut self, image: &[u8], rule: Option<&PruneExpr>, turn: u64) {
        let text = rule.map(PruneExpr::to_string);
        let size = text.as_ref().map_or(7, String::len);
        self.print(image, size, text.as_deref());
        match turn % 4 {
            0 if size > 0 => self.print(image, size - 1, text.as_deref()),
            1 => self.print(image, size + 1 + turn as usize / 4 % 60, text.as_deref()),
            2 => self.print(image, 0, text.as_deref()),
            _ => {}
        }
    }
}

/// The ages that matter to a rule: none, the largest, and those at and around each of its durations.
pub fn ages(rule: &PruneExpr) -> Vec<u64> {
    let mut found = vec![0, u64::MAX];
    durations(rule, &mut found);
    found.sort_unstable();
    found.dedup();
    found
}

/// Appends the ages at and around each duration of a rule.
fn durations(rule: &PruneExpr, found: &mut Vec<u64>) {
    match rule {
        PruneExpr::OlderThan(span) => {
            let span = span.as_millis() as u64;
            found.extend([span.saturating_sub(1), span, span.saturating_add(1)]);
        }
        PruneExpr::AtLeast(_, children) | PruneExpr::All(children) | PruneExpr::Any(children) => {
            children.iter().for_each(|child| durations(child, found));
        }
        _ => {}
    }
}
