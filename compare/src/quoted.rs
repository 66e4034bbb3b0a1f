//! The texts whose answers document 02's Job 2 changes, told by their tokens alone: "`'readable'` in any case of letters becomes a
//! name; a quoted word before `(` where an expression is due, .. is a name, and the bracket gives 9 at the top and 8 inside
//! brackets or arguments." A text with an earlier refusal keeps it, and is none of these.

use crate::clock;
use crate::oracle::{self, No, Span};

/// Why a text is one of those.
pub enum Listed {
    /// A quoted word comes before a bracket where an expression is expected: the refusal of the bracket.
    Bracket(No),
    /// The text is a rule in which these quoted words, each given by its place, spell `readable`.
    Names(Vec<usize>),
}

/// What a token is to the grammar.
#[derive(Clone, Copy, PartialEq, Eq)]
enum Sort {
    Open,
    Close,
    Comma,
    Sign,
    Quoted,
    Unquoted,
}

/// What a call's name expects before its first expression.
enum Call {
    /// A word, which is its argument, and the closing bracket.
    Test(fn(&str) -> bool),
    /// A count and a comma, then a list.
    Counted,
    /// A list.
    List,
}

/// A text's tokens, and how far the walk has come.
struct Walk<'a> {
    text: &'a str,
    tokens: &'a [Span],
    at: usize,
    /// For each bracket that is open, whether commas may come in it.
    open: Vec<bool>,
}

/// Whether a word is a count.
fn is_count(word: &str) -> bool {
    word.parse::<u64>().is_ok()
}

/// Whether a word is a duration.
fn is_duration(word: &str) -> bool {
    clock::parse_duration(word).is_ok()
}

/// The call of that name.
fn call_of(name: &str) -> Option<Call> {
    match name.to_ascii_lowercase().as_str() {
        "older_than" => Some(Call::Test(is_duration)),
        "readable" => Some(Call::Test(is_count)),
        "at_least" => Some(Call::Counted),
        "any" | "oneof" | "all" | "allof" => Some(Call::List),
        _ => None,
    }
}

impl Walk<'_> {
    /// The sort of a token, counted from where the walk is, if there is one.
    fn sort(&self, further: usize) -> Option<Sort> {
        let &(sort, start, end) = self.tokens.get(self.at + further)?;
        Some(match sort {
            b'(' => Sort::Open,
            b')' => Sort::Close,
            b',' => Sort::Comma,
            b'&' | b'|' => Sort::Sign,
            _ if matches!(self.text.as_bytes()[start], b'\'' | b'"') => Sort::Quoted,
            _ if ["and", "or"].iter().any(|sign| self.text[start..end].eq_ignore_ascii_case(sign)) => Sort::Sign,
            _ => Sort::Unquoted,
        })
    }

    /// The word of a token, without its marks, if it is a word.
    fn word(&self, further: usize) -> Option<&str> {
        let &(_, start, end) = self.tokens.get(self.at + further)?;
        match self.sort(further)? {
            Sort::Quoted => Some(&self.text[start + 1..end - 1]),
            Sort::Unquoted => Some(&self.text[start..end]),
            _ => None,
        }
    }

    /// The place of a token.
    fn place(&self, further: usize) -> usize {
        self.tokens[self.at + further].1
    }

    /// Opens a bracket; none where 64 are open.
    fn opens(&mut self, list: bool) -> Option<()> {
        (self.open.len() < 64).then(|| self.open.push(list))
    }

    /// Goes past a call's name and all that comes before its first expression; answers whether one is expected. None where it is
    /// refused.
    fn call(&mut self) -> Option<bool> {
        // A bracket opens, which is one too many where 64 are open.
        self.opens(true)?;
        match call_of(self.word(0)?)? {
            Call::Test(is_argument) => {
                let holds = is_argument(self.word(2)?) && self.sort(3) == Some(Sort::Close);
                self.open.pop();
                self.at += 4;
                holds.then_some(false)
            }
            Call::Counted => {
                let holds = is_count(self.word(2)?) && self.sort(3) == Some(Sort::Comma);
                self.at += 4;
                holds.then_some(true)
            }
            Call::List => {
                self.at += 2;
                Some(true)
            }
        }
    }

    /// Goes past what begins where an expression is expected; answers whether one is expected next. None where it is refused.
    fn begins(&mut self) -> Option<bool> {
        match self.sort(0)? {
            Sort::Open => {
                self.opens(false)?;
                self.at += 1;
                Some(true)
            }
            Sort::Unquoted if self.sort(1) == Some(Sort::Open) => self.call(),
            Sort::Unquoted | Sort::Quoted => {
                self.at += 1;
                Some(false)
            }
            _ => None,
        }
    }

    /// Goes past what follows an expression; answers whether one is expected next. None where it is refused.
    fn follows(&mut self) -> Option<bool> {
        let due = match self.sort(0)? {
            Sort::Sign => true,
            Sort::Comma if self.open.last() == Some(&true) => true,
            Sort::Close => {
                self.open.pop()?;
                false
            }
            _ => return None,
        };
        self.at += 1;
        Some(due)
    }
}

/// Why the text is one of those that Job 2 lists, if it is.
pub fn listed(text: &[u8]) -> Option<Listed> {
    if text.len() > 2048 || !text.is_ascii() {
        return None;
    }
    let tokens = oracle::spans(text).ok()?;
    let mut walk = Walk { text: std::str::from_utf8(text).ok()?, tokens: &tokens, at: 0, open: Vec::new() };
    let (mut due, mut names) = (true, Vec::new());
    while walk.at < tokens.len() {
        if due && walk.sort(0) == Some(Sort::Quoted) {
            if walk.sort(1) == Some(Sort::Open) {
                let number = if walk.open.is_empty() { 9 } else { 8 };
                return Some(Listed::Bracket((number, walk.place(1))));
            }
            if walk.word(0)?.eq_ignore_ascii_case("readable") {
                names.push(walk.place(0));
            }
        }
        due = if due { walk.begins()? } else { walk.follows()? };
    }
    (!due && walk.open.is_empty() && !names.is_empty()).then_some(Listed::Names(names))
}
