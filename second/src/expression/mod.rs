//! A question typed as an expression: what one is, and how its marks are read, made an automaton and matched with words.

pub mod automaton;
pub mod read;
pub mod words;

use crate::collection::Counts;
use crate::numbers::{Concept, Role};

/// Marks from here on are tests on a name; below they are signed roles.
const FIRST_TEST: u8 = 0x40;
pub const OPEN: u8 = 0x80;
pub const CLOSE: u8 = 0x81;
pub const OR: u8 = 0x82;
pub const TIMES: u8 = 0x83;

/// What a role or test mark reads.
#[derive(Clone, Copy, Debug, PartialEq, Eq, PartialOrd, Ord, Hash)]
pub enum Letter {
    Role(Role),
    Test(Concept),
}

#[derive(Clone, Debug, PartialEq, Eq, PartialOrd, Ord)]
pub enum Expression {
    Mark(Letter),
    /// One after the other; of none it is the empty word.
    Row(Vec<Expression>),
    /// One of them; of none it has no word at all.
    Either(Vec<Expression>),
    AnyTimes(Box<Expression>),
}

impl Letter {
    /// What this mark reads; None for a bracket and whatever else is no role and no test.
    pub fn of(mark: u8) -> Option<Letter> {
        match mark {
            0..FIRST_TEST => Some(Letter::Role(Role(mark))),
            FIRST_TEST..OPEN => Some(Letter::Test(Concept(mark - FIRST_TEST))),
            _ => None,
        }
    }

    pub fn mark(self) -> u8 {
        match self {
            Letter::Role(role) => role.0,
            Letter::Test(name) => FIRST_TEST + name.0,
        }
    }

    pub fn is_declared(self, counts: &Counts) -> bool {
        match self {
            Letter::Role(role) => counts.signed_role(role.0.into()).is_some(),
            Letter::Test(name) => counts.name(name.0.into()).is_some(),
        }
    }
}

/// The marks in words, bracket by bracket as they are typed: `signs then (Deed? or signs backward) any number of times`.
pub fn in_words(marks: &[u8], role: impl Fn(Role) -> String, name: impl Fn(Concept) -> String) -> String {
    let mut text = String::new();
    let mut before = OPEN;
    for &mark in marks {
        let begins = mark <= OPEN;
        if begins && !matches!(before, OPEN | OR) {
            text += " then ";
        }
        text += &match (Letter::of(mark), mark) {
            (Some(Letter::Role(signed)), _) => role(signed),
            (Some(Letter::Test(tested)), _) => name(tested) + "?",
            (None, OPEN) => "(".to_string(),
            (None, CLOSE) => ")".to_string(),
            (None, OR) => " or ".to_string(),
            _ => " any number of times".to_string(),
        };
        before = mark;
    }
    text
}
