//! How numbers, elements, marks and rules are written in the explanation.

use crate::element::Element;
use crate::explain::chain::{Link, Rule};
use crate::explain::noted::Noted;
use crate::explain::people::{Has, Source};
use crate::explain::rounds::Carried;
use crate::numbers::{Concept, Deed, Individual, Role, State};
use crate::sheet::Mark;
use std::fmt::{Display, Formatter, Result};

impl Display for Role {
    fn fmt(&self, f: &mut Formatter) -> Result {
        write!(f, "r{}{}", self.0 / 2, if self.0 % 2 == 1 { "⁻" } else { "" })
    }
}

impl Display for Concept {
    fn fmt(&self, f: &mut Formatter) -> Result {
        match self.as_neighbour() {
            Some(role) => write!(f, "∃{role}"),
            None => write!(f, "A{}", self.0),
        }
    }
}

impl Display for Individual {
    fn fmt(&self, f: &mut Formatter) -> Result {
        write!(f, "i{}", self.0)
    }
}

impl Display for State {
    fn fmt(&self, f: &mut Formatter) -> Result {
        write!(f, "q{}", self.0)
    }
}

impl Display for Element {
    fn fmt(&self, f: &mut Formatter) -> Result {
        write!(f, "{}", self.who)?;
        self.row.iter().try_for_each(|role| write!(f, "·{role}"))
    }
}

impl Display for Mark {
    fn fmt(&self, f: &mut Formatter) -> Result {
        write!(f, "({}, {}, {})", self.from, self.to, self.concept)
    }
}

impl Display for Carried {
    fn fmt(&self, f: &mut Formatter) -> Result {
        write!(f, "{} –{}→ {} (line {})", self.from, self.role, self.to, self.line)
    }
}

/// `deed 4,711, line 12`, `deed none noted, line 12`: where a typed fact can be looked up.
impl Display for Noted {
    fn fmt(&self, f: &mut Formatter) -> Result {
        write!(f, "deed {}, line {}", self.deed, self.line)
    }
}

impl Display for Deed {
    fn fmt(&self, f: &mut Formatter) -> Result {
        match (self.0 / 1_000, self.0 % 1_000) {
            (0, 0) => write!(f, "none noted"),
            (0, below) => write!(f, "{below}"),
            (thousands, below) => write!(f, "{thousands},{below:03}"),
        }
    }
}

/// `A0 ≤ ∃r0 (line 2) ≤ A1 (line 3)`; the bare beginning where the chain is empty.
pub fn chain<T: Display>(from: T, links: &[Link<T>]) -> String {
    let mut text = from.to_string();
    for link in links {
        let how = if link.rule == Rule::RoleBackward { ", read backward" } else { "" };
        text += &format!(" ≤ {} (line {}{how})", link.to, link.line);
    }
    text
}

/// `lower ≤ upper` with its rules; the two ends are named first only where the chain has more than one rule.
pub fn below<T: Display + Copy>(lower: T, upper: T, links: &[Link<T>]) -> String {
    let rules = chain(lower, links);
    if links.len() > 1 {
        format!("{lower} ≤ {upper}: {rules}")
    } else {
        rules
    }
}

/// What is so from the beginning, then the rules from there, if any are needed.
pub fn then_rules<T: Display>(beginning: String, from: T, links: &[Link<T>]) -> String {
    if links.is_empty() {
        beginning
    } else {
        format!("{beginning}; {}", chain(from, links))
    }
}

pub fn rounds(count: usize) -> String {
    format!("{count} round{}", if count == 1 { "" } else { "s" })
}

/// Why an individual has a concept: the fact, then the rules.
pub fn has(has: &Has) -> String {
    let line = has.noted.line;
    let fact = match has.source {
        Source::Name => format!("typed on line {line}"),
        Source::Neighbour { role, other } => format!("line {line} joins it by {role} to {other}"),
    };
    then_rules(fact, has.from, &has.chain)
}
