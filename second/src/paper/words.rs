//! How names, roles, elements and marks are written on the page and in the pictures.

use crate::ask::Ask;
use crate::element::Element;
use crate::explain::chain::{Link, Rule};
use crate::expression::in_words;
use crate::numbers::{Concept, Individual, Role, State};
use crate::salvage::Fact;
use crate::sheet::Mark;

/// The words for names and roles, from number 0 on; a number without a word is written as `explain` writes it.
#[derive(Default)]
pub struct Words {
    names: Vec<String>,
    roles: Vec<String>,
}

impl Words {
    /// `Owner,Deed/signs,holds`: names, then roles.
    pub fn read(text: &str) -> Words {
        let list = |part: &str| part.split(',').filter(|word| !word.is_empty()).map(String::from).collect();
        let (names, roles) = text.split_once('/').unwrap_or((text, ""));
        Words { names: list(names), roles: list(roles) }
    }

    /// `signs`, `signs backward`.
    pub fn role(&self, role: Role) -> String {
        let name = usize::from(role.0 / 2);
        let word = self.roles.get(name).cloned().unwrap_or_else(|| format!("r{name}"));
        if role.0 % 2 == 1 {
            word + " backward"
        } else {
            word
        }
    }

    /// `signs`, `(signs backward)`.
    pub fn bracketed(&self, role: Role) -> String {
        let word = self.role(role);
        if word.contains(' ') {
            format!("({word})")
        } else {
            word
        }
    }

    /// `Owner`, `∃signs`, `∃(signs backward)`.
    pub fn concept(&self, concept: Concept) -> String {
        match concept.as_neighbour() {
            Some(role) => format!("∃{}", self.bracketed(role)),
            None => self.names.get(concept.at()).cloned().unwrap_or_else(|| concept.to_string()),
        }
    }

    /// `Owner(0)`, `signs(0, 1)`.
    pub fn fact(&self, fact: &Fact) -> String {
        match fact {
            Fact::Concept(fact) => format!("{}({})", self.concept(fact.name), fact.who.0),
            Fact::Role(fact) => format!("{}{}", self.role(fact.role), pair(fact.first, fact.second)),
        }
    }

    pub fn concepts(&self, concepts: &[Concept]) -> String {
        let words: Vec<String> = concepts.iter().map(|concept| self.concept(*concept)).collect();
        listed(&words)
    }

    pub fn roles(&self, roles: &[Role]) -> String {
        let words: Vec<String> = roles.iter().map(|role| self.role(*role)).collect();
        listed(&words)
    }

    /// `signs then Deed? then (signs backward or holds) any number of times`.
    pub fn expression(&self, marks: &[u8]) -> String {
        in_words(marks, |role| self.role(role), |name| self.concept(name))
    }

    /// `0`, `0·signs·(signs backward)`.
    pub fn element(&self, element: &Element) -> String {
        let row = element.row.iter().map(|role| format!("·{}", self.bracketed(*role)));
        element.who.0.to_string() + &row.collect::<String>()
    }

    /// `(1, 2, Deed)`.
    pub fn mark(&self, mark: Mark) -> String {
        format!("({}, {}, {})", mark.from.0, mark.to.0, self.concept(mark.concept))
    }

    /// `Owner ≤ ∃signs (line 2)`: the chain of rules; only its beginning where no rule is needed.
    pub fn chain<T: Copy>(&self, from: T, links: &[Link<T>], word: impl Fn(&Words, T) -> String) -> String {
        let mut text = word(self, from);
        for link in links {
            text += &format!(" ≤ {} ({})", word(self, link.to), line_of(link));
        }
        text
    }
}

fn line_of<T>(link: &Link<T>) -> String {
    let how = if link.rule == Rule::RoleBackward { ", read backward" } else { "" };
    format!("line {}{how}", link.line)
}

/// `a, b`; `none` for an empty list.
pub fn listed(words: &[String]) -> String {
    if words.is_empty() {
        "none".to_string()
    } else {
        words.join(", ")
    }
}

pub fn states(states: impl Iterator<Item = State>) -> String {
    let numbers: Vec<String> = states.map(|state| state.0.to_string()).collect();
    listed(&numbers)
}

/// `(0, 1)`, a pair of individuals.
pub fn pair(first: Individual, second: Individual) -> String {
    format!("({}, {})", first.0, second.0)
}

/// `(0, 1)`, `0 to any element`.
pub fn ask(ask: Ask) -> String {
    match ask {
        Ask::Pair(first, second) => pair(first, second),
        Ask::From(first) => format!("{} to any element", first.0),
    }
}

/// `1 round`, `2 rounds`; so for marks.
pub fn counted(count: usize, what: &str) -> String {
    format!("{count} {what}{}", if count == 1 { "" } else { "s" })
}

#[cfg(test)]
mod tests {
    use super::*;

    #[test]
    fn words_and_numbers_where_there_is_no_word() {
        let words = Words::read("Owner,Deed/signs");
        assert_eq!(words.concept(Concept(1)), "Deed");
        assert_eq!(words.concept(Concept(2)), "A2");
        assert_eq!(words.concept(Role(1).neighbour()), "∃(signs backward)");
        assert_eq!(words.role(Role(3)), "r1 backward");
        let element = Element { who: Individual(0), row: vec![Role(0), Role(1)] };
        assert_eq!(words.element(&element), "0·signs·(signs backward)");
    }
}
