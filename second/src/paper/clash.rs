//! The clash of a contradiction, side by side with the rules that bring each side there.

use super::orders::why;
use super::words::Words;
use crate::explain::clash::{Clash, ConceptSide, RoleSide, What};
use crate::numbers::Concept;

/// The element or pair of the clash, its two excluded sides in words, and the line of the exclusion.
pub struct Sides {
    pub place: String,
    pub sides: [String; 2],
    pub line: usize,
}

pub fn sides(clash: &Clash, words: &Words) -> Sides {
    let (place, sides) = match &clash.what {
        What::OnElement { element, sides } => {
            let place = format!("the element {}", words.element(element));
            (place, [&sides[0], &sides[1]].map(|side| words.concept(concept_of(side))))
        }
        What::OnPair { first, second, sides } => {
            let place = format!("the pair ({}, {})", words.element(first), words.element(second));
            (place, [&sides[0], &sides[1]].map(|side| words.role(side.to)))
        }
    };
    Sides { place, sides, line: clash.line }
}

pub fn concept_of(side: &ConceptSide) -> Concept {
    match side {
        ConceptSide::Named(has) => has.concept,
        ConceptSide::Unnamed { to, .. } => *to,
    }
}

/// With the typed fact that each side rests on, where that is wanted.
pub fn clash(clash: &Clash, words: &Words, facts: bool) -> String {
    let Sides { place, sides: [left, right], line } = sides(clash, words);
    let mut text = format!("The clash: {place} has {left} and {right}, which line {line} excludes.\n\n");
    text += &row(clash, words);
    let sides = match &clash.what {
        What::OnElement { sides, .. } => [&sides[0], &sides[1]].map(|side| concept_side(side, words)),
        What::OnPair { first, second, sides } => {
            [&sides[0], &sides[1]].map(|side| role_side(side, first == second, words))
        }
    };
    for (side, fact) in sides.into_iter().zip(clash.rests_on()) {
        let rests = if facts { format!("; rests on {fact}") } else { String::new() };
        text += &format!("- {side}{rests}\n");
    }
    text
}

/// Why the unnamed element belongs.
fn row(clash: &Clash, words: &Words) -> String {
    let Some((has, further)) = &clash.row else { return String::new() };
    let longest = super::tree::elements(clash).into_iter().max_by_key(|element| element.row.len());
    let Some(element) = longest else { return String::new() };
    let mut text =
        format!("- {} has {}: {}\n", element.who.0, words.concept(has.concept), self::why(has, words));
    for (pair, links) in element.row.windows(2).zip(further) {
        let chain = words.chain(pair[0].inverse().neighbour(), links, Words::concept);
        text += &format!("- after {} comes {}: {chain}\n", words.role(pair[0]), words.role(pair[1]));
    }
    text
}

fn concept_side(side: &ConceptSide, words: &Words) -> String {
    let concept = words.concept(concept_of(side));
    match side {
        ConceptSide::Named(has) => format!("{concept}: {}", why(has, words)),
        ConceptSide::Unnamed { from, chain, .. } if chain.is_empty() => {
            format!("{concept}: the last signed role of its row gives it {}", words.concept(*from))
        }
        ConceptSide::Unnamed { from, chain, .. } => {
            let rules = words.chain(*from, chain, Words::concept);
            format!("{concept}: the last signed role of its row gives it {}; {rules}", words.concept(*from))
        }
    }
}

fn role_side(side: &RoleSide, alone: bool, words: &Words) -> String {
    let line = side.fact.map(|noted| noted.line);
    let made = match line {
        Some(line) if alone => format!("line {line} joins it to itself by {}", words.role(side.from)),
        Some(line) => format!("line {line} joins them by {}", words.role(side.from)),
        None => format!("they are joined by {}", words.role(side.from)),
    };
    if side.chain.is_empty() {
        return format!("{}: {made}", words.role(side.to));
    }
    let rules = words.chain(side.from, &side.chain, Words::role);
    format!("{}: {made}; {rules}", words.role(side.to))
}
