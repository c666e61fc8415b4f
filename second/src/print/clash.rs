//! The clash of a contradiction as text.

use super::names;
use crate::explain::clash::{Clash, ConceptSide, RoleSide, What};
use crate::numbers::Concept;

pub fn clash(clash: &Clash) -> String {
    String::from("\nCONTRADICTION (no round is worked)\n") + &body(clash)
}

/// What is excluded and broken, and why both sides are there.
pub fn body(clash: &Clash) -> String {
    let mut text = String::new();
    match &clash.what {
        What::OnElement { element, sides } => {
            let [left, right] = [&sides[0], &sides[1]].map(concept_of);
            text += &format!("  {element} has {left} and {right}, which line {} excludes.\n", clash.line);
            text += &row(clash);
            for (side, fact) in sides.iter().zip(clash.rests_on()) {
                text += &format!("  {}; rests on {fact}\n", concept_side(&element.to_string(), side));
            }
        }
        What::OnPair { first, second, sides } => {
            let [left, right] = [sides[0].to, sides[1].to];
            text += &format!(
                "  the pair ({first}, {second}) has {left} and {right}, which line {} excludes.\n",
                clash.line
            );
            text += &row(clash);
            for (side, fact) in sides.iter().zip(clash.rests_on()) {
                text += &format!("  {}; rests on {fact}\n", role_side(side, first == second));
            }
        }
    }
    text
}

fn concept_of(side: &ConceptSide) -> Concept {
    match side {
        ConceptSide::Named(has) => has.concept,
        ConceptSide::Unnamed { to, .. } => *to,
    }
}

fn concept_side(element: &str, side: &ConceptSide) -> String {
    match side {
        ConceptSide::Named(has) => format!("{element} has {}: {}", has.concept, names::has(has)),
        ConceptSide::Unnamed { from, to, chain } => {
            let ends = "the last role of its row gives it ".to_string() + &from.to_string();
            format!("{element} has {to}: {}", names::then_rules(ends, *from, chain))
        }
    }
}

fn role_side(side: &RoleSide, alone: bool) -> String {
    let line = side.fact.map(|noted| noted.line);
    let made = match line {
        Some(line) if alone => format!("line {line} joins it to itself by {}", side.from),
        Some(line) => format!("line {line} joins them by {}", side.from),
        None => format!("they are parent and child, joined by {}", side.from),
    };
    format!("they have {}: {}", side.to, names::then_rules(made, side.from, &side.chain))
}

/// Why the unnamed element belongs to the model, role by role.
fn row(clash: &Clash) -> String {
    let Some((has, further)) = &clash.row else { return String::new() };
    let element = match &clash.what {
        What::OnElement { element, .. } => element,
        What::OnPair { first, second, .. } if first.row.len() > second.row.len() => first,
        What::OnPair { second, .. } => second,
    };
    let mut text = format!("  {} has {}: {}\n", element.who, has.concept, names::has(has));
    for (pair, links) in element.row.windows(2).zip(further) {
        let from = pair[0].inverse().neighbour();
        text += &format!("  after {} comes {}: {}\n", pair[0], pair[1], names::chain(from, links));
    }
    text
}
