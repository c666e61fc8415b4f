//! Whether a shown path is a path and a shown clash a clash, straight from the canonical model's definition.

use super::known::Known;
use crate::collection::Step;
use crate::element::Element;
use crate::numbers::{Concept, Role, State};
use std::collections::BTreeSet;

pub fn concepts<'a>(known: &'a Known, element: &Element) -> &'a BTreeSet<Concept> {
    match element.row.last() {
        None => known.person(element.who),
        Some(role) => known.concepts_above(role.inverse().neighbour()),
    }
}

/// Every role of the row is promised by the element before it.
pub fn belongs(known: &Known, element: &Element) -> bool {
    match element.parent() {
        None => element.who.0 < known.collection.counts.individuals,
        Some((parent, role)) => {
            belongs(known, &parent) && concepts(known, &parent).contains(&role.neighbour())
        }
    }
}

/// The signed roles of an ordered pair of elements.
pub fn roles(known: &Known, first: &Element, second: &Element) -> BTreeSet<Role> {
    if first.row.is_empty() && second.row.is_empty() {
        return known.pairs.get(&(first.who, second.who)).cloned().unwrap_or_default();
    }
    if let Some((parent, role)) = second.parent() {
        if parent == *first {
            return known.roles_above(role).clone();
        }
    }
    match first.parent() {
        Some((parent, role)) if parent == *second => {
            known.roles_above(role).iter().map(|above| above.inverse()).collect()
        }
        _ => BTreeSet::new(),
    }
}

/// Elements and states in step, each following from the one before by a step of the question.
pub fn is_path(known: &Known, stands: &[(Element, State)]) -> bool {
    let all_belong = stands.iter().all(|(element, _)| belongs(known, element));
    let in_step = |pair: &[(Element, State)]| {
        let ((here, before), (there, after)) = (&pair[0], &pair[1]);
        known.collection.steps.iter().any(|step| match step {
            Step::Test { from, name, to } => {
                (from, to) == (before, after) && here == there && concepts(known, here).contains(name)
            }
            Step::Role { from, role, to } => {
                (from, to) == (before, after) && roles(known, here, there).contains(role)
            }
        })
    };
    all_belong && stands.windows(2).all(in_step)
}
