//! Contradiction: exclusions tested on every element of the canonical model and on every ordered pair.

use crate::collection::Collection;
use crate::numbers::{Concept, Individual, Role};
use crate::order::{marked, Orders};
use crate::people::People;
use std::collections::BTreeMap;

/// The signed roles in which some row of the canonical model ends.
/// An unnamed element's concepts, children and edge to its parent depend on that role only.
pub fn last_roles(collection: &Collection, orders: &Orders, people: &People) -> Vec<Role> {
    let roles = usize::from(collection.counts.roles) * 2;
    let mut seen = vec![false; roles];
    let mut waiting: Vec<Role> = Vec::new();
    let mut found = Vec::new();
    for &has in &people.concepts {
        waiting.extend(children(has));
    }
    while let Some(role) = waiting.pop() {
        if !std::mem::replace(&mut seen[role.at()], true) {
            found.push(role);
            waiting.extend(children(orders.concepts_above(role.inverse().neighbour())));
        }
    }
    found
}

/// The roles R for which ∃R is among these concepts.
fn children(concepts: u128) -> impl Iterator<Item = Role> {
    marked(concepts >> 64).map(Role)
}

/// The concepts of every element, each kind of unnamed element once.
pub fn element_concepts(orders: &Orders, people: &People, last: &[Role]) -> Vec<u128> {
    let unnamed = last.iter().map(|role| orders.concepts_above(role.inverse().neighbour()));
    people.concepts.iter().copied().chain(unnamed).collect()
}

/// The signed roles of every ordered pair that is joined, each kind of parent and child once.
pub fn pair_roles(orders: &Orders, people: &People, last: &[Role]) -> Vec<u64> {
    // A parent and its child are two ordered pairs: downward with the role, upward with its inverse.
    let down = last.iter().map(|role| orders.roles_above(*role));
    let up = last.iter().map(|role| orders.roles_above(role.inverse()));
    named_pairs(orders, people).into_values().chain(down).chain(up).collect()
}

pub fn contradiction(collection: &Collection, orders: &Orders, people: &People) -> bool {
    let last = last_roles(collection, orders, people);
    let elements = element_concepts(orders, people, &last);
    let pairs = pair_roles(orders, people, &last);
    let concepts = &collection.concept_exclusions;
    let roles = &collection.role_exclusions;
    concepts.iter().any(|exclusion| breaks_concepts(&elements, *exclusion))
        || roles.iter().any(|exclusion| breaks_roles(&pairs, *exclusion))
}

/// Some element has both sides.
pub fn breaks_concepts(elements: &[u128], (left, right): (Concept, Concept)) -> bool {
    elements.iter().any(|has| has >> left.0 & has >> right.0 & 1 == 1)
}

/// Some ordered pair has both sides.
pub fn breaks_roles(pairs: &[u64], (left, right): (Role, Role)) -> bool {
    pairs.iter().any(|has| has >> left.0 & has >> right.0 & 1 == 1)
}

/// All signed roles of each ordered pair of individuals, from all facts about the two together.
fn named_pairs(orders: &Orders, people: &People) -> BTreeMap<(usize, Individual), u64> {
    let mut pairs = BTreeMap::new();
    for (here, edges) in people.edges.iter().enumerate() {
        for &(there, role) in edges {
            *pairs.entry((here, there)).or_insert(0) |= orders.roles_above(role);
        }
    }
    pairs
}
