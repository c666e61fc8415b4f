//! What follows from the rules: the order of signed roles and the order of basic concepts, closed once.

use crate::collection::Collection;
use crate::numbers::{Concept, Role};

/// Bit S of row R says R ≤ S; bit D of row C says C ≤ D.
pub struct Orders {
    roles: [u64; 64],
    concepts: [u128; 128],
}

impl Orders {
    pub fn of(collection: &Collection) -> Orders {
        let roles = close_roles(collection);
        let concepts = close_concepts(collection, &roles);
        Orders { roles, concepts }
    }

    pub fn roles_above(&self, role: Role) -> u64 {
        self.roles[role.at()]
    }

    pub fn concepts_above(&self, concept: Concept) -> u128 {
        self.concepts[concept.at()]
    }

    pub fn role_below(&self, lower: Role, upper: Role) -> bool {
        self.roles[lower.at()] >> upper.0 & 1 == 1
    }

    pub fn concept_below(&self, lower: Concept, upper: Concept) -> bool {
        self.concepts[lower.at()] >> upper.0 & 1 == 1
    }
}

fn close_roles(collection: &Collection) -> [u64; 64] {
    let mut rows = [0u64; 64];
    for role in collection.counts.all_roles() {
        rows[role.at()] |= 1 << role.0;
    }
    // With every rule its inverse is put in; then the transitive closure keeps that symmetry.
    for &(left, right) in &collection.role_rules {
        rows[left.at()] |= 1 << right.0;
        rows[left.inverse().at()] |= 1 << right.inverse().0;
    }
    for middle in 0..64 {
        let through = rows[middle];
        for row in rows.iter_mut().filter(|row| **row >> middle & 1 == 1) {
            *row |= through;
        }
    }
    rows
}

fn close_concepts(collection: &Collection, roles: &[u64; 64]) -> [u128; 128] {
    let mut rows = [0u128; 128];
    for concept in collection.counts.all_concepts() {
        rows[concept.at()] |= 1 << concept.0;
    }
    for role in collection.counts.all_roles() {
        // ∃R ≤ ∃S whenever R ≤ S: the role row stands 64 places up.
        rows[role.neighbour().at()] |= u128::from(roles[role.at()]) << 64;
    }
    for &(left, right) in &collection.concept_rules {
        rows[left.at()] |= 1 << right.0;
    }
    for middle in 0..128 {
        let through = rows[middle];
        for row in rows.iter_mut().filter(|row| **row >> middle & 1 == 1) {
            *row |= through;
        }
    }
    rows
}

/// The places of the ones in a row of marks, lowest first.
pub fn marked(mut row: u128) -> impl Iterator<Item = u8> {
    std::iter::from_fn(move || {
        if row == 0 {
            return None;
        }
        let place = row.trailing_zeros() as u8;
        row &= row - 1;
        Some(place)
    })
}
