//! The named part of the canonical model: each individual's concepts and the fact edges.

use crate::collection::{Collection, ConceptFact, RoleFact};
use crate::numbers::{Individual, Role};
use crate::order::Orders;

pub struct People {
    /// Bit D of entry a: individual a has concept D.
    pub concepts: Vec<u128>,
    /// For each individual, every other end and the typed role as seen from here, before the order is applied.
    pub edges: Vec<Vec<(Individual, Role)>>,
}

impl People {
    pub fn of(collection: &Collection, orders: &Orders) -> People {
        let count = usize::from(collection.counts.individuals);
        let mut concepts = vec![0u128; count];
        let mut edges = vec![Vec::new(); count];
        for &ConceptFact { name, who, .. } in &collection.concept_facts {
            concepts[who.at()] |= orders.concepts_above(name);
        }
        for &RoleFact { role, first, second, .. } in &collection.role_facts {
            for (here, there, seen) in [(first, second, role), (second, first, role.inverse())] {
                concepts[here.at()] |= orders.concepts_above(seen.neighbour());
                edges[here.at()].push((there, seen));
            }
        }
        // Repeated facts mean nothing more, so each edge is kept once.
        for list in &mut edges {
            list.sort();
            list.dedup();
        }
        People { concepts, edges }
    }
}
