//! What the model is built from: both orders by search along the rules, the individuals' concepts, the fact edges.

use crate::collection::{Collection, RoleFact};
use crate::numbers::{Concept, Individual, Role};
use std::collections::{BTreeMap, BTreeSet};

pub struct Known<'a> {
    pub collection: &'a Collection,
    role_order: BTreeMap<Role, BTreeSet<Role>>,
    concept_order: BTreeMap<Concept, BTreeSet<Concept>>,
    people: BTreeMap<Individual, BTreeSet<Concept>>,
    /// All signed roles of an ordered pair of individuals that a fact joins.
    pub pairs: BTreeMap<(Individual, Individual), BTreeSet<Role>>,
}

impl<'a> Known<'a> {
    pub fn of(collection: &'a Collection) -> Known<'a> {
        let mut known = Known {
            collection,
            role_order: BTreeMap::new(),
            concept_order: BTreeMap::new(),
            people: BTreeMap::new(),
            pairs: BTreeMap::new(),
        };
        for role in collection.counts.all_roles() {
            let above = search(role, |at| role_neighbours(collection, at));
            known.role_order.insert(role, above);
        }
        for concept in collection.counts.all_concepts() {
            let above = search(concept, |at| known.concept_neighbours(at));
            known.concept_order.insert(concept, above);
        }
        known.look_at_facts();
        known
    }

    pub fn roles_above(&self, role: Role) -> &BTreeSet<Role> {
        &self.role_order[&role]
    }

    pub fn concepts_above(&self, concept: Concept) -> &BTreeSet<Concept> {
        &self.concept_order[&concept]
    }

    pub fn person(&self, who: Individual) -> &BTreeSet<Concept> {
        &self.people[&who]
    }

    fn concept_neighbours(&self, at: Concept) -> Vec<Concept> {
        let rules = self.collection.concept_rules.iter();
        let mut next: Vec<Concept> = rules.filter(|rule| rule.0 == at).map(|rule| rule.1).collect();
        if let Some(role) = at.as_neighbour() {
            next.extend(self.roles_above(role).iter().map(|above| above.neighbour()));
        }
        next
    }

    fn look_at_facts(&mut self) {
        let collection = self.collection;
        for who in collection.counts.all_individuals() {
            let mut typed: Vec<Concept> = Vec::new();
            typed
                .extend(collection.concept_facts.iter().filter(|fact| fact.who == who).map(|fact| fact.name));
            for &RoleFact { role, first, second, .. } in &collection.role_facts {
                typed.extend((first == who).then(|| role.neighbour()));
                typed.extend((second == who).then(|| role.inverse().neighbour()));
            }
            let has = typed.iter().flat_map(|concept| self.concepts_above(*concept)).copied().collect();
            self.people.insert(who, has);
        }
        for &RoleFact { role, first, second, .. } in &collection.role_facts {
            for upper in self.roles_above(role).clone() {
                self.pairs.entry((first, second)).or_default().insert(upper);
                self.pairs.entry((second, first)).or_default().insert(upper.inverse());
            }
        }
    }
}

/// One rule further up from a role: a rule on it, or a rule on its inverse read backward.
fn role_neighbours(collection: &Collection, at: Role) -> Vec<Role> {
    let mut next = Vec::new();
    for &(left, right) in &collection.role_rules {
        next.extend((left == at).then_some(right));
        next.extend((left == at.inverse()).then_some(right.inverse()));
    }
    next
}

/// Everything that is reached from one place, the place itself included.
fn search<T: Copy + Ord>(from: T, next: impl Fn(T) -> Vec<T>) -> BTreeSet<T> {
    let mut found = BTreeSet::from([from]);
    let mut waiting = vec![from];
    while let Some(at) = waiting.pop() {
        for further in next(at) {
            if found.insert(further) {
                waiting.push(further);
            }
        }
    }
    found
}
