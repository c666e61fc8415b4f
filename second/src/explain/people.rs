//! Who has which concept and why: the fact that gives it and the rules from there.

use super::chain::{Chains, Link};
use super::noted::{concept_facts, role_facts, Noted};
use crate::collection::RoleFact;
use crate::desk::read::File;
use crate::numbers::{Concept, Individual, Role};
use std::collections::BTreeMap;

/// The fact a concept comes from.
#[derive(Clone, Copy, Debug, PartialEq, Eq)]
pub enum Source {
    Name,
    /// A role fact; the role as seen from the individual that has the neighbour.
    Neighbour {
        role: Role,
        other: Individual,
    },
}

/// A concept that an individual has: typed as `from`, and from there by the chain.
#[derive(Clone, Debug)]
pub struct Has {
    pub concept: Concept,
    pub source: Source,
    /// Where that fact stands.
    pub noted: Noted,
    pub from: Concept,
    pub chain: Vec<Link<Concept>>,
}

/// For each individual its concepts, each with its shortest reason.
pub type People = Vec<BTreeMap<Concept, Has>>;

pub fn people(file: &File, chains: &Chains) -> People {
    let mut people = vec![BTreeMap::new(); usize::from(file.collection.counts.individuals)];
    for (fact, noted) in concept_facts(file) {
        note(&mut people[fact.who.at()], chains, fact.name, (Source::Name, noted));
    }
    for (RoleFact { role, first, second, .. }, noted) in role_facts(file) {
        for (who, other, role) in [(first, second, role), (second, first, role.inverse())] {
            let source = Source::Neighbour { role, other };
            note(&mut people[who.at()], chains, role.neighbour(), (source, noted));
        }
    }
    people
}

fn note(has: &mut BTreeMap<Concept, Has>, chains: &Chains, from: Concept, (source, noted): (Source, Noted)) {
    let above = &chains.concepts[&from];
    for concept in std::iter::once(from).chain(above.others()) {
        let chain = above.chain(concept).expect("it is above");
        let shorter = has.get(&concept).is_none_or(|known| chain.len() < known.chain.len());
        if shorter {
            has.insert(concept, Has { concept, source, noted, from, chain });
        }
    }
}
