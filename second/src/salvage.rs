//! Salvage (docs/RULES.md, section 13): in the order typed each fact is kept unless, with those kept before it and all rules, it
//! makes a contradiction. Each time that is tested on the whole of what they make.

use crate::clash::contradiction;
use crate::collection::{Collection, ConceptFact, RoleFact};
use crate::order::Orders;
use crate::people::People;

/// A fact of either kind.
#[derive(Clone, Copy, Debug, PartialEq, Eq)]
pub enum Fact {
    Concept(ConceptFact),
    Role(RoleFact),
}

/// For each of these facts whether it is kept. Of the collection only the rules count.
pub fn kept(collection: &Collection, facts: &[Fact]) -> Vec<bool> {
    let orders = Orders::of(collection);
    let mut before = with_facts(collection, &[]);
    let one = |fact: &Fact| {
        put(&mut before, *fact);
        let stays = !contradiction(&before, &orders, &People::of(&before, &orders));
        if !stays {
            take_back(&mut before, *fact);
        }
        stays
    };
    facts.iter().map(one).collect()
}

/// The collection with these facts in place of its own.
pub fn with_facts(collection: &Collection, facts: &[Fact]) -> Collection {
    let (concept_facts, role_facts) = (Vec::new(), Vec::new());
    let mut other = Collection { concept_facts, role_facts, ..collection.clone() };
    facts.iter().for_each(|fact| put(&mut other, *fact));
    other
}

fn put(collection: &mut Collection, fact: Fact) {
    match fact {
        Fact::Concept(fact) => collection.concept_facts.push(fact),
        Fact::Role(fact) => collection.role_facts.push(fact),
    }
}

/// The last fact of its kind is out again.
fn take_back(collection: &mut Collection, fact: Fact) {
    match fact {
        Fact::Concept(_) => drop(collection.concept_facts.pop()),
        Fact::Role(_) => drop(collection.role_facts.pop()),
    }
}

/// Whether the rules of a collection and these facts make a contradiction.
pub fn clashing(collection: &Collection, facts: &[Fact]) -> bool {
    let with = with_facts(collection, facts);
    let orders = Orders::of(&with);
    contradiction(&with, &orders, &People::of(&with, &orders))
}
