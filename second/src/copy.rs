//! The fair copy of a file (docs/RULES.md, section 11): the frames that say its collection, each once and in one order.

use crate::collection::{ConceptFact, Counts, RoleFact, Step};
use crate::desk::read::{read, File};
use crate::desk::{fault_line, written};
use std::collections::BTreeSet;

/// The fair copy of a sound input, or the desk's line of a faulty one.
pub fn copy(input: &[u8]) -> Vec<u8> {
    match read(input) {
        Ok(file) => frames(&file).iter().flat_map(|frame| written(frame)).collect(),
        Err(fault) => fault_line(fault),
    }
}

/// The frames of the copy, bytes and no numbers. Salvage is not copied, and drops no fact here. A set of rows of bytes goes by the first byte that differs, which is the copy's
/// order: the kind stands in front, then the fields, of which longer ones have their high byte first.
pub fn frames(file: &File) -> BTreeSet<Vec<u8>> {
    let collection = &file.collection;
    let mut frames = BTreeSet::from([counts(&collection.counts)]);
    frames.extend(collection.concept_rules.iter().map(|(left, right)| vec![0x02, left.0, right.0]));
    frames.extend(collection.concept_exclusions.iter().map(|(left, right)| vec![0x03, left.0, right.0]));
    frames.extend(collection.role_rules.iter().map(|(left, right)| vec![0x04, left.0, right.0]));
    frames.extend(collection.role_exclusions.iter().map(|(left, right)| vec![0x05, left.0, right.0]));
    frames.extend(collection.concept_facts.iter().map(concept_fact));
    frames.extend(collection.role_facts.iter().map(role_fact));
    // Of an expression these are the steps and finals of its automaton.
    frames.extend(collection.steps.iter().map(step));
    frames.extend(collection.finals.iter().map(|state| vec![0x0A, state.0]));
    frames.extend(file.allowance.map(|rounds| [&[0x0C], &rounds.to_be_bytes()[..]].concat()));
    frames
}

fn counts(counts: &Counts) -> Vec<u8> {
    vec![0x01, counts.names, counts.roles, counts.individuals, counts.states, counts.start.0]
}

/// A fact always has its deed number.
fn concept_fact(fact: &ConceptFact) -> Vec<u8> {
    [&[0x06, fact.name.0, fact.who.0], &fact.deed.0.to_be_bytes()[..]].concat()
}

fn role_fact(fact: &RoleFact) -> Vec<u8> {
    [&[0x07, fact.role.0 / 2, fact.first.0, fact.second.0], &fact.deed.0.to_be_bytes()[..]].concat()
}

pub fn step(step: &Step) -> Vec<u8> {
    match *step {
        Step::Role { from, role, to } => vec![0x08, from.0, role.0, to.0],
        Step::Test { from, name, to } => vec![0x09, from.0, name.0, to.0],
    }
}
