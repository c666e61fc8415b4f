//! The typed facts as whoever doubts an answer finds them again: each with its deed number and its line.

use crate::collection::{ConceptFact, RoleFact};
use crate::desk::read::File;
use crate::numbers::Deed;

#[derive(Clone, Copy, Debug, PartialEq, Eq, PartialOrd, Ord)]
pub struct Noted {
    pub deed: Deed,
    pub line: usize,
}

pub fn concept_facts(file: &File) -> Vec<(ConceptFact, Noted)> {
    let facts = file.collection.concept_facts.iter().zip(&file.lines.concept_facts);
    by_a_deed_first(facts.map(|(&fact, &line)| (fact, Noted { deed: fact.deed, line })))
}

pub fn role_facts(file: &File) -> Vec<(RoleFact, Noted)> {
    let facts = file.collection.role_facts.iter().zip(&file.lines.role_facts);
    by_a_deed_first(facts.map(|(&fact, &line)| (fact, Noted { deed: fact.deed, line })))
}

/// Of facts that give the same the first is shown, so one whose deed can be looked up goes before those of which none is noted.
fn by_a_deed_first<T>(facts: impl Iterator<Item = (T, Noted)>) -> Vec<(T, Noted)> {
    let (mut by_a_deed, others): (Vec<_>, Vec<_>) =
        facts.partition(|(_, noted)| noted.deed != Deed::NONE_NOTED);
    by_a_deed.extend(others);
    by_a_deed
}
