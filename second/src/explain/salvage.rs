//! What stands behind a salvage: for each dropped fact the kept facts it clashes with, and the clash.

use super::chain::Chains;
use super::clash::{Clash, Places};
use super::noted::Noted;
use super::people::people;
use crate::desk::read::{File, Lines};
use crate::salvage::{clashing, with_facts, Fact};

/// A fact of a file, and where it is found again.
pub type Typed = (Fact, Noted);

pub struct Salvage {
    /// The line that chooses it.
    pub line: usize,
    /// How many facts there are, dropped or kept.
    pub facts: usize,
    pub dropped: Vec<Dropped>,
}

pub struct Dropped {
    pub fact: Typed,
    /// The kept facts before it with which it clashes, none of which could be left out.
    pub with: Vec<Typed>,
    /// The clash of the rules, these facts and the dropped one.
    pub clash: Clash,
}

impl Salvage {
    /// Takes the dropped facts out of the file. None of a file that does not choose salvage.
    pub fn of(file: &mut File, chains: &Chains) -> Option<Salvage> {
        let line = file.salvages?;
        let facts: Vec<Typed> = file.facts().into_iter().map(noted).collect();
        let lines = file.salvage();
        let (mut kept, mut dropped) = (Vec::new(), Vec::new());
        for fact in &facts {
            if lines.contains(&fact.1.line) {
                dropped.push(dropped_one(file, chains, &kept, *fact));
            } else {
                kept.push(*fact);
            }
        }
        Some(Salvage { line, facts: facts.len(), dropped })
    }
}

fn noted((fact, line): (Fact, usize)) -> Typed {
    let deed = match fact {
        Fact::Concept(fact) => fact.deed,
        Fact::Role(fact) => fact.deed,
    };
    (fact, Noted { deed, line })
}

fn dropped_one(file: &File, chains: &Chains, kept: &[Typed], fact: Typed) -> Dropped {
    let with = smallest(kept.to_vec(), |kept| {
        let facts: Vec<Fact> = kept.iter().chain([&fact]).map(|(fact, _)| *fact).collect();
        clashing(&file.collection, &facts)
    });
    let small = file_of(file, &[&with[..], &[fact]].concat());
    let people = people(&small, chains);
    let clash = Places { file: &small, chains, people: &people }.clash();
    Dropped { fact, with, clash: clash.expect("a dropped fact clashes") }
}

/// Leaves out one after the other what the clash does not need, what was typed last first. Whole runs of facts are tried
/// before single ones, which only saves time.
fn smallest(mut facts: Vec<Typed>, clashes: impl Fn(&[Typed]) -> bool) -> Vec<Typed> {
    let mut run = facts.len();
    while run > 0 {
        let mut end = facts.len();
        while end > 0 {
            let start = end.saturating_sub(run);
            let without = [&facts[..start], &facts[end..]].concat();
            if clashes(&without) {
                facts = without;
            }
            end = start;
        }
        run /= 2;
    }
    facts
}

/// The rules of a file with these facts, each on its line.
fn file_of(file: &File, facts: &[Typed]) -> File {
    let typed: Vec<Fact> = facts.iter().map(|(fact, _)| *fact).collect();
    let (concepts, roles): (Vec<&Typed>, Vec<&Typed>) =
        facts.iter().partition(|(fact, _)| matches!(fact, Fact::Concept(_)));
    let lines_of = |facts: Vec<&Typed>| facts.iter().map(|(_, noted)| noted.line).collect();
    let lines = Lines {
        concept_rules: file.lines.concept_rules.clone(),
        concept_exclusions: file.lines.concept_exclusions.clone(),
        role_rules: file.lines.role_rules.clone(),
        role_exclusions: file.lines.role_exclusions.clone(),
        concept_facts: lines_of(concepts),
        role_facts: lines_of(roles),
        ..Lines::default()
    };
    let (asks, list) = (Vec::new(), Vec::new());
    let collection = with_facts(&file.collection, &typed);
    File { collection, asks, allowance: None, expression: None, salvages: None, list, lines }
}
