//! The clash of a contradiction: an element or an ordered pair, and the rules that bring both sides there.

use super::chain::{Chains, Link};
use super::noted::{role_facts, Noted};
use super::people::{Has, People};
use crate::collection::RoleFact;
use crate::desk::read::File;
use crate::element::Element;
use crate::numbers::{Concept, Individual, Role};
use std::collections::{BTreeMap, VecDeque};

/// How one side of a concept exclusion comes to the element.
pub enum ConceptSide {
    Named(Has),
    /// From ∃(inverse of the last role), which every element ending in it has.
    Unnamed {
        from: Concept,
        to: Concept,
        chain: Vec<Link<Concept>>,
    },
}

/// How one side of a role exclusion comes to the pair: made as `from` by a fact, or as parent and child.
pub struct RoleSide {
    pub fact: Option<Noted>,
    pub from: Role,
    pub to: Role,
    pub chain: Vec<Link<Role>>,
}

pub enum What {
    OnElement { element: Element, sides: [ConceptSide; 2] },
    OnPair { first: Element, second: Element, sides: [RoleSide; 2] },
}

pub struct Clash {
    /// The exclusion's line.
    pub line: usize,
    pub what: What,
    /// Why the unnamed element belongs: the individual's concept, then one chain for each further role of the row.
    pub row: Option<(Has, Vec<Vec<Link<Concept>>>)>,
}

pub struct Places<'a> {
    pub file: &'a File,
    pub chains: &'a Chains,
    pub people: &'a People,
}

impl Clash {
    /// The typed fact that each side rests on. What is unnamed is there since its individual has the first role of its row.
    pub fn rests_on(&self) -> [Noted; 2] {
        let row = self.row.as_ref().map(|(has, _)| has.noted);
        let sides = match &self.what {
            What::OnElement { sides, .. } => [&sides[0], &sides[1]].map(|side| match side {
                ConceptSide::Named(has) => Some(has.noted),
                ConceptSide::Unnamed { .. } => row,
            }),
            What::OnPair { sides, .. } => [&sides[0], &sides[1]].map(|side| side.fact.or(row)),
        };
        sides.map(|noted| noted.expect("a side that no fact gives is of an unnamed element"))
    }
}

impl Places<'_> {
    pub fn clash(&self) -> Option<Clash> {
        let shortest = self.shortest_rows();
        self.on_named_element()
            .or_else(|| self.on_unnamed_element(&shortest))
            .or_else(|| self.on_named_pair())
            .or_else(|| self.on_parent_and_child(&shortest))
    }

    /// For each role in which some row ends, a shortest such row.
    fn shortest_rows(&self) -> Vec<Element> {
        let mut rows: Vec<Element> = Vec::new();
        let mut waiting: VecDeque<Element> =
            self.file.collection.counts.all_individuals().map(Element::named).collect();
        while let Some(element) = waiting.pop_front() {
            for role in self.children(&element) {
                let child = element.child(role);
                if rows.iter().all(|row| row.row.last() != Some(&role)) {
                    rows.push(child.clone());
                    waiting.push_back(child);
                }
            }
        }
        rows
    }

    fn children(&self, element: &Element) -> Vec<Role> {
        let concepts: Vec<Concept> = match element.row.last() {
            None => self.people[element.who.at()].keys().copied().collect(),
            Some(role) => {
                let from = role.inverse().neighbour();
                std::iter::once(from).chain(self.chains.concepts[&from].others()).collect()
            }
        };
        concepts.iter().filter_map(|concept| concept.as_neighbour()).collect()
    }

    /// Why a row belongs; None for a bare individual.
    fn row(&self, element: &Element) -> Option<(Has, Vec<Vec<Link<Concept>>>)> {
        let first = element.row.first()?;
        let has = self.people[element.who.at()][&first.neighbour()].clone();
        let further = element.row.windows(2).map(|pair| {
            let from = pair[0].inverse().neighbour();
            self.chains.concepts[&from].chain(pair[1].neighbour()).expect("the row belongs")
        });
        Some((has, further.collect()))
    }

    fn concept_exclusions(&self) -> impl Iterator<Item = ((Concept, Concept), usize)> + '_ {
        let lines = self.file.lines.concept_exclusions.iter();
        self.file.collection.concept_exclusions.iter().copied().zip(lines.copied())
    }

    fn role_exclusions(&self) -> impl Iterator<Item = ((Role, Role), usize)> + '_ {
        let lines = self.file.lines.role_exclusions.iter();
        self.file.collection.role_exclusions.iter().copied().zip(lines.copied())
    }

    fn on_named_element(&self) -> Option<Clash> {
        for (who, has) in self.people.iter().enumerate() {
            for ((left, right), line) in self.concept_exclusions() {
                if let (Some(left), Some(right)) = (has.get(&left), has.get(&right)) {
                    let element = Element::named(Individual(who as u8));
                    let sides = [left, right].map(|side| ConceptSide::Named(side.clone()));
                    return Some(Clash { line, what: What::OnElement { element, sides }, row: None });
                }
            }
        }
        None
    }

    fn on_unnamed_element(&self, rows: &[Element]) -> Option<Clash> {
        for element in rows {
            let from = element.row.last()?.inverse().neighbour();
            let above = &self.chains.concepts[&from];
            for ((left, right), line) in self.concept_exclusions() {
                if let (Some(one), Some(other)) = (above.chain(left), above.chain(right)) {
                    let sides = [(left, one), (right, other)].map(|(to, chain)| ConceptSide::Unnamed {
                        from,
                        to,
                        chain,
                    });
                    let what = What::OnElement { element: element.clone(), sides };
                    return Some(Clash { line, what, row: self.row(element) });
                }
            }
        }
        None
    }

    fn on_named_pair(&self) -> Option<Clash> {
        for ((first, second), made) in self.made_by_facts() {
            for ((left, right), line) in self.role_exclusions() {
                let sides = [left, right].map(|side| self.role_of_pair(&made, side));
                if let [Some(left), Some(right)] = sides {
                    let [first, second] = [first, second].map(Element::named);
                    let what = What::OnPair { first, second, sides: [left, right] };
                    return Some(Clash { line, what, row: None });
                }
            }
        }
        None
    }

    /// For each ordered pair of individuals the roles typed on it, as seen from the first, and where.
    fn made_by_facts(&self) -> BTreeMap<(Individual, Individual), Vec<(Role, Noted)>> {
        let mut pairs: BTreeMap<_, Vec<(Role, Noted)>> = BTreeMap::new();
        for (RoleFact { role, first, second, .. }, noted) in role_facts(self.file) {
            pairs.entry((first, second)).or_default().push((role, noted));
            pairs.entry((second, first)).or_default().push((role.inverse(), noted));
        }
        pairs
    }

    /// The first fact from which the pair has this role.
    fn role_of_pair(&self, made: &[(Role, Noted)], to: Role) -> Option<RoleSide> {
        made.iter().find_map(|&(from, noted)| {
            let chain = self.chains.roles[&from].chain(to)?;
            Some(RoleSide { fact: Some(noted), from, to, chain })
        })
    }

    fn on_parent_and_child(&self, rows: &[Element]) -> Option<Clash> {
        for child in rows {
            let (parent, role) = child.parent()?;
            for (first, second, from) in [(&parent, child, role), (child, &parent, role.inverse())] {
                let above = &self.chains.roles[&from];
                for ((left, right), line) in self.role_exclusions() {
                    if let (Some(one), Some(other)) = (above.chain(left), above.chain(right)) {
                        let sides = [(left, one), (right, other)].map(|(to, chain)| RoleSide {
                            fact: None,
                            from,
                            to,
                            chain,
                        });
                        let what = What::OnPair { first: first.clone(), second: second.clone(), sides };
                        return Some(Clash { line, what, row: self.row(child) });
                    }
                }
            }
        }
        None
    }
}
