//! Why one role or concept is below another: the shortest chain of typed rules between them.

use crate::desk::read::File;
use crate::numbers::{Concept, Role};
use std::collections::{BTreeMap, VecDeque};

#[derive(Clone, Copy, Debug, PartialEq, Eq)]
pub enum Rule {
    Concept,
    Role,
    /// A role rule R ≤ S read as inverse of R ≤ inverse of S.
    RoleBackward,
}

/// One rule of a chain: it leads to `to` and stands on that line of the file.
#[derive(Clone, Copy, Debug, PartialEq, Eq)]
pub struct Link<T> {
    pub to: T,
    pub rule: Rule,
    pub line: usize,
}

/// Everything above one place, each with the link that led there first.
pub struct Above<T> {
    from: T,
    links: BTreeMap<T, (T, Link<T>)>,
}

impl<T: Copy + Ord> Above<T> {
    fn search(from: T, next: impl Fn(T) -> Vec<Link<T>>) -> Above<T> {
        let mut links = BTreeMap::new();
        let mut waiting = VecDeque::from([from]);
        while let Some(at) = waiting.pop_front() {
            for link in next(at) {
                if link.to != from && !links.contains_key(&link.to) {
                    links.insert(link.to, (at, link));
                    waiting.push_back(link.to);
                }
            }
        }
        Above { from, links }
    }

    /// The chain up to there, empty for the place itself; None when it isn't above.
    pub fn chain(&self, to: T) -> Option<Vec<Link<T>>> {
        let mut chain = Vec::new();
        let mut at = to;
        while at != self.from {
            let (before, link) = self.links.get(&at)?;
            chain.push(*link);
            at = *before;
        }
        chain.reverse();
        Some(chain)
    }

    /// All that is above, the place itself left out, lowest number first.
    pub fn others(&self) -> impl Iterator<Item = T> + '_ {
        self.links.keys().copied()
    }
}

/// The chains from every declared role and every valid concept.
pub struct Chains {
    pub roles: BTreeMap<Role, Above<Role>>,
    pub concepts: BTreeMap<Concept, Above<Concept>>,
}

impl Chains {
    pub fn of(file: &File) -> Chains {
        let counts = &file.collection.counts;
        let roles = |role| (role, Above::search(role, |at| role_links(file, at)));
        let concepts = |concept| (concept, Above::search(concept, |at| concept_links(file, at)));
        Chains {
            roles: counts.all_roles().map(roles).collect(),
            concepts: counts.all_concepts().map(concepts).collect(),
        }
    }
}

fn role_links(file: &File, at: Role) -> Vec<Link<Role>> {
    let mut links = Vec::new();
    for (&(left, right), &line) in file.collection.role_rules.iter().zip(&file.lines.role_rules) {
        if left == at {
            links.push(Link { to: right, rule: Rule::Role, line });
        }
        if left == at.inverse() {
            links.push(Link { to: right.inverse(), rule: Rule::RoleBackward, line });
        }
    }
    links
}

fn concept_links(file: &File, at: Concept) -> Vec<Link<Concept>> {
    let mut links = Vec::new();
    for (&(left, right), &line) in file.collection.concept_rules.iter().zip(&file.lines.concept_rules) {
        if left == at {
            links.push(Link { to: right, rule: Rule::Concept, line });
        }
    }
    if let Some(role) = at.as_neighbour() {
        let lifted = |link: Link<Role>| Link { to: link.to.neighbour(), rule: link.rule, line: link.line };
        links.extend(role_links(file, role).into_iter().map(lifted));
    }
    links
}
