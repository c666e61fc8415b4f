//! The canonical model grown element by element down to a cut, and plain search for paths in it.

use super::known::Known;
use crate::collection::Step;
use crate::numbers::{Concept, Individual, Role, State};
use std::collections::{BTreeSet, VecDeque};

/// More elements than this in one tree and the model is given up: it is for small collections only.
pub const MOST_ELEMENTS: usize = 30_000;

#[derive(Debug)]
pub struct TooLarge;

/// Where a row of signed roles begins.
#[derive(Clone, Copy)]
enum Root {
    Named(Individual),
    /// A lone element whose only concept is this one, and what follows from it.
    Lone(Concept),
}

struct Element {
    /// The parent's place and the last signed role of the row; None for the row of no roles.
    last: Option<(usize, Role)>,
    root: Root,
    depth: usize,
    children: Option<Vec<usize>>,
}

pub struct Tree<'a> {
    known: &'a Known<'a>,
    elements: Vec<Element>,
    /// No element stands deeper than this many roles below its root.
    cut: usize,
}

/// An element in a state: what a path is made of.
pub type Stand = (usize, State);

impl<'a> Tree<'a> {
    /// All individuals; individual a is element a.
    pub fn of_individuals(known: &'a Known<'a>, cut: usize) -> Tree<'a> {
        let roots = known.collection.counts.all_individuals().map(Root::Named);
        Tree { known, elements: roots.map(bare).collect(), cut }
    }

    /// One element whose only concept is B; it is element 0.
    pub fn of_concept(known: &'a Known<'a>, concept: Concept, cut: usize) -> Tree<'a> {
        Tree { known, elements: vec![bare(Root::Lone(concept))], cut }
    }

    /// How many elements have been written down.
    pub fn grown(&self) -> usize {
        self.elements.len()
    }

    pub fn last(&self, element: usize) -> Option<(usize, Role)> {
        self.elements[element].last
    }

    /// How many signed roles its row has.
    pub fn depth(&self, element: usize) -> usize {
        self.elements[element].depth
    }

    pub fn concepts(&self, element: usize) -> &'a BTreeSet<Concept> {
        let at = &self.elements[element];
        match (at.last, at.root) {
            (Some((_, role)), _) => self.known.concepts_above(role.inverse().neighbour()),
            (None, Root::Named(who)) => self.known.person(who),
            (None, Root::Lone(concept)) => self.known.concepts_above(concept),
        }
    }

    /// An element's children are written down when they are first needed: what no path reaches changes no path.
    pub fn children(&mut self, element: usize) -> Result<Vec<usize>, TooLarge> {
        if let Some(grown) = &self.elements[element].children {
            return Ok(grown.clone());
        }
        let (root, depth) = (self.elements[element].root, self.elements[element].depth);
        let mut grown = Vec::new();
        if depth < self.cut {
            for role in self.concepts(element).iter().filter_map(|concept| concept.as_neighbour()) {
                grown.push(self.elements.len());
                let last = Some((element, role));
                self.elements.push(Element { last, root, depth: depth + 1, children: None });
            }
        }
        self.elements[element].children = Some(grown.clone());
        if self.elements.len() > MOST_ELEMENTS {
            return Err(TooLarge);
        }
        Ok(grown)
    }

    /// Everything joined to an element, with the signed roles of the ordered pair (element, other).
    fn joined(&mut self, element: usize) -> Result<Vec<(usize, BTreeSet<Role>)>, TooLarge> {
        let mut joined = Vec::new();
        if let (None, Root::Named(who)) = (self.elements[element].last, self.elements[element].root) {
            let facts = self.known.pairs.iter().filter(|(pair, _)| pair.0 == who);
            joined.extend(facts.map(|(pair, roles)| (pair.1.at(), roles.clone())));
        }
        if let Some((parent, role)) = self.elements[element].last {
            let upward = self.known.roles_above(role).iter().map(|above| above.inverse());
            joined.push((parent, upward.collect()));
        }
        for child in self.children(element)? {
            let (_, role) = self.elements[child].last.expect("a child has a last role");
            joined.push((child, self.known.roles_above(role).clone()));
        }
        Ok(joined)
    }

    /// One step of a path from here.
    fn steps(&mut self, (element, state): Stand) -> Result<Vec<Stand>, TooLarge> {
        let mut next = Vec::new();
        let joined = self.joined(element)?;
        for step in &self.known.collection.steps {
            match *step {
                Step::Test { from, name, to } if from == state => {
                    next.extend(self.concepts(element).contains(&name).then_some((element, to)));
                }
                Step::Role { from, role, to } if from == state => {
                    let edges = joined.iter().filter(|(_, roles)| roles.contains(&role));
                    next.extend(edges.map(|&(other, _)| (other, to)));
                }
                _ => {}
            }
        }
        Ok(next)
    }

    /// Everything a path leads to from here, the empty path included.
    pub fn reached(&mut self, from: Stand) -> Result<BTreeSet<Stand>, TooLarge> {
        let mut seen = BTreeSet::from([from]);
        let mut waiting = VecDeque::from([from]);
        while let Some(here) = waiting.pop_front() {
            for next in self.steps(here)? {
                if seen.insert(next) {
                    waiting.push_back(next);
                }
            }
        }
        Ok(seen)
    }
}

fn bare(root: Root) -> Element {
    Element { last: None, root, depth: 0, children: None }
}
