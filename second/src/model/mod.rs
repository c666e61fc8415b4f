//! The third method, for small collections: the canonical model built out, paths by search, exclusions on its elements.
//!
//! How deep is deep enough. An unnamed element's concepts, its children and its edge to its parent depend on the
//! last role of its row only. So the loops at an element that stay in the tree below it are those of the tree grown
//! from one element whose only concept is B = ∃(inverse of that role). Let L(k, B) be the pairs (s, t) of states
//! with a path from that root in s back to it in t, in its tree cut k roles below it. A path in the tree cut at
//! k + 1 is made of tests at the root and of trips: down to a child, a loop in the child's tree cut at k, up again.
//! So L(k + 1, ·) is made from L(k, ·) in a way that doesn't depend on k. Hence, when L(k + 1, B) = L(k, B) for
//! every B, all deeper trees have the same loops, and so has the tree that isn't cut. A path between individuals is
//! made of fact edges, tests at individuals and trips below them; with rows of at most k + 1 roles every trip is
//! there. L(k, B) can only grow with k, so such a k is found at the latest after concepts × states × (states − 1).
//!
//! For a path to any element at all: with rows of at most d + k roles, what comes to elements whose rows have at most d is
//! whole. Let F(d) be the pairs of the last role of such a row and a state in which a path comes to its element. What comes to
//! a child comes from its parent, down by a step and by a loop there, and that depends on the parent's last role and state
//! only. So where F(d + 1) brings no new pair, neither does F(d + 2), and all has been seen.
//!
//! For exclusions: when rows of k + 1 roles bring no last role that rows of at most k didn't have, no longer row
//! does, and every kind of element and of ordered pair has been seen.

pub mod check;
pub mod known;
pub mod letter;
mod tree;

use crate::ask::Ask;
use crate::collection::Collection;
use crate::numbers::{Individual, Role, State};
use crate::sheet::Mark;
use known::Known;
use std::collections::{BTreeMap, BTreeSet};
pub use tree::TooLarge;
use tree::Tree;

#[derive(Clone, Copy, Debug, PartialEq, Eq)]
pub enum Answer {
    No,
    Yes,
    Contradiction,
}

/// The loops of each concept's tree, or a sheet to the letter.
pub type Marks = BTreeSet<Mark>;

pub struct Model<'a> {
    known: &'a Known<'a>,
    contradiction: bool,
    loops: Marks,
    /// The depth from which on the loops no longer change.
    pub depth: usize,
}

impl<'a> Model<'a> {
    pub fn of(known: &'a Known<'a>) -> Result<Model<'a>, TooLarge> {
        let (loops, depth) = grow_until_unchanged(known)?;
        Ok(Model { known, contradiction: contradiction(known)?, loops, depth })
    }

    /// The marks of the closed sheet, by their meaning.
    pub fn loops(&self) -> &Marks {
        &self.loops
    }

    pub fn is_contradiction(&self) -> bool {
        self.contradiction
    }

    /// The answers to these asks.
    pub fn asked(&self, asks: &[Ask]) -> Result<Vec<Answer>, TooLarge> {
        let mut of_pairs: BTreeMap<Individual, Vec<Answer>> = BTreeMap::new();
        let mut answers = Vec::new();
        for ask in asks {
            answers.push(match *ask {
                Ask::From(first) => self.leaves(first)?,
                Ask::Pair(first, second) => match of_pairs.get(&first) {
                    Some(answers) => answers[second.at()],
                    None => of_pairs.entry(first).or_insert(self.answers(first)?)[second.at()],
                },
            });
        }
        Ok(answers)
    }

    /// The answer for one individual and any element at all.
    fn leaves(&self, first: Individual) -> Result<Answer, TooLarge> {
        if self.contradiction {
            return Ok(Answer::Contradiction);
        }
        let counts = &self.known.collection.counts;
        let mut before: BTreeSet<(Role, State)> = BTreeSet::new();
        for deep in 1.. {
            let mut tree = Tree::of_individuals(self.known, deep + self.depth);
            let reached = tree.reached((first.at(), counts.start))?;
            if reached.iter().any(|(_, state)| self.known.collection.finals.contains(state)) {
                return Ok(Answer::Yes);
            }
            let seen = reached.into_iter().filter(|(element, _)| tree.depth(*element) <= deep);
            let last = seen.filter_map(|(element, state)| Some((tree.last(element)?.1, state))).collect();
            if last == before {
                break;
            }
            before = last;
        }
        Ok(Answer::No)
    }

    /// The answers for one first individual and every second one.
    fn answers(&self, first: Individual) -> Result<Vec<Answer>, TooLarge> {
        let collection = self.known.collection;
        let mut tree = Tree::of_individuals(self.known, self.depth + 1);
        let reached = tree.reached((first.at(), collection.counts.start))?;
        let answer = |second: Individual| {
            let arrived = collection.finals.iter().any(|last| reached.contains(&(second.at(), *last)));
            match (self.contradiction, arrived) {
                (true, _) => Answer::Contradiction,
                (false, true) => Answer::Yes,
                (false, false) => Answer::No,
            }
        };
        Ok(collection.counts.all_individuals().map(answer).collect())
    }
}

/// One ask put to the model.
pub fn ask(collection: &Collection, ask: Ask) -> Result<Answer, TooLarge> {
    let known = Known::of(collection);
    Ok(Model::of(&known)?.asked(&[ask])?[0])
}

fn grow_until_unchanged(known: &Known) -> Result<(Marks, usize), TooLarge> {
    let mut depth = 0;
    let mut loops = loops_cut_at(known, depth)?;
    loop {
        let deeper = loops_cut_at(known, depth + 1)?;
        if deeper == loops {
            return Ok((loops, depth));
        }
        loops = deeper;
        depth += 1;
    }
}

fn loops_cut_at(known: &Known, cut: usize) -> Result<Marks, TooLarge> {
    let counts = &known.collection.counts;
    let mut loops = Marks::new();
    for concept in counts.all_concepts() {
        let mut tree = Tree::of_concept(known, concept, cut);
        for from in counts.all_states() {
            let reached = tree.reached((0, from))?;
            let back = reached.iter().filter(|stand| stand.0 == 0);
            loops.extend(back.map(|&(_, to)| Mark { from, to, concept }));
        }
    }
    Ok(loops)
}

fn contradiction(known: &Known) -> Result<bool, TooLarge> {
    let tree = grow_until_no_new_last_role(known)?;
    let collection = known.collection;
    let concepts = &collection.concept_exclusions;
    for element in 0..tree.grown() {
        let has = tree.concepts(element);
        if concepts.iter().any(|(left, right)| has.contains(left) && has.contains(right)) {
            return Ok(true);
        }
    }
    let both = |roles: &BTreeSet<Role>| {
        collection.role_exclusions.iter().any(|(left, right)| roles.contains(left) && roles.contains(right))
    };
    let downward = |role: Role| known.roles_above(role).clone();
    let upward = |role: Role| known.roles_above(role).iter().map(|above| above.inverse()).collect();
    let last_roles = (0..tree.grown()).filter_map(|element| tree.last(element)).map(|(_, role)| role);
    let unnamed = last_roles.flat_map(|role| [downward(role), upward(role)]);
    Ok(known.pairs.values().cloned().chain(unnamed).any(|roles| both(&roles)))
}

/// Grows every row, one role longer each time.
fn grow_until_no_new_last_role<'a>(known: &'a Known<'a>) -> Result<Tree<'a>, TooLarge> {
    let mut tree = Tree::of_individuals(known, usize::MAX);
    let mut ends: BTreeSet<Role> = BTreeSet::new();
    let mut layer: Vec<usize> = (0..tree.grown()).collect();
    loop {
        let mut next = Vec::new();
        for element in layer {
            next.extend(tree.children(element)?);
        }
        let before = ends.len();
        ends.extend(next.iter().filter_map(|&element| tree.last(element)).map(|(_, role)| role));
        if ends.len() == before {
            return Ok(tree);
        }
        layer = next;
    }
}
