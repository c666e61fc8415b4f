//! The fixed automaton of an expression: a network of nodes with empty moves is built, and then the empty moves are taken out.

use super::{Expression, Letter};
use crate::collection::Step;
use crate::numbers::State;
use std::collections::BTreeSet;

/// State 0 starts, and state k is the k-th role or test mark.
#[derive(Clone, Debug, PartialEq, Eq)]
pub struct Automaton {
    /// What each mark reads: the mark of state k stands at k - 1.
    pub letters: Vec<Letter>,
    /// Pairs of states in rising order; a step reads the mark of the state it leads to.
    pub steps: Vec<(usize, usize)>,
    pub finals: Vec<usize>,
}

impl Automaton {
    pub fn of(expression: &Expression) -> Automaton {
        let mut network = Network { empty: vec![Vec::new()], marks: Vec::new() };
        let exit = network.build(expression, ENTRY);
        // Where each state stands: state 0 at the entry, state k behind the k-th mark.
        let places: Vec<usize> =
            std::iter::once(ENTRY).chain(network.marks.iter().map(|mark| mark.after)).collect();
        let mut automaton = Automaton {
            letters: network.marks.iter().map(|mark| mark.letter).collect(),
            steps: Vec::new(),
            finals: Vec::new(),
        };
        for (state, &place) in places.iter().enumerate() {
            let reached = network.reached(place);
            let next = network.marks.iter().enumerate().filter(|(_, mark)| reached.contains(&mark.before));
            automaton.steps.extend(next.map(|(before, _)| (state, before + 1)));
            automaton.finals.extend(reached.contains(&exit).then_some(state));
        }
        automaton
    }

    /// One more than there are role and test marks.
    pub fn states(&self) -> usize {
        self.letters.len() + 1
    }

    /// The steps as the collection holds them. There are so few states that each has its number.
    pub fn as_steps(&self) -> Vec<Step> {
        let step = |&(from, to): &(usize, usize)| {
            let (from, letter, to) = (State(from as u8), self.letters[to - 1], State(to as u8));
            match letter {
                Letter::Role(role) => Step::Role { from, role, to },
                Letter::Test(name) => Step::Test { from, name, to },
            }
        };
        self.steps.iter().map(step).collect()
    }

    pub fn as_finals(&self) -> Vec<State> {
        self.finals.iter().map(|state| State(*state as u8)).collect()
    }

    /// Whether it reads this word from its start to a final state.
    pub fn reads(&self, word: &[Letter]) -> bool {
        let mut here = BTreeSet::from([0]);
        for letter in word {
            let steps = self.steps.iter();
            let taken = steps.filter(|(from, to)| here.contains(from) && self.letters[to - 1] == *letter);
            here = taken.map(|(_, to)| *to).collect();
        }
        self.finals.iter().any(|state| here.contains(state))
    }
}

const ENTRY: usize = 0;

struct Mark {
    before: usize,
    letter: Letter,
    after: usize,
}

struct Network {
    /// For each node, the nodes to which an empty move leads.
    empty: Vec<Vec<usize>>,
    /// The marks from left to right, each between two nodes.
    marks: Vec<Mark>,
}

impl Network {
    fn node(&mut self) -> usize {
        self.empty.push(Vec::new());
        self.empty.len() - 1
    }

    /// A new node to which an empty move leads.
    fn after(&mut self, node: usize) -> usize {
        let next = self.node();
        self.empty[node].push(next);
        next
    }

    /// Builds the expression behind a node; the node at its end is new, and no move leaves it yet.
    fn build(&mut self, expression: &Expression, from: usize) -> usize {
        match expression {
            Expression::Mark(letter) => {
                let after = self.node();
                self.marks.push(Mark { before: from, letter: *letter, after });
                after
            }
            Expression::Row(items) => {
                let begin = self.after(from);
                items.iter().fold(begin, |node, item| self.build(item, node))
            }
            Expression::Either(sequences) => {
                let end = self.node();
                for sequence in sequences {
                    let begin = self.after(from);
                    let last = self.build(sequence, begin);
                    self.empty[last].push(end);
                }
                end
            }
            Expression::AnyTimes(item) => {
                // Each time begins and ends at this node, and so does not once.
                let turn = self.after(from);
                let begin = self.after(turn);
                let last = self.build(item, begin);
                self.empty[last].push(turn);
                self.after(turn)
            }
        }
    }

    /// The nodes that empty moves reach, the node itself included.
    fn reached(&self, node: usize) -> BTreeSet<usize> {
        let mut reached = BTreeSet::from([node]);
        let mut waiting = vec![node];
        while let Some(at) = waiting.pop() {
            let new = self.empty[at].iter().filter(|next| reached.insert(**next));
            waiting.extend(new);
        }
        reached
    }
}
