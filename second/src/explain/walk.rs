//! The walk of the individuals once more, now with the leg by which each place was first reached.

use super::noted::{role_facts, Noted};
use super::rounds::{Carried, Rounds};
use crate::collection::{RoleFact, Step};
use crate::desk::read::File;
use crate::numbers::{Concept, Individual, Role, State};
use crate::order::{marked, Orders};
use crate::people::People;
use crate::sheet::{Mark, Rules};
use std::collections::{HashMap, VecDeque};

/// One move of the walk between individuals.
#[derive(Clone, Copy)]
pub enum Leg {
    /// Along the role fact that is noted there, by the role step.
    Fact {
        step: Carried,
        noted: Noted,
    },
    Test {
        name: Concept,
        line: usize,
    },
    /// Through unnamed elements and back.
    Loop(Mark),
    /// To an unnamed element, and not back from there.
    Down {
        step: Carried,
    },
}

pub type Place = (Individual, State);

/// What every walk reads.
pub struct Ground<'a> {
    pub file: &'a File,
    pub rounds: &'a Rounds,
    orders: Orders,
    pub people: People,
    pub rules: Rules,
    /// For each individual its facts: the other end, the role as seen from here, where it is noted.
    facts: Vec<Vec<(Individual, Role, Noted)>>,
}

/// All places a walk reaches from its beginning, each with the leg that led there first.
pub struct Walk {
    pub start: Place,
    pub legs: HashMap<Place, (Place, Leg)>,
    /// In the order found.
    pub reached: Vec<Place>,
    /// The same as bits: the states in which each individual is reached.
    seen: Vec<u32>,
}

impl<'a> Ground<'a> {
    pub fn of(file: &'a File, rounds: &'a Rounds) -> Ground<'a> {
        let orders = Orders::of(&file.collection);
        let people = People::of(&file.collection, &orders);
        let rules = Rules::of(&file.collection, &orders);
        let mut facts = vec![Vec::new(); people.edges.len()];
        for (RoleFact { role, first, second, .. }, noted) in role_facts(file) {
            facts[first.at()].push((second, role, noted));
            facts[second.at()].push((first, role.inverse(), noted));
        }
        Ground { file, rounds, orders, people, rules, facts }
    }

    pub fn walk(&self, first: Individual) -> Walk {
        let start = (first, self.file.collection.counts.start);
        let mut seen = vec![0; self.people.edges.len()];
        seen[first.at()] = 1 << start.1 .0;
        let mut walk = Walk { start, legs: HashMap::new(), reached: vec![start], seen };
        let mut waiting = VecDeque::from([start]);
        while let Some(here) = waiting.pop_front() {
            // Tests and facts come before marks: they need no unfolding.
            let mut found = self.by_tests(here);
            found.extend(self.by_facts(here, &walk));
            found.extend(self.by_marks(here, &walk));
            waiting.extend(found.into_iter().filter_map(|(there, leg)| walk.note(here, there, leg)));
        }
        walk
    }

    fn by_tests(&self, (who, state): Place) -> Vec<(Place, Leg)> {
        let has = self.people.concepts[who.at()];
        let steps = self.file.collection.steps.iter().zip(&self.file.lines.steps);
        let passes = |(step, &line): (&Step, &usize)| match *step {
            Step::Test { from, name, to } if from == state && has >> name.0 & 1 == 1 => {
                Some(((who, to), Leg::Test { name, line }))
            }
            _ => None,
        };
        steps.filter_map(passes).collect()
    }

    fn by_facts(&self, (who, state): Place, walk: &Walk) -> Vec<(Place, Leg)> {
        let mut legs = Vec::new();
        for &(there, seen, noted) in &self.facts[who.at()] {
            let states = self.rules.along[seen.at()][state.at()];
            for to in walk.new_states(there, states) {
                let step = self.step_along(seen, state, to);
                legs.push(((there, to), Leg::Fact { step, noted }));
            }
        }
        legs
    }

    /// A role step between these states on a role that the edge has.
    pub fn step_along(&self, seen: Role, before: State, after: State) -> Carried {
        let steps = self.file.collection.steps.iter().zip(&self.file.lines.steps);
        let fits = |(step, &line): (&Step, &usize)| match *step {
            Step::Role { from, role, to } if (from, to) == (before, after) => {
                self.orders.role_below(seen, role).then_some(Carried { from, role, to, line })
            }
            _ => None,
        };
        steps.into_iter().find_map(fits).expect("the edge can be walked")
    }

    fn by_marks(&self, (who, state): Place, walk: &Walk) -> Vec<(Place, Leg)> {
        let mut legs = Vec::new();
        for concept in marked(self.people.concepts[who.at()]).map(Concept) {
            let states = self.rounds.closed.loops(concept)[state.at()];
            for to in walk.new_states(who, states) {
                legs.push(((who, to), Leg::Loop(Mark { from: state, to, concept })));
            }
        }
        legs
    }
}

impl Walk {
    /// Those of the states in which the individual hasn't been reached yet.
    fn new_states(&self, who: Individual, states: u32) -> impl Iterator<Item = State> {
        marked((states & !self.seen[who.at()]).into()).map(State)
    }

    /// Keeps the leg when it is the first to lead there.
    fn note(&mut self, here: Place, there: Place, leg: Leg) -> Option<Place> {
        self.new_states(there.0, 1 << there.1 .0).next()?;
        self.seen[there.0.at()] |= 1 << there.1 .0;
        self.legs.insert(there, (here, leg));
        self.reached.push(there);
        Some(there)
    }

    /// The legs to the second individual in the first final state found there; None when there is no way.
    pub fn legs_to(&self, second: Individual, finals: &[State]) -> Option<Vec<(Place, Leg)>> {
        let end = self.reached.iter().find(|(who, state)| *who == second && finals.contains(state))?;
        Some(self.legs_from_start(*end))
    }

    /// Likewise to any individual.
    pub fn legs_to_any(&self, finals: &[State]) -> Option<Vec<(Place, Leg)>> {
        let end = self.reached.iter().find(|(_, state)| finals.contains(state))?;
        Some(self.legs_from_start(*end))
    }

    /// The legs to a place that was reached.
    pub fn legs_from_start(&self, mut at: Place) -> Vec<(Place, Leg)> {
        let mut legs = Vec::new();
        while at != self.start {
            let (before, leg) = self.legs[&at];
            legs.push((at, leg));
            at = before;
        }
        legs.reverse();
        legs
    }
}
