//! The sheet round by round, with the rule by which each mark came first.

use crate::collection::Step;
use crate::desk::read::File;
use crate::numbers::{Concept, Role, State};
use crate::order::{marked, Orders};
use crate::sheet::{Mark, Rules, Sheet};
use std::collections::HashMap;

/// A role step of the question with its line.
#[derive(Clone, Copy, Debug, PartialEq, Eq)]
pub struct Carried {
    pub from: State,
    pub role: Role,
    pub to: State,
    pub line: usize,
}

/// The rule by which a mark was added; the marks it reads stand in the round before.
#[derive(Clone, Copy, Debug, PartialEq, Eq)]
pub enum Reason {
    /// Rule 1: a test step on this name.
    Test { name: Concept, line: usize },
    /// Rule 2: (s, middle, B) and (middle, t, B).
    Composed { middle: State },
    /// Rule 3: down to the child by `role`, a loop there, and up again.
    Trip { role: Role, down: Carried, up: Carried },
}

pub struct Rounds {
    /// Entry n - 1 holds what round n added, sorted by from, to, concept.
    pub added: Vec<Vec<(Mark, Reason)>>,
    /// Each added mark's round and reason; those of round 0 aren't here.
    reasons: HashMap<Mark, (usize, Reason)>,
    pub closed: Sheet,
}

impl Rounds {
    pub fn of(file: &File) -> Rounds {
        let orders = Orders::of(&file.collection);
        let rules = Rules::of(&file.collection, &orders);
        let finder = Finder { file, orders: &orders };
        let mut rounds = Rounds { added: Vec::new(), reasons: HashMap::new(), closed: rules.round_zero() };
        loop {
            let next = rules.round(&rounds.closed);
            if next == rounds.closed {
                return rounds;
            }
            let mut marks: Vec<Mark> = next.marks_beyond(&rounds.closed).collect();
            marks.sort();
            let reason = |mark| (mark, finder.reason(&rounds.closed, mark));
            let added: Vec<(Mark, Reason)> = marks.into_iter().map(reason).collect();
            rounds.added.push(added);
            let number = rounds.added.len();
            let latest = &rounds.added[number - 1];
            rounds.reasons.extend(latest.iter().map(|&(mark, reason)| (mark, (number, reason))));
            rounds.closed = next;
        }
    }

    pub fn needed(&self) -> usize {
        self.added.len()
    }

    /// None for a mark of round 0.
    pub fn reason(&self, mark: Mark) -> Option<Reason> {
        self.reasons.get(&mark).map(|(_, reason)| *reason)
    }
}

struct Finder<'a> {
    file: &'a File,
    orders: &'a Orders,
}

impl Finder<'_> {
    /// The first rule that adds the mark, in the order of docs/RULES.md, section 6.
    fn reason(&self, before: &Sheet, mark: Mark) -> Reason {
        self.test(mark)
            .or_else(|| self.composed(before, mark))
            .or_else(|| self.trip(before, mark))
            .expect("a round adds a mark by one of the three rules")
    }

    fn test(&self, mark: Mark) -> Option<Reason> {
        let steps = self.file.collection.steps.iter().zip(&self.file.lines.steps);
        steps.into_iter().find_map(|(step, &line)| match *step {
            Step::Test { from, name, to } if (from, to) == (mark.from, mark.to) => {
                self.orders.concept_below(mark.concept, name).then_some(Reason::Test { name, line })
            }
            _ => None,
        })
    }

    fn composed(&self, before: &Sheet, mark: Mark) -> Option<Reason> {
        let loops = before.loops(mark.concept);
        let mut middles = marked(loops[mark.from.at()].into());
        let fits = middles.find(|&middle| loops[usize::from(middle)] >> mark.to.0 & 1 == 1);
        fits.map(|middle| Reason::Composed { middle: State(middle) })
    }

    fn trip(&self, before: &Sheet, mark: Mark) -> Option<Reason> {
        let children = marked(self.orders.concepts_above(mark.concept) >> 64).map(Role);
        for role in children {
            let inner = before.loops(role.inverse().neighbour());
            for down in self.role_steps().filter(|step| step.from == mark.from) {
                if !self.orders.role_below(role, down.role) {
                    continue;
                }
                let up = self.role_steps().find(|up| {
                    up.to == mark.to
                        && self.orders.role_below(role, up.role.inverse())
                        && inner[down.to.at()] >> up.from.0 & 1 == 1
                });
                if let Some(up) = up {
                    return Some(Reason::Trip { role, down, up });
                }
            }
        }
        None
    }

    fn role_steps(&self) -> impl Iterator<Item = Carried> + '_ {
        let steps = self.file.collection.steps.iter().zip(&self.file.lines.steps);
        steps.filter_map(|(step, &line)| match *step {
            Step::Role { from, role, to } => Some(Carried { from, role, to, line }),
            Step::Test { .. } => None,
        })
    }
}
