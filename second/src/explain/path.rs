//! The path of an ask: the legs of its walk, with every mark in it unfolded into unnamed elements.

use super::noted::Noted;
use super::people::People;
use super::rounds::{Carried, Reason, Rounds};
use super::walk::Leg;
use crate::element::Element;
use crate::numbers::{Concept, State};
use crate::sheet::Mark;
use std::collections::HashMap;

/// How a path came to where it stands.
#[derive(Clone, Copy, Debug, PartialEq, Eq)]
pub enum Move {
    /// Along the role fact that is noted there, by the role step.
    Fact {
        step: Carried,
        noted: Noted,
    },
    Test {
        name: Concept,
        line: usize,
    },
    Down {
        step: Carried,
    },
    Up {
        step: Carried,
    },
}

#[derive(Clone, Debug)]
pub struct Stand {
    /// None for where the path begins.
    pub by: Option<Move>,
    pub element: Element,
    pub state: State,
    /// The typed fact that the step rests on; None for where the path begins.
    pub rests_on: Option<Noted>,
}

/// Where a path stands.
pub type Spot = (Element, State);

pub struct Path {
    pub stands: Vec<Stand>,
    /// Steps beyond those shown.
    pub more: u128,
}

/// What is still to be done while marks are unfolded.
enum Todo {
    Stand(Stand),
    Loop(Mark, Element),
}

/// Unfolds the legs of a walk, up to so many steps. A list of what is to be done stands in for recursion: a mark's
/// path can be thousands of roles deep.
pub fn unfold(rounds: &Rounds, people: &People, start: Spot, legs: &[(Spot, Leg)], most: usize) -> Path {
    let mut stands = vec![Stand { by: None, element: start.0, state: start.1, rests_on: None }];
    let mut todo: Vec<Todo> = legs.iter().rev().map(|(to, leg)| first_todo(to.clone(), *leg)).collect();
    while stands.len() <= most {
        match todo.pop() {
            None => return Path { stands, more: 0 },
            Some(Todo::Stand(mut stand)) => {
                let before = &stands.last().expect("the beginning").element;
                stand.rests_on = stand.by.map(|by| fact_behind(people, before, by, &stand.element));
                stands.push(stand);
            }
            Some(Todo::Loop(mark, element)) => unfold_mark(rounds, mark, element, &mut todo),
        }
    }
    let lengths = lengths(rounds);
    let left = |todo: &Todo| match todo {
        Todo::Stand(_) => 1,
        Todo::Loop(mark, _) => lengths.get(mark).copied().unwrap_or(0),
    };
    let more = todo.iter().fold(0u128, |sum, todo| sum.saturating_add(left(todo)));
    Path { stands, more }
}

fn first_todo((element, state): Spot, leg: Leg) -> Todo {
    match leg {
        Leg::Fact { step, noted } => stand(Move::Fact { step, noted }, element, state),
        Leg::Test { name, line } => stand(Move::Test { name, line }, element, state),
        Leg::Down { step } => stand(Move::Down { step }, element, state),
        Leg::Loop(mark) => Todo::Loop(mark, element),
    }
}

fn stand(by: Move, element: Element, state: State) -> Todo {
    Todo::Stand(Stand { by: Some(by), element, state, rests_on: None })
}

/// The fact that a step rests on. An unnamed element is there, with its concepts and with the edge to its parent, since the
/// individual has a neighbour by the first role of its row.
fn fact_behind(people: &People, before: &Element, by: Move, after: &Element) -> Noted {
    let has = &people[after.who.at()];
    let needed = match (before.row.first().or(after.row.first()), by) {
        (Some(first), _) => first.neighbour(),
        (None, Move::Fact { noted, .. }) => return noted,
        (None, Move::Test { name, .. }) => name,
        (None, Move::Down { .. } | Move::Up { .. }) => unreachable!("one end of such a step is unnamed"),
    };
    has[&needed].noted
}

fn unfold_mark(rounds: &Rounds, mark: Mark, element: Element, todo: &mut Vec<Todo>) {
    match rounds.reason(mark) {
        // A mark of round 0 is the empty path.
        None => {}
        Some(Reason::Test { name, line }) => todo.push(stand(Move::Test { name, line }, element, mark.to)),
        Some(Reason::Composed { middle }) => {
            let [first, second] = halves(mark, middle);
            todo.push(Todo::Loop(second, element.clone()));
            todo.push(Todo::Loop(first, element));
        }
        Some(Reason::Trip { role, down, up }) => {
            let child = element.child(role);
            let below = inner(&down, &up, role.inverse().neighbour());
            todo.push(stand(Move::Up { step: up }, element, up.to));
            todo.push(Todo::Loop(below, child.clone()));
            todo.push(stand(Move::Down { step: down }, child, down.to));
        }
    }
}

/// The two marks that rule 2 reads.
pub fn halves(mark: Mark, middle: State) -> [Mark; 2] {
    [Mark { to: middle, ..mark }, Mark { from: middle, ..mark }]
}

/// The mark that rule 3 reads: the loop below, between coming down and going up.
pub fn inner(down: &Carried, up: &Carried, concept: Concept) -> Mark {
    Mark { from: down.to, to: up.from, concept }
}

/// The steps of every mark's unfolded path, from the earliest round on; a mark of round 0 has none.
fn lengths(rounds: &Rounds) -> HashMap<Mark, u128> {
    let mut lengths: HashMap<Mark, u128> = HashMap::new();
    for (mark, reason) in rounds.added.iter().flatten() {
        let of = |mark: Mark| lengths.get(&mark).copied().unwrap_or(0);
        let steps = match reason {
            Reason::Test { .. } => 1,
            Reason::Composed { middle } => {
                let [first, second] = halves(*mark, *middle);
                of(first).saturating_add(of(second))
            }
            Reason::Trip { role, down, up } => {
                of(inner(down, up, role.inverse().neighbour())).saturating_add(2)
            }
        };
        lengths.insert(*mark, steps);
    }
    lengths
}
