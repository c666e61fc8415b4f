//! Questions of 17 to 32 states: their counts are written in four bytes, and their marks stand past those of 16 states.

use super::dice::Dice;
use super::generate::Asked;
use super::throw::throw_step;
use crate::collection::Step;
use crate::numbers::{State, FEW_STATES, MOST_STATES};

/// What is answered or refused with 17 to 32 states is counted for itself.
pub fn is_wide(states: u16) -> bool {
    (FEW_STATES + 1..=MOST_STATES).contains(&states)
}

/// A count of states that is wide; the ends more often than others.
pub fn wide_states(dice: &mut Dice) -> usize {
    let any = dice.between(usize::from(FEW_STATES) + 1, MOST_STATES.into());
    dice.pick(&[17, 31, 32, 32, any, any, any, any])
}

/// So often in a hundred the states are spread over 17 to 32, each to a place of its own; the answers stay what they were.
/// An expression's states are what its marks make them.
pub fn widened(dice: &mut Dice, mut asked: Asked, often: usize) -> Asked {
    let collection = &mut asked.collection;
    if asked.expression.is_some() || is_wide(collection.counts.states.into()) || !dice.percent(often) {
        return asked;
    }
    let states = wide_states(dice);
    let mut places: Vec<State> = (0..states as u8).map(State).collect();
    dice.shuffle(&mut places);
    let place = |state: State| places[state.at()];
    let counts = &mut collection.counts;
    counts.states = states as u8;
    counts.start = place(counts.start);
    for step in &mut collection.steps {
        *step = match *step {
            Step::Role { from, role, to } => Step::Role { from: place(from), role, to: place(to) },
            Step::Test { from, name, to } => Step::Test { from: place(from), name, to: place(to) },
        };
    }
    collection.finals.iter_mut().for_each(|last| *last = place(*last));
    asked
}

/// Some steps more among all states, where there are not many, so that those which were spread apart are joined again.
pub fn joined(dice: &mut Dice, mut asked: Asked) -> Asked {
    let collection = &mut asked.collection;
    let few = asked.expression.is_none() && collection.steps.len() < 100;
    if few && is_wide(collection.counts.states.into()) && dice.percent(50) {
        for _ in 0..dice.between(1, 12) {
            collection.steps.extend(throw_step(dice, &collection.counts));
        }
    }
    asked
}
