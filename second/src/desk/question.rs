//! The frames of a file's question: steps and finals, or one expression in their place.

use super::frame::Frame;
use super::read::{put, File};
use crate::collection::Step;
use crate::expression::automaton::Automaton;
use crate::expression::{read, Letter};
use crate::numbers::State;

/// Role steps and test steps together.
pub const MOST_STEPS: usize = 1_024;

pub const MOST_FINALS: usize = 32;

/// A question typed as an expression, and its automaton.
pub struct Typed {
    pub marks: Vec<u8>,
    pub automaton: Automaton,
    pub line: usize,
}

/// A step or a final: 11 after an expression, then 5 and 6.
pub fn question(file: &mut File, frame: Frame, at: usize) -> Result<(), u8> {
    if file.expression.is_some() {
        return Err(11);
    }
    let (collection, lines) = (&mut file.collection, &mut file.lines);
    let counts = &collection.counts;
    let ends = |from: u8, to: u8| counts.state(from.into()).zip(counts.state(to.into()));
    let step = match frame {
        Frame::Final(state) => {
            let record = counts.state(state.into());
            return put(&mut collection.finals, &mut lines.finals, MOST_FINALS, at, record);
        }
        Frame::RoleStep { from, role, to } => {
            let read = ends(from, to).zip(counts.signed_role(role.into()));
            read.map(|((from, to), role)| Step::Role { from, role, to })
        }
        Frame::TestStep { from, name, to } => {
            let read = ends(from, to).zip(counts.name(name.into()));
            read.map(|((from, to), name)| Step::Test { from, name, to })
        }
        _ => unreachable!("only steps and finals come here"),
    };
    // Role steps and test steps stand in one table and share its room.
    put(&mut collection.steps, &mut lines.steps, MOST_STEPS, at, step)
}

/// An expression: 11, 6, 13, 12, 14.
pub fn expression(file: &mut File, marks: Vec<u8>, at: usize) -> Result<(), u8> {
    let (collection, lines) = (&mut file.collection, &mut file.lines);
    if file.expression.is_some() || !lines.steps.is_empty() || !lines.finals.is_empty() {
        return Err(11);
    }
    // Every role and test mark is looked at, whatever stands between them.
    let mut letters = marks.iter().filter_map(|mark| Letter::of(*mark));
    if letters.any(|letter| !letter.is_declared(&collection.counts)) {
        return Err(6);
    }
    if read::too_deep(&marks).is_some() {
        return Err(13);
    }
    let automaton = Automaton::of(&read::expression(&marks).map_err(|_| 12)?);
    if usize::from(collection.counts.states) != automaton.states() || collection.counts.start != State(0) {
        return Err(14);
    }
    collection.steps = automaton.as_steps();
    collection.finals = automaton.as_finals();
    lines.steps = vec![at; collection.steps.len()];
    lines.finals = vec![at; collection.finals.len()];
    file.expression = Some(Typed { marks, automaton, line: at });
    Ok(())
}
