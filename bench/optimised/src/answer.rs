//! All asks of a file, in one of three ways: by parts, by levels, or by one pass over everything.

use crate::bits::{Places, Relation, States};
use crate::levels;
use crate::parts::Parts;
use crate::read::{File, Question, ANY};
use crate::walk::{Map, Reached, Walk};

/// A class of states up to this size is gone through for all firsts at once.
const SMALL_CLASS: u32 = 4;

/// Which asks are yes, in their order. `leaving` has the states in which a path leaves each individual for elements
/// below it, or ends.
pub fn answers<S: States>(
    file: &File,
    question: &Question<S>,
    map: &Map<S>,
    leaving: &[S; 256],
) -> Vec<bool> {
    let ends = |ask: (u8, u8), reached: &Reached<S>| match ask.1 {
        ANY => reached.iter().zip(leaving).fold(S::NONE, |all, (to, from)| all | *to & *from) != S::NONE,
        second => reached[usize::from(second)] & question.finals != S::NONE,
    };
    let states = closed(&map.all());
    let mut left = [false; 256];
    file.asks.iter().for_each(|ask| left[usize::from(ask.0)] = true);
    let mut parts = Parts::new(map, file.start);
    if states.row(usize::from(file.start)).has(usize::from(file.start)) {
        parts.tell(&mut left);
    }
    let told = |ask: &(u8, u8)| parts.reached(ask.0).map(|reached| ends(*ask, reached));
    if !left.contains(&true) {
        return file.asks.iter().map(|ask| told(ask).expect("told by its part")).collect();
    }
    if largest_class(&states, file.start) <= SMALL_CLASS {
        let marks = levels::marks(map, &states, &left, file.start);
        let from_one = levels::together(&marks, leaving);
        let from_all = |ask: &(u8, u8)| match ask.1 {
            ANY => levels::has(&from_one, ask.0),
            second => Places(question.finals)
                .any(|state| levels::has(&marks[levels::place::<S>(state, usize::from(second))], ask.0)),
        };
        return file.asks.iter().map(|ask| told(ask).unwrap_or_else(|| from_all(ask))).collect();
    }
    let mut walk = Walk::new(map);
    let mut walked = |ask: &(u8, u8)| ends(*ask, walk.from(ask.0, file.start));
    file.asks.iter().map(|ask| told(ask).unwrap_or_else(|| walked(ask))).collect()
}

/// From each state, the states that one step or more lead to.
fn closed<S: States>(steps: &Relation<S>) -> Relation<S> {
    let mut closed = *steps;
    for middle in 0..S::MOST {
        let rows = closed;
        closed.lead_on(&rows, middle, rows.row(middle));
    }
    closed
}

/// How many states the largest class has that the start leads to, or lies in.
fn largest_class<S: States>(states: &Relation<S>, start: u8) -> u32 {
    let from_start = states.row(usize::from(start)) | S::one(usize::from(start));
    let both = |state: usize| Places(states.row(state)).filter(|other| states.row(*other).has(state)).count();
    Places(from_start).map(|state| both(state) as u32).max().unwrap_or(0)
}
