//! All firsts at once: for each state and individual, which firsts reach it. States are gone through in classes that
//! lead to each other, so that no step leads back to a class that was left.

use crate::bits::{Places, Relation, States};
use crate::walk::Map;

/// A set of individuals.
pub type Firsts = [u64; 4];

/// At each place the firsts that reach a state of an individual.
pub type Marks = [Firsts];

#[inline(always)]
pub fn place<S: States>(state: usize, individual: usize) -> usize {
    (state & (S::MOST - 1)) << 8 | individual & 255
}

#[inline(always)]
pub fn has(firsts: &Firsts, first: u8) -> bool {
    firsts[usize::from(first >> 6)] >> (first & 63) & 1 == 1
}

/// From these firsts in the start state. `states` has what one step or more lead to.
#[inline(never)]
pub fn marks<S: States>(map: &Map<S>, states: &Relation<S>, firsts: &[bool; 256], start: u8) -> Box<Marks> {
    let mut marks = vec![[0; 4]; S::MOST << 8].into_boxed_slice();
    // For each individual, the states with firsts that were not led on yet.
    let mut behind = [S::NONE; 256];
    for (first, _) in firsts.iter().enumerate().filter(|(_, asked)| **asked) {
        marks[place::<S>(usize::from(start), first)][first >> 6] |= 1 << (first & 63);
        behind[first] |= S::one(usize::from(start));
    }
    for class in classes(states) {
        let comes_back = Places(class).any(|state| states.row(state) & class != S::NONE);
        loop {
            let mut any = false;
            for here in 0..map.individuals() {
                let here_behind = behind[here & 255] & class;
                behind[here & 255] &= !class;
                any |= here_behind != S::NONE;
                for state in Places(here_behind) {
                    lead_on(map, (here, state), class, &mut marks, &mut behind);
                }
            }
            if !(any && comes_back) {
                break;
            }
        }
    }
    marks
}

/// Whoever reaches this state here reaches what one step leads to.
#[inline(always)]
fn lead_on<S: States>(
    map: &Map<S>,
    (here, state): (usize, usize),
    class: S,
    marks: &mut Marks,
    behind: &mut [S; 256],
) {
    let firsts = marks[place::<S>(state, here)];
    for (there, relation) in map.edges(here) {
        let ends = relation.row(state);
        if ends == S::NONE {
            continue;
        }
        behind[there] |= ends & !class;
        for end in Places(ends & !class) {
            join(&mut marks[place::<S>(end, there)], &firsts);
        }
        for end in Places(ends & class) {
            let all = &mut marks[place::<S>(end, there)];
            let before = *all;
            join(all, &firsts);
            behind[there] |= if *all == before { S::NONE } else { S::one(end) };
        }
    }
}

#[inline(always)]
fn join(all: &mut Firsts, more: &Firsts) {
    all.iter_mut().zip(more).for_each(|(all, more)| *all |= more);
}

/// The classes of states that lead to each other, each before those that it leads to.
fn classes<S: States>(states: &Relation<S>) -> Vec<S> {
    let leads_to = |state: usize| states.row(state) | S::one(state);
    let mut classes = Vec::with_capacity(S::MOST);
    // Who leads to another class leads to more states than it.
    for count in (1..=S::MOST as u32).rev() {
        let mut left = (0..S::MOST)
            .filter(|state| leads_to(*state).size() == count)
            .fold(S::NONE, |all, state| all | S::one(state));
        while left != S::NONE {
            let state = left.lowest();
            let class = Places(leads_to(state)).filter(|other| leads_to(*other).has(state));
            let class = class.fold(S::NONE, |all, other| all | S::one(other));
            classes.push(class);
            left &= !class;
        }
    }
    classes
}

/// The firsts that reach some individual in one of these states of it.
#[inline(never)]
pub fn together<S: States>(marks: &Marks, ends: &[S; 256]) -> Firsts {
    let mut together = [0; 4];
    for (there, states) in ends.iter().enumerate() {
        for state in Places(*states) {
            join(&mut together, &marks[place::<S>(state, there)]);
        }
    }
    together
}
