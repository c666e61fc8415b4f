//! Firsts that lead to each other are answered together: a walk on from one of them, and a walk back to it.

use crate::bits::{Relation, States};
use crate::walk::{turned, Map, Reached};

/// So many walks in a row may tell of nobody but their own first.
const MISSES: usize = 2;

pub struct Parts<'a, S: States> {
    map: &'a Map<S>,
    start: u8,
    /// For each relation, all states that it leads to.
    ends: Vec<S>,
    /// For each first that was told, the number of what it reaches.
    told: [Option<u16>; 256],
    reached: Vec<Reached<S>>,
}

impl<S: States> Parts<'_, S> {
    pub fn new(map: &Map<S>, start: u8) -> Parts<'_, S> {
        Parts { map, start, ends: Vec::new(), told: [None; 256], reached: Vec::new() }
    }

    pub fn reached(&self, first: u8) -> Option<&Reached<S>> {
        self.told[usize::from(first)].map(|number| &self.reached[usize::from(number)])
    }

    /// Takes from those that are left whoever it tells of.
    #[inline(never)]
    pub fn tell(&mut self, left: &mut [bool; 256]) {
        self.ends = self.map.relations().iter().map(Relation::ends).collect();
        let mut misses = 0;
        for first in 0..self.map.individuals() {
            if !left[first] {
                continue;
            }
            let (ahead, taken) = self.ahead(first);
            let back = self.leading_back(first, &ahead);
            let start = usize::from(self.start);
            let both = |other: &usize| (ahead[*other] & back[*other]).has(start);
            let mut told = 0;
            for other in (0..self.map.individuals()).filter(both) {
                self.told[other] = Some(self.reached.len() as u16);
                told += usize::from(left[other]);
                left[other] = false;
            }
            self.reached.push(ahead);
            misses = if told > 1 || taken { 0 } else { misses + 1 };
            if misses == MISSES {
                return;
            }
        }
    }

    /// What this first reaches, and whether it reaches one that was told before, and so all that one does.
    #[inline(never)]
    fn ahead(&self, first: usize) -> (Reached<S>, bool) {
        let (mut reached, mut behind) = ([S::NONE; 256], [S::NONE; 256]);
        let mut waiting = Vec::with_capacity(256);
        let mut taken = false;
        let start = S::one(usize::from(self.start));
        (reached[first], behind[first]) = (start, start);
        waiting.push(first as u8);
        while let Some(here) = waiting.pop() {
            let here = usize::from(here);
            let mut from = std::mem::replace(&mut behind[here], S::NONE);
            if from & start != S::NONE {
                if let Some(number) = self.told[here] {
                    let more = &self.reached[usize::from(number)];
                    reached.iter_mut().zip(more).for_each(|(all, more)| *all |= *more);
                    taken = true;
                    from &= !start;
                }
            }
            let lanes = lanes::<S>(from);
            for (there, relation) in self.map.numbered(here) {
                if self.ends[relation] & !reached[there] == S::NONE {
                    continue;
                }
                let new = image(&self.map.relations()[relation], &lanes) & !reached[there];
                if new != S::NONE {
                    if behind[there] == S::NONE {
                        waiting.push(there as u8);
                    }
                    reached[there] |= new;
                    behind[there] |= new;
                }
            }
        }
        (reached, taken)
    }

    /// Of these nodes the ones that lead to the first in its start state.
    #[inline(never)]
    fn leading_back(&self, first: usize, within: &Reached<S>) -> Reached<S> {
        let (mut back, mut behind) = ([S::NONE; 256], [S::NONE; 256]);
        let mut waiting = Vec::with_capacity(256);
        let start = S::one(usize::from(self.start));
        (back[first], behind[first]) = (start, start);
        waiting.push(first as u8);
        while let Some(here) = waiting.pop() {
            let here = usize::from(here);
            let ends = std::mem::replace(&mut behind[here], S::NONE);
            for (there, relation) in self.map.numbered(here) {
                let missing = within[there] & !back[there];
                if missing == S::NONE {
                    continue;
                }
                let new = self.map.relations()[turned(relation)].leading_to(ends) & missing;
                if new != S::NONE {
                    if behind[there] == S::NONE {
                        waiting.push(there as u8);
                    }
                    back[there] |= new;
                    behind[there] |= new;
                }
            }
        }
        back
    }
}

/// All ones for each state of a set.
#[inline(always)]
fn lanes<S: States>(states: S) -> S::Rows {
    let mut lanes = S::NO_ROWS;
    for (state, lane) in lanes.as_mut().iter_mut().enumerate() {
        *lane = if states.has(state) { S::ALL } else { S::NONE };
    }
    lanes
}

/// What the relation leads to from the states with all ones.
#[inline(always)]
fn image<S: States>(relation: &Relation<S>, lanes: &S::Rows) -> S {
    relation.rows().iter().zip(lanes.as_ref()).fold(S::NONE, |all, (row, lane)| all | *row & *lane)
}
