//! Where a walk comes below the individuals: of each last signed role and state the element found first, with its leg.

use super::path::Spot;
use super::walk::{Ground, Leg, Place, Walk};
use crate::element::Element;
use crate::numbers::{Concept, Role, State};
use crate::order::marked;
use crate::sheet::Mark;
use std::collections::{BTreeMap, BTreeSet, HashSet};

pub struct Below<'a> {
    walk: &'a Walk,
    /// In the order found.
    pub found: Vec<Found>,
    seen: HashSet<(Role, State)>,
}

pub struct Found {
    pub spot: Spot,
    pub from: Before,
    pub leg: Leg,
}

/// Where a leg below begins: at an individual, or at what was found as that number.
#[derive(Clone, Copy)]
pub enum Before {
    Walked(Place),
    Found(usize),
}

impl<'a> Below<'a> {
    pub fn of(ground: &Ground, walk: &'a Walk) -> Below<'a> {
        let mut below = Below { walk, found: Vec::new(), seen: HashSet::new() };
        for place in &walk.reached {
            let has = ground.people.concepts[place.0.at()];
            let children = marked(has >> 64).map(Role);
            let spot = (Element::named(place.0), place.1);
            children.for_each(|role| below.down(ground, Before::Walked(*place), &spot, role));
        }
        let mut next = 0;
        while let Some(Found { spot, .. }) = below.found.get(next) {
            let spot = spot.clone();
            let last = *spot.0.row.last().expect("an unnamed element");
            let concept = last.inverse().neighbour();
            below.loops(ground, Before::Found(next), &spot, (last, concept));
            for role in ground.rules.children(concept) {
                below.down(ground, Before::Found(next), &spot, *role);
            }
            next += 1;
        }
        below
    }

    /// Down from there to the child by a role.
    fn down(&mut self, ground: &Ground, from: Before, (element, state): &Spot, role: Role) {
        for to in marked(ground.rules.along[role.at()][state.at()].into()).map(State) {
            let step = ground.step_along(role, *state, to);
            self.note(from, (element.child(role), to), role, Leg::Down { step });
        }
    }

    fn loops(
        &mut self,
        ground: &Ground,
        from: Before,
        (element, state): &Spot,
        (last, concept): (Role, Concept),
    ) {
        for to in marked(ground.rounds.closed.loops(concept)[state.at()].into()).map(State) {
            let mark = Mark { from: *state, to, concept };
            self.note(from, (element.clone(), to), last, Leg::Loop(mark));
        }
    }

    fn note(&mut self, from: Before, spot: Spot, last: Role, leg: Leg) {
        if self.seen.insert((last, spot.1)) {
            self.found.push(Found { spot, from, leg });
        }
    }

    /// The legs from the walk's start to the first element found in a final state; None when there is none.
    pub fn legs_to_any(&self, finals: &[State]) -> Option<Vec<(Spot, Leg)>> {
        let end = self.found.iter().position(|found| finals.contains(&found.spot.1))?;
        let mut legs = Vec::new();
        let mut at = Before::Found(end);
        while let Before::Found(place) = at {
            let Found { spot, from, leg } = &self.found[place];
            legs.push((spot.clone(), *leg));
            at = *from;
        }
        legs.reverse();
        let Before::Walked(place) = at else { unreachable!("the legs begin at an individual") };
        let walked = self.walk.legs_from_start(place).into_iter();
        Some(walked.map(|(place, leg)| (spot(place), leg)).chain(legs).collect())
    }
}

/// The states of these elements by the last signed role of their rows.
pub fn by_last_role(spots: &[Spot]) -> BTreeMap<Role, BTreeSet<State>> {
    let mut states: BTreeMap<Role, BTreeSet<State>> = BTreeMap::new();
    for (element, state) in spots {
        let last = element.row.last().expect("an unnamed element");
        states.entry(*last).or_default().insert(*state);
    }
    states
}

/// A place as a spot.
pub fn spot((who, state): Place) -> Spot {
    (Element::named(who), state)
}
