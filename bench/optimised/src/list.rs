//! The list that ends a file, held against the sheet as its rounds are worked: each mark of the sheet is to be the next entry.

use crate::bits::{Places, Relation, States};
use crate::order::{all_concepts, Orders};
use crate::read::File;

/// A round and a mark as one number; entries are in order by it.
#[inline(always)]
pub fn entry(round: u32, from: u8, to: u8, concept: u8) -> u64 {
    u64::from(round) << 24 | u64::from(from) << 16 | u64::from(to) << 8 | u64::from(concept)
}

pub struct Held<'a> {
    list: &'a [u64],
    /// The place of the next entry, or of the first that departs.
    place: usize,
    departs: bool,
    /// For each concept that is the lowest of its kind, all of the kind.
    kin: [u128; 128],
}

impl Held<'_> {
    /// With round 0: each state with itself, for each concept.
    pub fn of<'a>(file: &'a File, orders: &Orders) -> Held<'a> {
        let mut held = Held { list: &file.list, place: 0, departs: false, kin: [0; 128] };
        let concepts = all_concepts(file);
        for concept in Places(concepts) {
            held.kin[usize::from(orders.same[concept] & 127)] |= 1 << concept;
        }
        for state in 0..file.states {
            Places(concepts).for_each(|concept| held.next(entry(0, state, state, concept as u8)));
        }
        held
    }

    #[inline(always)]
    fn next(&mut self, entry: u64) {
        self.departs |= self.list.get(self.place) != Some(&entry);
        self.place += usize::from(!self.departs);
    }

    /// The marks that a round added for these concepts, each for all of its kind.
    #[inline(never)]
    pub fn round<S: States>(&mut self, round: u32, changed: u128, added: &[Relation<S>; 128]) {
        if self.departs {
            return;
        }
        let all = Places(changed).fold(Relation::EMPTY, |mut all: Relation<S>, concept| {
            all.join(&added[concept & 127]);
            all
        });
        for from in Places(all.starts()) {
            for to in Places(all.row(from)) {
                let has = |concept: &usize| added[concept & 127].row(from).has(to);
                let concepts =
                    Places(changed).filter(has).fold(0, |all, concept| all | self.kin[concept & 127]);
                Places(concepts)
                    .for_each(|concept| self.next(entry(round, from as u8, to as u8, concept as u8)));
            }
        }
    }

    /// The place of the first entry in which the list departs from the marks that were told, or the one behind its last.
    pub fn departure(&self) -> Option<usize> {
        (self.departs || self.place < self.list.len()).then_some(self.place)
    }
}
