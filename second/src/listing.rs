//! The list of a closed sheet (docs/RULES.md, section 12): every mark with the round in which it first stands. All marks are
//! collected round by round, and then sorted.

use crate::clash::contradiction;
use crate::collection::Collection;
use crate::copy;
use crate::desk::read::read;
use crate::desk::{fault_line, written};
use crate::order::Orders;
use crate::people::People;
use crate::sheet::{Mark, Rules};

/// Entries are in order by their rounds first, and marks by their states and then their concepts.
#[derive(Clone, Copy, Debug, PartialEq, Eq, PartialOrd, Ord)]
pub struct Entry {
    pub round: u32,
    pub mark: Mark,
}

impl Entry {
    /// The bytes of its frame.
    pub fn frame(&self) -> Vec<u8> {
        let Mark { from, to, concept } = self.mark;
        [&[0x10], &self.round.to_be_bytes()[..], &[from.0, to.0, concept.0]].concat()
    }
}

/// The list of a collection's closed sheet, whatever rounds are allowed; None in a contradiction.
pub fn listing(collection: &Collection) -> Option<Vec<Entry>> {
    let orders = Orders::of(collection);
    let people = People::of(collection, &orders);
    (!contradiction(collection, &orders, &people)).then(|| sheet_listing(collection, &orders))
}

fn sheet_listing(collection: &Collection, orders: &Orders) -> Vec<Entry> {
    let rules = Rules::of(collection, orders);
    let mut sheet = rules.round_zero();
    let mut entries: Vec<Entry> = sheet.marks().map(|mark| Entry { round: 0, mark }).collect();
    for round in 1.. {
        let next = rules.round(&sheet);
        if next == sheet {
            break;
        }
        entries.extend(next.marks_beyond(&sheet).map(|mark| Entry { round, mark }));
        sheet = next;
    }
    entries.sort();
    entries
}

/// The place of the first entry in which a list departs from the listing, or the place behind its last where it is short.
pub fn departure(list: &[Entry], listing: &[Entry]) -> Option<usize> {
    let differs = || list.iter().zip(listing).position(|(typed, listed)| typed != listed);
    (list != listing).then(|| differs().unwrap_or(list.len().min(listing.len())))
}

/// What the lister writes: the fair copy of a sound input and, where there is no contradiction, the list of its sheet; or the
/// desk's line of a faulty one.
pub fn list(input: &[u8]) -> Vec<u8> {
    match read(input) {
        Ok(file) => {
            let entries = listing(&file.collection).unwrap_or_default();
            let frames = copy::frames(&file).into_iter().chain(entries.iter().map(Entry::frame));
            frames.flat_map(|frame| written(&frame)).collect()
        }
        Err(fault) => fault_line(fault),
    }
}
