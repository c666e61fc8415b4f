//! Two collections for the library's call that compares them: the same tables, the same sets in other tables, sets with one change, and
//! collections that are refused.

use super::calls::{call_of, make_wild, pair_of, plant, some_wide, Asks, Lent};
use super::dice::Dice;
use super::generate::{full, medium, small};
use crate::area::AREA;
use crate::library::{Call, CONCEPT_FACTS, ROLE_FACTS, SHAPES};
use crate::numbers::{MOST_INDIVIDUALS, MOST_NAMES, MOST_ROLES, MOST_STATES};

/// What the call can be answered with.
pub const NUMBERS: [u8; 5] = [0, 1, 4, 5, 6];

/// What two collections can be.
pub const MET: [&str; 13] = [
    "the very same tables",
    "records in another order",
    "records repeated",
    CHANGES[0],
    CHANGES[1],
    CHANGES[2],
    CHANGES[3],
    CHANGES[4],
    CHANGES[5],
    "any values",
    "the first alone refused",
    "the second alone refused",
    "both refused, the second by a smaller number",
];

/// What can be changed, and both are no longer the same.
pub const CHANGES: [&str; 6] = [
    "another count",
    "another start",
    "a record less",
    "a record more",
    "another number in a record",
    "another deed number",
];

pub struct Twice {
    pub kind: &'static str,
    pub calls: [Call; 2],
    /// What one of them was changed in.
    pub changed: Option<&'static str>,
    /// What each was made to be refused with.
    pub planted: [Vec<u8>; 2],
}

pub fn twice(dice: &mut Dice) -> (Twice, Vec<&'static str>) {
    let asked = match dice.below(100) {
        0..=74 => small(dice),
        75..=92 => medium(dice),
        _ => full(dice),
    };
    let asked = some_wide(dice, asked);
    let (pair, one) = (pair_of(dice, &asked), call_of(dice, &asked));
    let mut other = one.clone();
    let mut met = Vec::from(if dice.percent(30) { &MET[..1] } else { &[] });
    if met.is_empty() {
        met = otherwise(dice, &mut other);
    }
    let mut twice = Twice { kind: "same", calls: [one, other], changed: None, planted: Default::default() };
    match dice.below(20) {
        0..=4 => {}
        5..=12 => {
            twice.kind = "changed";
            twice.changed = Some(change(dice, &mut twice.calls[1]));
            met = Vec::new();
        }
        13..=18 => {
            twice.kind = "damaged";
            let which = dice.pick(&[0, 1, 2, 2]);
            for at in (0..2).filter(|at| which == 2 || which == *at) {
                twice.planted[at] = damage(dice, &mut twice.calls[at], pair);
            }
            met = Vec::new();
        }
        _ => {
            twice.kind = "wild";
            let at = dice.below(2);
            let mut lent = lend(twice.calls[at].clone(), pair);
            make_wild(dice, &mut lent);
            twice.calls[at] = lent.call;
            met = vec!["any values"];
        }
    }
    if dice.percent(50) {
        twice.calls.reverse();
        twice.planted.reverse();
    }
    (twice, met)
}

/// The same sets in other tables.
fn otherwise(dice: &mut Dice, call: &mut Call) -> Vec<&'static str> {
    let before = call.tables.clone();
    let often = dice.pick(&[&[0][..], &[0, 0, 1, 3, 20]]);
    let mut met = Vec::new();
    for (table, (width, most)) in call.tables.iter_mut().zip(SHAPES) {
        let mut records: Vec<Vec<u16>> = table.chunks(width).map(<[u16]>::to_vec).collect();
        for _ in 0..dice.pick(often) {
            if !records.is_empty() && records.len() < most {
                records.push(records[dice.below(records.len())].clone());
                met.push(MET[2]);
            }
        }
        dice.shuffle(&mut records);
        *table = records.concat();
    }
    met.dedup();
    if call.tables != before && met.is_empty() {
        met.push(MET[1]);
    }
    met
}

/// The most of each count.
const MOST: [u16; 4] = [MOST_NAMES, MOST_ROLES, MOST_INDIVIDUALS, MOST_STATES];

/// One change; what is said then may still be the same, or be refused.
fn change(dice: &mut Dice, call: &mut Call) -> &'static str {
    let filled: Vec<usize> = (0..8).filter(|table| !call.tables[*table].is_empty()).collect();
    let facts: Vec<usize> =
        filled.iter().copied().filter(|table| matches!(*table, CONCEPT_FACTS | ROLE_FACTS)).collect();
    let which = dice.below(CHANGES.len());
    match which {
        0 => {
            let count = dice.below(MOST.len());
            let full = call.counts[count] == MOST[count];
            call.counts[count] = if full { MOST[count] - 1 } else { call.counts[count] + 1 };
        }
        2..=4 if !filled.is_empty() => {
            let table = dice.pick(&filled);
            let place = dice.below(SHAPES[table].0);
            change_record(dice, &mut call.tables[table], (table, place), CHANGES[which]);
        }
        5 if !facts.is_empty() => {
            let table = dice.pick(&facts);
            change_record(dice, &mut call.tables[table], (table, SHAPES[table].0 - 1), CHANGES[which]);
        }
        _ => {
            call.counts[4] = (call.counts[4] + 1) % call.counts[3];
            return CHANGES[1];
        }
    }
    CHANGES[which]
}

/// One of the table's records is left out, or stands there with another number in this place, too or in its place.
fn change_record(dice: &mut Dice, numbers: &mut Vec<u16>, (table, place): (usize, usize), what: &str) {
    let (width, most) = SHAPES[table];
    let records = numbers.len() / width;
    let at = width * dice.below(records);
    let record = numbers[at..at + width].to_vec();
    let mut other = record.clone();
    other[place] =
        dice.pick(&[record[place] ^ 1, record[place].wrapping_add(1), record[place].wrapping_sub(1)]);
    if what == CHANGES[2] {
        *numbers = numbers.chunks(width).filter(|one| **one != record).flatten().copied().collect();
    } else if what == CHANGES[3] && records < most {
        numbers.extend(other);
    } else {
        numbers[at..at + width].copy_from_slice(&other);
    }
}

/// One to three refusals that this call can give, of which it gives the first.
pub fn damage(dice: &mut Dice, call: &mut Call, pair: [u16; 2]) -> Vec<u8> {
    loop {
        let mut lent = lend(call.clone(), pair);
        plant(dice, &mut lent, &mut [4, 5, 6]);
        // No area is lent here, so that none can have another length.
        if lent.lengths == [AREA; 2] {
            *call = lent.call;
            return lent.planted;
        }
    }
}

pub fn lend(call: Call, pair: [u16; 2]) -> Lent {
    Lent { kind: "", call, asks: Asks::Pair(pair), lengths: [AREA; 2], fills: [0; 2], planted: Vec::new() }
}

/// Which of two collections are refused.
pub fn refused(twice: &Twice) -> Option<&'static str> {
    let [one, other] = [0, 1].map(|at| twice.planted[at].iter().min());
    match (one, other) {
        (Some(_), None) => Some(MET[10]),
        (None, Some(_)) => Some(MET[11]),
        (Some(one), Some(other)) if other < one => Some(MET[12]),
        _ => None,
    }
}
