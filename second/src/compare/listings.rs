//! Calls for the list of a sheet, and for where a list departs from it: rows that are as long as they must be, longer or too short, and
//! lists that are the sheet's, depart from it, or are refused.

use super::calls::{call_of, make_wild, pair_of, some_wide};
use super::deeds::CHANGED;
use super::departures::{departing, Departing, DEPARTURES};
use super::dice::Dice;
use super::generate::{broad, full, medium, small, Asked};
use super::protocol::MOST_LIST;
use super::throw::throw_exclusions;
use super::twice::{damage, lend};
use crate::collection::{Collection, Counts};
use crate::library::{entry_numbers, Call, LONGEST_LIST};
use crate::listing::{listing, Entry};

/// A call for the list of a sheet: for how many numbers the row has room, and the byte it is filled with beforehand.
pub struct Listed {
    pub kind: &'static str,
    pub call: Call,
    pub room: usize,
    pub fill: u8,
    /// The refusals that the call was made for.
    pub planted: Vec<u8>,
}

/// What such a call can be answered with.
pub const LISTED_NUMBERS: [u8; 5] = [0, 2, 4, 5, 6];

/// What it can be, beside that.
pub const LISTED_MET: [&str; 13] = [
    CHANGED,
    "no mark",
    "a list of round 0 alone",
    "a list of one round",
    "a list of 2 rounds or more",
    "a list of over 65,535 entries",
    "room for the longest list",
    "room for more",
    "short room: for none",
    "short room: for one number fewer",
    "short room: for this list",
    "short room, and a contradiction",
    "any values",
];

pub fn listed(dice: &mut Dice) -> (Listed, Vec<&'static str>) {
    let (kind, asked) = thrown(dice);
    let (pair, mut call) = (pair_of(dice, &asked), call_of(dice, &asked));
    let known = listing(&asked.collection);
    let needed = 4 * known.as_ref().map_or(0, Vec::len);
    let (mut planted, fill) = (Vec::new(), dice.below(256) as u8);
    let (room, mut met) = throw_room(dice, needed);
    match kind {
        "damaged" => planted = damage(dice, &mut call, pair),
        "wild" => {
            let mut lent = lend(call, pair);
            make_wild(dice, &mut lent);
            (call, met) = (lent.call, vec![LISTED_MET[12]]);
        }
        _ if room < LONGEST_LIST => met.extend(known.is_none().then_some(LISTED_MET[11])),
        _ => met.extend(known.as_deref().map(of_rounds)),
    }
    if kind != "wild" && room < LONGEST_LIST && !planted.contains(&5) {
        planted.push(5);
    }
    (Listed { kind, call, room, fill, planted }, met)
}

fn of_rounds(list: &[Entry]) -> &'static str {
    match list.last().map(|last| last.round) {
        None => LISTED_MET[1],
        _ if list.len() > 65_535 => LISTED_MET[5],
        Some(0) => LISTED_MET[2],
        Some(1) => LISTED_MET[3],
        Some(_) => LISTED_MET[4],
    }
}

fn thrown(dice: &mut Dice) -> (&'static str, Asked) {
    let (kind, mut asked) = match dice.below(100) {
        0..=5 => ("broad", broad(dice)),
        6..=7 => ("full", full(dice)),
        8..=14 => ("medium", medium(dice)),
        15..=18 => ("wild", small(dice)),
        19..=23 => ("no mark", nothing(dice)),
        24..=44 => ("damaged", small(dice)),
        _ => ("small", small(dice)),
    };
    if kind == "small" && dice.percent(25) {
        throw_exclusions(dice, &mut asked.collection, 3, 2);
    }
    (kind, some_wide(dice, asked))
}

/// Neither a name nor a role is declared.
fn nothing(dice: &mut Dice) -> Asked {
    let states = dice.between(1, 20);
    let counts = Counts::new(0, 0, 2, states as u16, 0).expect("counts in range");
    Asked { collection: Collection::empty(counts), asks: Vec::new(), allowance: None, expression: None }
}

/// Mostly as much as there must be; in one call of four it is too little, though it may be enough for this list.
fn throw_room(dice: &mut Dice, needed: usize) -> (usize, Vec<&'static str>) {
    let any = dice.below(LONGEST_LIST);
    let (room, what) = match dice.below(16) {
        0 => (0, 8),
        1 => (LONGEST_LIST - 1, 9),
        2 if needed > 0 && needed < LONGEST_LIST => (needed, 10),
        2 | 3 => return (any, Vec::new()),
        4..=7 => (dice.between(LONGEST_LIST + 1, MOST_LIST), 7),
        _ => (LONGEST_LIST, 6),
    };
    (room, vec![LISTED_MET[what]])
}

/// A call for where a list departs, four numbers for each of its entries.
pub struct Departs {
    pub kind: &'static str,
    pub call: Call,
    pub list: Vec<u32>,
    /// The refusals that the call was made for.
    pub planted: Vec<u8>,
}

/// What such a call can be answered with.
pub const DEPARTS_NUMBERS: [u8; 6] = [0, 2, 4, 5, 6, 15];

/// What its list can be beside departing.
const LISTS: [&str; 10] = [
    "the list of the sheet",
    "no entry",
    "a list in a contradiction",
    "a departure in a contradiction",
    "a list of over 65,535 entries",
    "a broken entry",
    "one entry too many",
    "an entry that is not declared",
    "a number above those of two bytes",
    "an entry that is not declared in a contradiction",
];

pub fn departs_met() -> Vec<&'static str> {
    [&[CHANGED], &LISTS[..], &DEPARTURES].concat()
}

/// A call, what it is of those, and where the list departs, when nothing else is told.
pub fn departs(dice: &mut Dice) -> (Departs, Vec<&'static str>, Option<usize>) {
    let (kind, asked) = thrown(dice);
    let (pair, mut call) = (pair_of(dice, &asked), call_of(dice, &asked));
    let known = listing(&asked.collection);
    let contradiction = known.is_none();
    let right = known.unwrap_or_else(|| without_exclusions(&asked.collection));
    let counts = &asked.collection.counts;
    let (list, mut place, mut met) = throw_list(dice, counts, right);
    met.extend(contradiction.then_some(LISTS[if place.is_some() { 3 } else { 2 }]));
    let mut list: Vec<u32> = list.iter().flat_map(entry_numbers).collect();
    let mut planted = Vec::new();
    match kind {
        "damaged" => planted = damage(dice, &mut call, pair),
        "wild" => {
            let often = dice.pick(&[1, 10]);
            list.iter_mut().for_each(|number| {
                if dice.percent(often) {
                    *number = dice.next() as u32 >> dice.pick(&[0, 16, 26, 30]);
                }
            });
            return (Departs { kind, call, list, planted }, Vec::new(), None);
        }
        _ => {}
    }
    if dice.percent(25) {
        let (what, number) = spoil(dice, counts, &mut list);
        met.push(what);
        met.extend((number == 6 && contradiction).then_some(LISTS[9]));
        planted.push(number);
    }
    if !planted.is_empty() || contradiction {
        place = None;
    }
    (Departs { kind, call, list, planted }, met, place)
}

fn without_exclusions(collection: &Collection) -> Vec<Entry> {
    let (concept_exclusions, role_exclusions) = (Vec::new(), Vec::new());
    let without = Collection { concept_exclusions, role_exclusions, ..collection.clone() };
    listing(&without).expect("without exclusions there is no contradiction")
}

fn throw_list(
    dice: &mut Dice,
    counts: &Counts,
    right: Vec<Entry>,
) -> (Vec<Entry>, Option<usize>, Vec<&'static str>) {
    let long = (right.len() > 65_535).then_some(LISTS[4]);
    let changed = dice.percent(60) && !right.is_empty();
    if changed && dice.percent(7) {
        return (Vec::new(), Some(0), vec![LISTS[1]]);
    }
    let departing = if changed { departing(dice, counts, &right, 0) } else { None };
    match departing {
        Some(Departing { what, list, place }) => {
            (list, Some(place), Vec::from_iter([what].into_iter().chain(long)))
        }
        None => (right, None, Vec::from_iter([LISTS[0]].into_iter().chain(long))),
    }
}

/// The list is refused with this number from now on.
fn spoil(dice: &mut Dice, counts: &Counts, list: &mut Vec<u32>) -> (&'static str, u8) {
    let entries = list.len() / 4;
    match dice.below(10) {
        0..=2 => {
            let length = 4 * entries + dice.between(1, 3);
            list.resize(length, 0);
            (LISTS[5], 5)
        }
        3 | 4 => {
            list.resize(LONGEST_LIST + 4, dice.pick(&[0, u32::MAX]));
            (LISTS[6], 5)
        }
        5..=7 if entries > 0 => {
            let at = 4 * dice.below(entries) + dice.between(1, 3);
            // In two bytes it would be the number that it was.
            list[at] += dice.between(1, 65_535) as u32 * 65_536;
            (LISTS[8], 6)
        }
        _ => {
            let (states, concepts) = (u32::from(counts.states), 64 + 2 * u32::from(counts.roles));
            let mut entry = [0, dice.below(states as usize) as u32, 0, 0];
            match dice.below(3) {
                0 => entry[1] = dice.pick(&[states, 255, 65_535]),
                1 => entry[2] = dice.pick(&[states, 255, 65_535]),
                // Between the declared names and 64 there are basic concepts that aren't valid either.
                _ if counts.names < 64 => entry[3] = dice.pick(&[counts.names.into(), 63, concepts, 65_535]),
                _ => entry[3] = dice.pick(&[concepts, 255, 65_535]),
            }
            let at = 4 * dice.below(entries + 1);
            list.splice(at..at, entry);
            list.truncate(LONGEST_LIST);
            (LISTS[7], 6)
        }
    }
}
