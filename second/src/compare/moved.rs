//! Stored areas moved to the places of today, and areas of today moved back: of sheets, of any bytes, and of wrong lengths.

use super::calls::call_of;
use super::dice::Dice;
use super::generate::{broad, medium, small, Asked};
use super::protocol::MOST_AREA;
use super::wide::widened;
use crate::area::{holding, stored, AREA, STORED};
use crate::library::ask;
use crate::numbers::{Concept, State, FEW_STATES, MOST_STATES};
use crate::prepared::Prepared;
use crate::sheet::Mark;

/// What a call that moves an area can be answered with.
pub const NUMBERS: [u8; 3] = [0, 5, 6];

/// What such a call can be, beside the number it is answered with.
pub const MET: [&str; 16] = [
    "the stored area of a sheet",
    "the stored area of any bytes",
    "the stored area of one mark",
    "today's area of a sheet, moved back",
    "today's area of any marks of 16 states, moved back",
    "today's area of one mark, moved back",
    "no mark",
    "every mark of 16 states",
    "a sheet of more than 16 states",
    "one mark from a state above 15, to another",
    "one mark to a state above 15, from another",
    "one mark in states above 15",
    "a stored area of another length",
    "today's area of another length",
    "both areas of another length",
    "another length, and a state above 15",
];

pub struct Moved {
    pub kind: &'static str,
    /// From today's places to the stored ones.
    pub back: bool,
    /// The area that is moved.
    pub before: Vec<u8>,
    /// The length of the area that it is moved to, and the byte that fills it beforehand.
    pub after: usize,
    pub fill: u8,
}

pub fn moved(dice: &mut Dice) -> (Moved, Vec<&'static str>) {
    let back = dice.percent(60);
    let (mut met, before) = if back { today(dice) } else { before_today(dice) };
    let (from, to) = if back { (AREA, STORED) } else { (STORED, AREA) };
    let fill = dice.below(256) as u8;
    let mut moved = Moved { kind: if back { "back" } else { "from 16" }, back, before, after: to, fill };
    if moved.before.iter().all(|byte| *byte == 0) {
        met.push("no mark");
    }
    if dice.percent(30) {
        met = misfit(dice, &mut moved, from, to);
    }
    (moved, met)
}

/// A sheet that was worked by the library, as its marks.
fn sheet(dice: &mut Dice, wide: usize) -> (Asked, Vec<Mark>) {
    let make = dice.pick(&[small as fn(&mut Dice) -> Asked, small, medium, broad]);
    let asked = make(dice);
    let asked = widened(dice, asked, wide);
    let call = call_of(dice, &asked);
    let prepared = Prepared::of(&asked.collection, call.allowance);
    let marks: Vec<Mark> = prepared.sheet().map(|sheet| sheet.marks().collect()).unwrap_or_default();
    let (mut area, mut spare) = (vec![0; AREA], vec![0; AREA]);
    let (number, _) = ask(&call, [0, 0], &mut area, &mut spare);
    assert!(!matches!(number, 0 | 1 | 3) || area == holding(marks.iter().copied()), "the library's own area");
    (asked, marks)
}

fn few(mark: &Mark) -> bool {
    mark.from.0.max(mark.to.0) < FEW_STATES as u8
}

fn any_mark(dice: &mut Dice, states: u16) -> Mark {
    let state = |dice: &mut Dice| State(dice.below(states.into()) as u8);
    let (from, to) = (state(dice), state(dice));
    Mark { from, to, concept: Concept(dice.below(128) as u8) }
}

/// A stored area.
fn before_today(dice: &mut Dice) -> (Vec<&'static str>, Vec<u8>) {
    match dice.below(10) {
        0..=3 => match sheet(dice, 0) {
            (_, marks) if marks.iter().all(few) => (vec![MET[0]], stored(marks)),
            _ => (vec!["every mark of 16 states"], vec![0xFF; STORED]),
        },
        4 | 5 => (vec![MET[1]], (0..STORED).map(|_| dice.next() as u8).collect()),
        6 => (Vec::new(), vec![0; STORED]),
        7 => (vec![MET[7]], vec![0xFF; STORED]),
        _ => (vec![MET[2]], stored([any_mark(dice, FEW_STATES)])),
    }
}

/// An area of today.
fn today(dice: &mut Dice) -> (Vec<&'static str>, Vec<u8>) {
    match dice.below(16) {
        0..=2 => match sheet(dice, 0) {
            (_, marks) if marks.iter().all(few) => (vec![MET[3]], holding(marks)),
            (_, marks) => (vec![MET[8]], holding(marks)),
        },
        3 | 4 => {
            let (asked, marks) = sheet(dice, 100);
            let met = if asked.collection.counts.states > 16 && !marks.is_empty() {
                vec![MET[8]]
            } else {
                Vec::new()
            };
            (met, holding(marks))
        }
        5 | 6 => {
            let many = dice.between(2, 3_000);
            let marks: Vec<Mark> = (0..many).map(|_| any_mark(dice, FEW_STATES)).collect();
            (vec![MET[4]], holding(marks))
        }
        7 | 8 => (vec![MET[5]], holding([any_mark(dice, FEW_STATES)])),
        9 => (Vec::new(), vec![0; AREA]),
        10 => {
            let all = (0..16).flat_map(|from| (0..16).map(move |to| (State(from), State(to))));
            let marks = all.flat_map(|(from, to)| {
                (0..128).map(move |concept| Mark { from, to, concept: Concept(concept) })
            });
            (vec![MET[7]], holding(marks))
        }
        _ => past_16(dice),
    }
}

/// One mark of a state above 15, the first or the last or any; and none, or many, of 16 states beside it.
fn past_16(dice: &mut Dice) -> (Vec<&'static str>, Vec<u8>) {
    let any = dice.between(FEW_STATES.into(), usize::from(MOST_STATES) - 1) as u8;
    let above = |dice: &mut Dice| State(dice.pick(&[16, 31, any]));
    let mut mark = any_mark(dice, FEW_STATES);
    let met = match dice.below(3) {
        0 => {
            mark.from = above(dice);
            MET[9]
        }
        1 => {
            mark.to = above(dice);
            MET[10]
        }
        _ => {
            (mark.from, mark.to) = (above(dice), above(dice));
            MET[11]
        }
    };
    let others: Vec<Mark> = (0..dice.pick(&[0, 1, 500])).map(|_| any_mark(dice, FEW_STATES)).collect();
    (vec![met], holding(others.into_iter().chain([mark])))
}

/// One area or both are of another length.
fn misfit(dice: &mut Dice, moved: &mut Moved, from: usize, to: usize) -> Vec<&'static str> {
    let above = moved.back && crate::area::is_past_16(&moved.before);
    let other = |dice: &mut Dice, length: usize| {
        let any = dice.below(MOST_AREA + 1);
        loop {
            let other = dice.pick(&[0, 1, length - 1, length + 1, 2 * length, STORED, AREA, MOST_AREA, any]);
            if other != length {
                return other;
            }
        }
    };
    let which = if above { dice.pick(&[0, 1, 1, 1, 2]) } else { dice.below(3) };
    if which != 1 {
        let length = other(dice, from);
        let fill = dice.pick(&[0, 0xFF]);
        moved.before.resize(length, fill);
    }
    if which != 0 {
        moved.after = other(dice, to);
    }
    let (stored, today) = (MET[12], MET[13]);
    let mut met = match (which, moved.back) {
        (2, _) => vec![MET[14]],
        (0, true) | (1, false) => vec![today],
        _ => vec![stored],
    };
    met.extend((above && which == 1).then_some(MET[15]));
    met
}
