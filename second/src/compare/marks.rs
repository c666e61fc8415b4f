//! Faulty files with expressions for the desk: each refusal of frame 0D, alone and before those that come after it.

use super::damage::Damaged;
use super::dice::Dice;
use super::expressions::{declared, throw_marks, with_expression, MANY_MARKS, MOST_BYTES};
use super::generate::{small, Asked};
use super::text::{self, line};
use crate::expression::{Letter, CLOSE, OPEN, OR, TIMES};
use crate::numbers::MOST_STATES;

/// A sound file whose question is an expression.
fn sound(dice: &mut Dice) -> Asked {
    loop {
        let asked = small(dice);
        let marks = if dice.percent(80) { MANY_MARKS } else { 1..=5 };
        let asked = with_expression(dice, asked, marks);
        if asked.expression.is_some() {
            return asked;
        }
    }
}

/// The most states.
const MOST: usize = MOST_STATES as usize;

pub fn damaged_expression(dice: &mut Dice) -> Damaged {
    match dice.pick(&[6, 11, 11, 12, 12, 12, 13, 13, 13, 14, 14, 14]) {
        6 => undeclared(dice),
        11 => met_again(dice),
        12 => no_expression(dice),
        13 => too_deep(dice),
        _ => other_states(dice),
    }
}

/// The file's lines with this row in place of its expression, for a number that is given at that line.
fn with_row(dice: &mut Dice, asked: Asked, row: &[u8], number: u8, also: Vec<u8>) -> Damaged {
    let mut lines = text::lines(dice, &asked);
    let at = lines.iter().position(|line| line.starts_with(b"0D")).expect("an expression") + 1;
    lines[at - 1] = frame(row);
    Damaged { lines, at, number, also }
}

fn frame(row: &[u8]) -> Vec<u8> {
    line(&[&[0x0D], row].concat())
}

/// A row that is no expression, and neither too deep nor with a mark that isn't declared.
pub fn bad_row(dice: &mut Dice, letters: &[u8]) -> Vec<u8> {
    let (few, many, deep) = (dice.between(1, 5), dice.between(16, 31), dice.below(4));
    let marks = dice.pick(&[few, few, many]);
    // With room for what is put in.
    let mut row = throw_marks(dice, letters, [marks, deep], MOST_BYTES - 3);
    let place = dice.below(row.len() + 1);
    let after = |row: &[u8], marks: &[u8]| row.iter().position(|mark| marks.contains(mark)).map(|at| at + 1);
    let (place, put) = match dice.below(9) {
        0 => return Vec::new(),
        1 => (place, vec![dice.pick(&[0x84, 0x84, 0x85, 0x90, 0xC0, 0xFE, 0xFF])]),
        2 => (place, vec![OPEN]),
        3 => (place, vec![CLOSE]),
        4 => (place, vec![OPEN, CLOSE]),
        5 => (0, vec![dice.pick(&[OR, TIMES])]),
        6 => (row.len(), vec![OR]),
        7 => (after(&row, &[OR, OPEN]).unwrap_or(0), vec![dice.pick(&[OR, TIMES])]),
        _ => match after(&row, &[TIMES]) {
            Some(place) => (place, vec![TIMES]),
            None => (row.len(), vec![TIMES, TIMES]),
        },
    };
    row.splice(place..place, put);
    row
}

fn no_expression(dice: &mut Dice) -> Damaged {
    let mut asked = sound(dice);
    let row = bad_row(dice, &declared(&asked.collection.counts));
    let also = if dice.percent(40) { miscount(dice, &mut asked, &row) } else { Vec::new() };
    with_row(dice, asked, &row, 12, also)
}

/// Declares other states than these marks need; then 14 stands too.
fn miscount(dice: &mut Dice, asked: &mut Asked, row: &[u8]) -> Vec<u8> {
    let needed = row.iter().filter(|mark| Letter::of(**mark).is_some()).count() + 1;
    let counts = &mut asked.collection.counts;
    if (2..=MOST).contains(&needed) && dice.percent(40) {
        counts.states = needed as u8;
        counts.start.0 = dice.between(1, needed - 1) as u8;
        return vec![14];
    }
    let near = [needed - 1, needed + 1, MOST, 17, 16, 1];
    let other = near.into_iter().filter(|states| (1..=MOST).contains(states) && *states != needed);
    let other: Vec<usize> = other.collect();
    counts.states = dice.pick(&other) as u8;
    counts.start.0 = dice.below(usize::from(counts.states)) as u8;
    vec![14]
}

fn other_states(dice: &mut Dice) -> Damaged {
    let mut asked = sound(dice);
    let letters = declared(&asked.collection.counts);
    let mut row = asked.expression.clone().expect("an expression");
    if dice.percent(25) {
        // Too many marks for any count of states.
        let any = dice.between(MOST, MOST_BYTES);
        let marks = dice.pick(&[MOST, any, any, MOST_BYTES]);
        row = (0..marks).map(|_| dice.pick(&letters)).collect();
    }
    miscount(dice, &mut asked, &row);
    with_row(dice, asked, &row, 14, Vec::new())
}

/// A row whose brackets pass 8; what else stands with it is added to the list.
pub fn deep_row(dice: &mut Dice, letters: &[u8], also: &mut Vec<u8>) -> Vec<u8> {
    let letter = dice.pick(letters);
    match dice.below(4) {
        // An expression but for its depth.
        0 => {
            let deep = dice.between(9, 14);
            [vec![OPEN; deep], vec![letter], vec![CLOSE; deep]].concat()
        }
        // Closed brackets count down below zero.
        1 => {
            also.push(12);
            let closed = dice.between(1, 8);
            [vec![CLOSE; closed], vec![OPEN; closed + 9], vec![letter]].concat()
        }
        // Other marks among the opened ones, and bytes above 83, count nothing.
        2 => {
            also.push(12);
            let opened = |dice: &mut Dice| {
                let other = dice.pick(&[0x84, 0xFF, OR, TIMES, letter]);
                if dice.percent(50) {
                    vec![other, OPEN]
                } else {
                    vec![OPEN]
                }
            };
            (0..9).flat_map(|_| opened(dice)).collect()
        }
        // Only the last mark is one too many.
        _ => {
            also.push(12);
            let pairs = dice.below(4);
            [[OPEN, letter, CLOSE].repeat(pairs), vec![OPEN; 9]].concat()
        }
    }
}

fn too_deep(dice: &mut Dice) -> Damaged {
    let mut asked = sound(dice);
    let mut also = Vec::new();
    let row = deep_row(dice, &declared(&asked.collection.counts), &mut also);
    if dice.percent(40) {
        also.extend(miscount(dice, &mut asked, &row));
    }
    with_row(dice, asked, &row, 13, also)
}

/// A mark that isn't declared; there are always some in a small collection.
fn stranger(dice: &mut Dice, asked: &Asked) -> u8 {
    let letters = declared(&asked.collection.counts);
    let others: Vec<u8> = (0..OPEN).filter(|mark| !letters.contains(mark)).collect();
    let counts = &asked.collection.counts;
    match dice.below(4) {
        0 => 2 * counts.roles,
        1 => 0x40 + counts.names,
        _ => dice.pick(&others),
    }
}

fn undeclared(dice: &mut Dice) -> Damaged {
    let mut asked = sound(dice);
    let mut also = Vec::new();
    let letters = declared(&asked.collection.counts);
    let mut row = match dice.below(3) {
        0 => asked.expression.clone().expect("an expression"),
        1 => deep_row(dice, &letters, &mut vec![]),
        _ => bad_row(dice, &letters),
    };
    if row.len() == MOST_BYTES {
        row.pop();
    }
    let place = dice.below(row.len() + 1);
    row.insert(place, stranger(dice, &asked));
    if let Err(number) = stands(&row) {
        also.push(number);
    }
    if dice.percent(40) {
        also.extend(miscount(dice, &mut asked, &row));
    }
    with_row(dice, asked, &row, 6, also)
}

/// 13 or 12, where one of them stands.
fn stands(row: &[u8]) -> Result<(), u8> {
    use crate::expression::read::{expression, too_deep};
    if too_deep(row).is_some() {
        return Err(13);
    }
    expression(row).map(|_| ()).map_err(|_| 12)
}

/// A second expression, or an expression and a step or final in one file: the later line.
fn met_again(dice: &mut Dice) -> Damaged {
    let mut asked = sound(dice);
    let letters = declared(&asked.collection.counts);
    let mut also = Vec::new();
    let later = match dice.below(4) {
        0 => frame(&asked.expression.clone().expect("an expression")),
        1 => {
            also.push(12);
            frame(&bad_row(dice, &letters))
        }
        2 => {
            also.push(13);
            frame(&deep_row(dice, &letters, &mut Vec::new()))
        }
        _ => {
            also.push(6);
            frame(&[stranger(dice, &asked)])
        }
    };
    if dice.percent(50) {
        return a_step_too(dice, asked, later);
    }
    let mut lines = text::lines(dice, &asked);
    let first = lines.iter().position(|line| line.starts_with(b"0D")).expect("an expression");
    let at = dice.between(first + 1, lines.len());
    lines.insert(at, later);
    // Sometimes the first expression gives way to a step or a final.
    if dice.percent(40) {
        lines[first] = line(&step_or_final(dice, &mut asked));
    }
    Damaged { lines, at: at + 1, number: 11, also }
}

/// A step or final that is declared.
fn step_or_final(dice: &mut Dice, asked: &mut Asked) -> Vec<u8> {
    let counts = &asked.collection.counts;
    match dice.below(3) {
        0 if counts.roles > 0 => vec![0x08, 0, 0, 0],
        1 if counts.names > 0 => vec![0x09, 0, 0, 0],
        _ => vec![0x0A, 0],
    }
}

/// A step or a final after an expression, declared or not.
fn a_step_too(dice: &mut Dice, mut asked: Asked, later: Vec<u8>) -> Damaged {
    let mut lines = text::lines(dice, &asked);
    let first = lines.iter().position(|line| line.starts_with(b"0D")).expect("an expression");
    let at = dice.between(first + 1, lines.len());
    let (bad, also) = if dice.percent(50) {
        (step_or_final(dice, &mut asked), Vec::new())
    } else {
        (dice.pick(&[&[0x08, 0xFF, 0, 0][..], &[0x09, 0, 0xFF, 0], &[0x0A, 0xFF]]).to_vec(), vec![6])
    };
    lines.insert(at, line(&bad));
    // What is faulty further down changes nothing.
    if dice.percent(30) {
        lines.push(later);
    }
    Damaged { lines, at: at + 1, number: 11, also }
}
