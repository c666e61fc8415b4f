//! A sound file typed otherwise: other lines that say the same collection, and lines with one change, which mostly say another.
//! A file is here a row of frames, line 1's in front.

use super::dice::Dice;
use super::expressions::{depth, MOST_BYTES};
use crate::desk::question::{MOST_FINALS, MOST_STEPS};
use crate::desk::read::{read, File};
use crate::expression::read::MOST_OPEN;
use crate::expression::{Letter, CLOSE, OPEN, OR, TIMES};

/// What can be typed otherwise, and the copy is the same.
pub const OTHERWISE: [&str; 9] = [
    "frames in another order",
    "frames repeated",
    "a deed number left out before, and 0000 now",
    "a deed number of 0000 before, and left out now",
    "0C of two bytes before, and of four now",
    "0C of four bytes before, and of two now",
    "other asks",
    "steps and finals in place of an expression",
    "an expression in one bracket more",
];

/// What can be changed, and the copy is another.
pub const CHANGES: [&str; 8] = [
    "another line 1",
    "a record less",
    "a record more",
    "another number in a record",
    "another deed number",
    "another number of rounds",
    "0C less or more",
    "another expression",
];

/// The most frames of this one's kind, with those of the kinds that share their room.
fn most(kind: u8) -> usize {
    match kind {
        2 | 3 => 512,
        4 | 5 => 128,
        6 => 1_024,
        7 => 4_096,
        8 | 9 => MOST_STEPS,
        0x0A => MOST_FINALS,
        0x0B | 0x0E => 256,
        _ => 1,
    }
}

/// The kind whose room this one shares.
fn shares(kind: u8) -> u8 {
    match kind {
        9 => 8,
        0x0E => 0x0B,
        alone => alone,
    }
}

/// The frames of a sound input.
pub fn frames(input: &[u8]) -> Vec<Vec<u8>> {
    let digits = |line| crate::desk::frame::digits(line).expect("the input is sound");
    crate::desk::read::lines(input).map(digits).collect()
}

fn text(frames: &[Vec<u8>]) -> Vec<u8> {
    frames.iter().flat_map(|frame| crate::desk::written(frame)).collect()
}

/// Frames that say the same collection, and what is typed otherwise in them.
pub fn otherwise(dice: &mut Dice, file: &File, frames: &[Vec<u8>]) -> (Vec<&'static str>, Vec<Vec<u8>>) {
    let mut rest = frames[1..].to_vec();
    let mut met = Vec::from_iter(other_question(dice, file, &mut rest));
    met.extend(other_asks(dice, file, &mut rest));
    met.extend(repeated(dice, &mut rest));
    for frame in &mut rest {
        met.extend(of_another_length(dice, frame));
    }
    dice.shuffle(&mut rest);
    rest.insert(0, frames[0].clone());
    if rest.len() == frames.len() && rest != frames {
        met.push(OTHERWISE[0]);
    }
    met.sort();
    met.dedup();
    (met, rest)
}

/// The steps and finals of an expression, or one bracket more around it.
fn other_question(dice: &mut Dice, file: &File, frames: &mut Vec<Vec<u8>>) -> Option<&'static str> {
    let at = frames.iter().position(|frame| frame[0] == 0x0D)?;
    let marks = &frames[at][1..];
    let deeper = marks.len() + 2 <= MOST_BYTES && depth(marks) < MOST_OPEN as usize;
    match dice.below(5) {
        0 | 1 => {
            frames.remove(at);
            frames.extend(file.collection.steps.iter().map(crate::copy::step));
            frames.extend(file.collection.finals.iter().map(|state| vec![0x0A, state.0]));
            Some(OTHERWISE[7])
        }
        2 | 3 if deeper => {
            frames[at] = [&[0x0D, OPEN], marks, &[CLOSE]].concat();
            Some(OTHERWISE[8])
        }
        _ => None,
    }
}

/// No ask, or some more.
fn other_asks(dice: &mut Dice, file: &File, frames: &mut Vec<Vec<u8>>) -> Option<&'static str> {
    let before = frames.len();
    let people = file.collection.counts.individuals;
    let who = |dice: &mut Dice| dice.below(people.into()) as u8;
    match dice.below(4) {
        0 => frames.retain(|frame| shares(frame[0]) != 0x0B),
        1 if people > 0 && room(frames, 0x0B) > 1 => {
            frames.push(vec![0x0B, who(dice), who(dice)]);
            frames.push(vec![0x0E, who(dice)]);
        }
        _ => {}
    }
    (frames.len() != before).then_some(OTHERWISE[6])
}

fn room(frames: &[Vec<u8>], kind: u8) -> usize {
    most(kind) - frames.iter().filter(|frame| shares(frame[0]) == shares(kind)).count()
}

/// Some once more, where there is room.
pub fn repeated(dice: &mut Dice, frames: &mut Vec<Vec<u8>>) -> Option<&'static str> {
    let before = frames.len();
    for _ in 0..dice.pick(&[0, 2, 5, 20]) {
        let again = if before > 0 { frames[dice.below(frames.len())].clone() } else { return None };
        if room(frames, again[0]) > 0 {
            frames.push(again);
        }
    }
    (frames.len() > before).then_some(OTHERWISE[1])
}

/// A deed number of 0 typed or left out, an allowance of two bytes or four.
pub fn of_another_length(dice: &mut Dice, frame: &mut Vec<u8>) -> Option<&'static str> {
    let (kind, length) = (frame[0], frame.len());
    if dice.percent(50) {
        return None;
    }
    match (kind, length) {
        (6, 3) | (7, 4) => {
            frame.extend([0, 0]);
            Some(OTHERWISE[2])
        }
        (6, 5) | (7, 6) if frame.ends_with(&[0, 0]) => {
            frame.truncate(length - 2);
            Some(OTHERWISE[3])
        }
        (0x0C, 3) => {
            frame.splice(1..1, [0, 0]);
            Some(OTHERWISE[4])
        }
        (0x0C, 5) if frame[1..3] == [0, 0] => {
            frame.drain(1..3);
            Some(OTHERWISE[5])
        }
        _ => None,
    }
}

/// So often a change is tried until one is found that leaves the file sound.
const TRIES: usize = 40;

/// A sound input with one change. None where there is nothing to change, or no such change was found.
pub fn changed(dice: &mut Dice, frames: &[Vec<u8>]) -> Option<(&'static str, Vec<u8>)> {
    let which = dice.pick(&[0, 1, 2, 3, 4, 5, 5, 6, 7, 7, 7]);
    for _ in 0..TRIES {
        let mut other = frames.to_vec();
        let input = change(dice, which, &mut other).map(|()| text(&other))?;
        if read(&input).is_ok() {
            return Some((CHANGES[which], input));
        }
    }
    None
}

/// None where there is nothing to change so.
fn change(dice: &mut Dice, which: usize, frames: &mut Vec<Vec<u8>>) -> Option<()> {
    let rounds = frames.iter().position(|frame| frame[0] == 0x0C);
    match which {
        0 => other_byte(dice, &mut frames[0], 1),
        1 => {
            let less = pick(dice, frames, |kind| (2..=0x0A).contains(&kind))?;
            let less = whole(&frames[less]);
            frames.retain(|frame| whole(frame) != less);
        }
        2 => {
            let at = pick(dice, frames, |kind| (2..=0x0A).contains(&kind))?;
            let mut more = whole(&frames[at]);
            other_byte(dice, &mut more, 1);
            frames.push(more);
        }
        3 => {
            let at = pick(dice, frames, |kind| (2..=0x0A).contains(&kind))?;
            other_byte(dice, &mut frames[at], 1);
        }
        4 => {
            let at = pick(dice, frames, |kind| matches!(kind, 6 | 7))?;
            frames[at] = whole(&frames[at]);
            let deed = frames[at].len() - 2;
            other_byte(dice, &mut frames[at], deed);
        }
        5 => other_byte(dice, &mut frames[rounds?], 1),
        6 => match rounds {
            Some(at) => drop(frames.remove(at)),
            None => frames.push(vec![0x0C, dice.below(256) as u8, dice.below(256) as u8]),
        },
        _ => {
            let at = pick(dice, frames, |kind| kind == 0x0D)?;
            other_marks(dice, &mut frames[at]);
        }
    }
    Some(())
}

/// The place of one of the frames whose kind is such.
fn pick(dice: &mut Dice, frames: &[Vec<u8>], is_such: impl Fn(u8) -> bool) -> Option<usize> {
    let places: Vec<usize> = (0..frames.len()).filter(|at| is_such(frames[*at][0])).collect();
    (!places.is_empty()).then(|| dice.pick(&places))
}

/// The frame with its deed number.
pub fn whole(frame: &[u8]) -> Vec<u8> {
    let short = matches!((frame[0], frame.len()), (6, 3) | (7, 4));
    [frame, if short { &[0, 0] } else { &[][..] }].concat()
}

/// One of its bytes from this place on becomes another, often a neighbour.
fn other_byte(dice: &mut Dice, frame: &mut [u8], from: usize) {
    let at = dice.between(from, frame.len() - 1);
    let any = dice.between(1, 255) as u8;
    frame[at] = frame[at].wrapping_add(dice.pick(&[1, 1, 255, 255, any]));
}

/// Another letter, or an "or" or "any number of times" more or less; it may be no expression any more.
fn other_marks(dice: &mut Dice, frame: &mut Vec<u8>) {
    let at = dice.between(1, frame.len() - 1);
    match (dice.below(3), frame[at]) {
        (0, _) => frame.insert(at, dice.pick(&[OR, TIMES, TIMES])),
        (_, OR | TIMES) => drop(frame.remove(at)),
        (_, mark) if Letter::of(mark).is_some() => other_byte(dice, &mut frame[at..=at], 0),
        _ => {}
    }
}
