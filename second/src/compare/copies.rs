//! Part (j) of the comparison: the copyist against module `copy`. What it writes for a file, for the same collection typed otherwise,
//! for another collection and for its own copy; and what the desk answers to the copy.

use super::child::Words;
use super::damage::{damaged, spoilt, Damaged};
use super::deeds::{noted, NOTED};
use super::dice::Dice;
use super::expressions::{expressed, MOST_MARKS};
use super::generate::{broad, full, medium, small, Asked};
use super::long::long;
use super::outputs;
use super::parts::{writes, Difference, Outcome, MOST_SPOILT};
use super::retyped::{changed, frames, otherwise, repeated, whole, CHANGES, OTHERWISE};
use super::tally::Tally;
use super::text::{self, line};
use super::wide::{is_wide, joined, widened};
use crate::ask::Ask;
use crate::copy::copy;
use crate::desk::read::{lines, read, Fault, File};
use crate::desk::{desk, fault_line, written};
use crate::library::{sets, Call, Sets};
use std::collections::BTreeSet;

/// The programs of this part.
pub struct Programs {
    pub copyist: Words,
    pub desk: Words,
}

/// What a faulty file can be refused with.
pub const REFUSALS: [u8; 10] = [4, 5, 6, 8, 9, 10, 11, 12, 13, 14];

/// What a sound file can have.
const FILES: [&str; 15] = [
    NOTED[0],
    NOTED[1],
    "a record repeated",
    "one fact by 0000 and without a deed number",
    "the most role facts",
    "no fact",
    "no record",
    "an expression",
    "an expression of 17 to 32 states",
    "no 0C",
    "0C of two bytes",
    "0C of four bytes",
    "no ask",
    "asks of pairs and of one individual",
    "a contradiction",
];

/// A change that is none, as where a number in a record makes it a repeat.
const SAYS_THE_SAME: &str = "a change that says the same";

/// What must be met.
pub fn copies_met() -> Vec<&'static str> {
    [&FILES[..], &OTHERWISE[..], &CHANGES[..], &[SAYS_THE_SAME]].concat()
}

/// So often a sound file is changed.
const CHANGES_OF_A_FILE: usize = 2;

pub fn copies_part(programs: &Programs, mut dice: Dice, tally: &mut Tally) -> Outcome {
    let (input, made_for) = file(&mut dice, tally);
    let expected = copy(&input);
    if let Some(Damaged { at, number, .. }) = made_for {
        itself(&input, &fault_line(Fault { line: at, number }), &expected)?;
    }
    writes(&programs.copyist, &input, &expected)?;
    match read(&input) {
        Ok(file) => sound(programs, &mut dice, tally, (&input, &file, &expected)),
        Err(fault) => {
            tally.number(fault.number);
            tally.faulty_line(fault.line);
            itself(&input, &desk(&input), &expected)
        }
    }
}

/// The second program itself gives what it is to give.
pub fn itself(input: &[u8], expected: &[u8], found: &[u8]) -> Outcome {
    if found == expected {
        return Ok(());
    }
    let text = |bytes: &[u8]| String::from_utf8_lossy(bytes).into_owned();
    let found = format!("the second program itself: {}", text(found));
    Err(Difference { input: input.to_vec(), expected: text(expected), found })
}

/// An input for the copyist, and for a faulty one what it was made for.
fn file(dice: &mut Dice, tally: &mut Tally) -> (Vec<u8>, Option<Damaged>) {
    type Make = fn(&mut Dice) -> Asked;
    let (kind, sound): (&str, Option<Make>) = match dice.below(1_000) {
        0..=379 => ("small", Some(small)),
        380..=469 => ("medium", Some(medium)),
        470..=534 => ("full", Some(full)),
        535..=544 => ("broad", Some(broad)),
        545..=549 => ("long", None),
        _ => ("damaged", None),
    };
    tally.kind(kind);
    let Some(make) = sound else {
        let damaged = if kind == "long" { long(dice) } else { damaged(dice) };
        return (text::input(dice, &damaged.lines), Some(damaged));
    };
    let mut asked = make(dice);
    // Half of the questions are expressions.
    for _ in 0..2 {
        asked = expressed(dice, asked, if kind == "small" { 6 } else { MOST_MARKS });
    }
    let asked = widened(dice, asked, 50);
    let mut asked = joined(dice, asked);
    bare(dice, &mut asked);
    let lines = text::lines(dice, &asked);
    let mut frames = frames(&lines.join(&b'\n'));
    if dice.percent(50) {
        repeated(dice, &mut frames);
    }
    (text::input(dice, &typed(&frames)), None)
}

/// Sometimes there is no fact, no ask or no record at all.
fn bare(dice: &mut Dice, asked: &mut Asked) {
    let collection = &mut asked.collection;
    match dice.below(20) {
        0 | 1 => {
            collection.concept_facts.clear();
            collection.role_facts.clear();
        }
        2 | 3 => asked.asks.clear(),
        4 | 5 => {
            *collection = crate::collection::Collection::empty(collection.counts);
            asked.expression = None;
        }
        _ => {}
    }
}

fn typed(frames: &[Vec<u8>]) -> Vec<Vec<u8>> {
    frames.iter().map(|frame| line(frame)).collect()
}

/// What a sound file has, of those of `FILES`.
fn met(file: &File, frames: &[Vec<u8>], answers: &[u8]) -> Vec<&'static str> {
    let collection = &file.collection;
    let records: Vec<&Vec<u8>> = frames.iter().filter(|frame| (2..=0x0A).contains(&frame[0])).collect();
    let once: BTreeSet<&Vec<u8>> = records.iter().copied().collect();
    let said: BTreeSet<Vec<u8>> = once.iter().map(|frame| whole(frame)).collect();
    let noted = noted(collection);
    let of = |kind: fn(&Ask) -> bool| file.asks.iter().any(kind);
    let rounds = frames.iter().find(|frame| frame[0] == 0x0C).map(Vec::len);
    let facts = collection.concept_facts.len() + collection.role_facts.len();
    let has = [
        noted.contains(&NOTED[0]),
        noted.contains(&NOTED[1]),
        once.len() < records.len(),
        said.len() < once.len(),
        collection.role_facts.len() == 4_096,
        facts == 0,
        records.is_empty() && file.expression.is_none(),
        file.expression.is_some(),
        file.expression.is_some() && is_wide(collection.counts.states.into()),
        rounds.is_none(),
        rounds == Some(3),
        rounds == Some(5),
        file.asks.is_empty(),
        of(|ask| matches!(ask, Ask::Pair(..))) && of(|ask| matches!(ask, Ask::From(_))),
        outputs::numbers(answers).contains(&2),
    ];
    FILES.into_iter().zip(has).filter(|(_, has)| *has).map(|(what, _)| what).collect()
}

/// What a file says, whatever its order, its repeats and its asks are.
pub fn said(file: &File) -> (Sets, Option<u32>) {
    (sets(&Call::of(&file.collection, 0)), file.allowance)
}

fn sound(
    programs: &Programs,
    dice: &mut Dice,
    tally: &mut Tally,
    (input, file, copied): (&[u8], &File, &[u8]),
) -> Outcome {
    let (frames, answers) = (frames(input), desk(input));
    met(file, &frames, &answers).into_iter().for_each(|what| tally.met(what));
    let fails = |what: &str| {
        let (expected, found) = (what.to_string(), String::from_utf8_lossy(copied).into_owned());
        Err(Difference { input: input.to_vec(), expected, found })
    };
    // All lines of a kind have one length, so the order of the copy is that of its lines as text.
    let lines: Vec<&[u8]> = lines(copied).collect();
    if !lines.windows(2).all(|pair| pair[0] < pair[1]) {
        return fails("lines that rise, each once");
    }
    match read(copied) {
        Ok(again) if again.asks.is_empty() && said(&again) == said(file) => {}
        _ => return fails("the same line 1, the same records and the same allowance, or none, and no ask"),
    }
    itself(copied, copied, &copy(copied))?;
    writes(&programs.copyist, copied, copied)?;
    let asks = file.asks.iter().flat_map(|ask| written(&ask.frame()));
    let with_asks: Vec<u8> = copied.iter().copied().chain(asks).collect();
    writes(&programs.desk, &with_asks, &answers)?;
    if input.len() < MOST_SPOILT {
        let (spoilt, line, number) = spoilt(dice, input);
        tally.number(number);
        let expected = fault_line(Fault { line, number });
        itself(&spoilt, &expected, &copy(&spoilt))?;
        writes(&programs.copyist, &spoilt, &expected)?;
    }
    let (what, other) = otherwise(dice, file, &frames);
    what.into_iter().for_each(|what| tally.met(what));
    let other = text::input(dice, &typed(&other));
    itself(&other, copied, &copy(&other))?;
    writes(&programs.copyist, &other, copied)?;
    for _ in 0..CHANGES_OF_A_FILE {
        another(programs, dice, tally, (&frames, file, copied))?;
    }
    Ok(())
}

/// With one change: another copy just where something else is said.
fn another(
    programs: &Programs,
    dice: &mut Dice,
    tally: &mut Tally,
    (frames, file, copied): (&[Vec<u8>], &File, &[u8]),
) -> Outcome {
    let Some((what, other)) = changed(dice, frames) else { return Ok(()) };
    let says_the_same = read(&other).is_ok_and(|other| said(&other) == said(file));
    let expected = copy(&other);
    if says_the_same != (expected == copied) {
        let found = String::from_utf8_lossy(&expected).into_owned();
        return Err(Difference {
            input: other,
            expected: format!("another copy, or the same: {what}"),
            found,
        });
    }
    tally.met(if says_the_same { SAYS_THE_SAME } else { what });
    writes(&programs.copyist, &other, &expected)
}
