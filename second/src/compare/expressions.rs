//! Questions typed as expressions for the comparison, and whether an expression, its automaton and the model say the same.

use super::built_out::questioned;
use super::dice::Dice;
use super::generate::Asked;
use crate::collection::{Counts, Step};
use crate::desk::frame::MOST_OF_EXPRESSION;
use crate::expression::automaton::Automaton;
use crate::expression::words::{all_words, Derived};
use crate::expression::{read, Expression, Letter, CLOSE, OPEN, OR, TIMES};
use crate::model::{Answer, TooLarge};
use crate::numbers::{State, FEW_STATES, MOST_STATES};
use std::ops::RangeInclusive;

/// A frame 0D of 130 characters has so many bytes beside its kind.
pub const MOST_BYTES: usize = MOST_OF_EXPRESSION / 2 - 1;

/// So many role and test marks can stand in an accepted file.
pub const MOST_MARKS: usize = MOST_STATES as usize - 1;

/// All role and test marks that are declared.
pub fn declared(counts: &Counts) -> Vec<u8> {
    (0..OPEN).filter(|mark| Letter::of(*mark).is_some_and(|letter| letter.is_declared(counts))).collect()
}

/// Often enough puts an expression in place of the steps and finals; its states are then the declared ones.
pub fn expressed(dice: &mut Dice, asked: Asked, marks: usize) -> Asked {
    if dice.percent(30) {
        let marks = if dice.percent(40) { MANY_MARKS } else { 1..=marks };
        with_expression(dice, asked, marks)
    } else {
        asked
    }
}

/// So many role and test marks make 17 to 32 states.
pub const MANY_MARKS: RangeInclusive<usize> = FEW_STATES as usize..=MOST_MARKS;

/// Nothing is changed where neither a role nor a name is declared.
pub fn with_expression(dice: &mut Dice, mut asked: Asked, marks: RangeInclusive<usize>) -> Asked {
    let letters = declared(&asked.collection.counts);
    if !letters.is_empty() {
        let any = dice.between(*marks.start(), *marks.end());
        let marks = dice.pick(&[any, any, any, *marks.end()]);
        let deep = dice.pick(&[0, 1, 2, 3, 8]);
        let mut row = throw_marks(dice, &letters, [marks, deep], MOST_BYTES);
        if dice.percent(30) {
            stretch(dice, &mut row);
        }
        put(&mut asked, row);
    }
    asked
}

/// More items any number of times, until the row is as long as it may be or each of them is.
fn stretch(dice: &mut Dice, row: &mut Vec<u8>) {
    while row.len() < MOST_BYTES {
        let once = |at: &usize| {
            let item = row[*at] < OPEN || row[*at] == CLOSE;
            item && row.get(at + 1) != Some(&TIMES)
        };
        let places: Vec<usize> = (0..row.len()).filter(once).collect();
        if places.is_empty() {
            return;
        }
        row.insert(dice.pick(&places) + 1, TIMES);
    }
}

fn put(asked: &mut Asked, marks: Vec<u8>) {
    let automaton = Automaton::of(&read::expression(&marks).expect("it is thrown as one"));
    let collection = &mut asked.collection;
    collection.counts.states = automaton.states() as u8;
    collection.counts.start = State(0);
    collection.steps = automaton.as_steps();
    collection.finals = automaton.as_finals();
    asked.expression = Some(marks);
}

/// An expression over these letters, with exactly so many of them, brackets that stand at most so deep, and no more bytes
/// than the last number.
pub fn throw_marks(dice: &mut Dice, letters: &[u8], [marks, deep]: [usize; 2], most: usize) -> Vec<u8> {
    loop {
        let mut row = Vec::new();
        either(dice, letters, [marks, deep.min(3)], &mut row);
        wrap(dice, deep, most, &mut row);
        if row.len() <= most {
            return row;
        }
    }
}

/// Brackets around the whole, until they stand as deep as they may.
fn wrap(dice: &mut Dice, deep: usize, most: usize, row: &mut Vec<u8>) {
    while deep > 3 && row.len() < most - 2 && depth(row) < deep {
        row.insert(0, OPEN);
        row.push(CLOSE);
        if dice.percent(30) {
            row.push(TIMES);
        }
    }
}

/// How deep the brackets of an expression stand.
pub fn depth(row: &[u8]) -> usize {
    let mut open = 0;
    let opened = |mark: &u8| {
        open += usize::from(*mark == OPEN);
        open -= usize::from(*mark == CLOSE);
        open
    };
    row.iter().map(opened).max().unwrap_or(0)
}

/// So many parts of one or more each that make this sum.
fn shares(dice: &mut Dice, sum: usize, parts: usize) -> Vec<usize> {
    let mut shares = vec![1; parts];
    for _ in parts..sum {
        shares[dice.below(parts)] += 1;
    }
    shares
}

/// Sequences parted by "or", with so many role and test marks and room for brackets so deep.
fn either(dice: &mut Dice, letters: &[u8], [marks, deep]: [usize; 2], row: &mut Vec<u8>) {
    let sequences = dice.pick(&[1, 1, 1, 2, 2, 3]).min(marks);
    for (place, share) in shares(dice, marks, sequences).into_iter().enumerate() {
        if place > 0 {
            row.push(OR);
        }
        let items = dice.between(1, share.min(4));
        for share in shares(dice, share, items) {
            item(dice, letters, [share, deep], row);
        }
    }
}

fn item(dice: &mut Dice, letters: &[u8], [marks, deep]: [usize; 2], row: &mut Vec<u8>) {
    if deep > 0 && (marks > 1 || dice.percent(15)) {
        row.push(OPEN);
        either(dice, letters, [marks, deep - 1], row);
        row.push(CLOSE);
    } else {
        row.extend((0..marks).map(|_| dice.pick(letters)));
    }
    if dice.percent(35) {
        row.push(TIMES);
    }
}

/// Whether a file's expression, matched by derivatives, has the words of its automaton and the answers of the desk. The
/// error is what was expected and what was found.
pub fn agrees(marks: &[u8], asked: &Asked, answers: &[(u8, u32)]) -> Result<(), (String, String)> {
    let fails = |what: String| Err((what, "the automaton says something else".to_string()));
    let Ok(expression) = read::expression(marks) else { return fails("an expression".to_string()) };
    let automaton = Automaton::of(&expression);
    let letters: Vec<Letter> = expression.letters().into_iter().collect();
    let length = [0, 8, 6, 4, 4, 3, 3][letters.len().min(6)];
    let words = all_words(&letters, length);
    if let Some(word) = words.iter().find(|word| expression.has(word) != automaton.reads(word)) {
        return fails(format!("{word:?}, by derivatives"));
    }
    match derived_answers(&expression, asked) {
        Some(Ok(derived)) if !same(&derived, answers) => {
            fails(format!("the derivatives' question: {derived:?}"))
        }
        _ => Ok(()),
    }
}

/// What the model answers to the same question as another automaton, that of the derivatives; None where that is too large.
fn derived_answers(expression: &Expression, asked: &Asked) -> Option<Result<Vec<Answer>, TooLarge>> {
    let derived = Derived::of(expression, MOST_STATES.into())?;
    let mut other = asked.collection.clone();
    other.counts.states = derived.states as u8;
    let step = |&(from, letter, to): &(usize, Letter, usize)| {
        let (from, to) = (State(from as u8), State(to as u8));
        match letter {
            Letter::Role(role) => Step::Role { from, role, to },
            Letter::Test(name) => Step::Test { from, name, to },
        }
    };
    other.steps = derived.steps.iter().map(step).collect();
    other.finals = derived.finals.iter().map(|state| State(*state as u8)).collect();
    Some(questioned(&other, &asked.asks))
}

/// A spent allowance says nothing of the answer.
fn same(derived: &[Answer], answers: &[(u8, u32)]) -> bool {
    let agrees = |(derived, answer): (&Answer, &(u8, u32))| match derived {
        Answer::No => matches!(answer.0, 0 | 3),
        Answer::Yes => matches!(answer.0, 1 | 3),
        Answer::Contradiction => answer.0 == 2,
    };
    derived.len() == answers.len() && derived.iter().zip(answers).all(agrees)
}
