//! A collection written as the desk's lines, in any order after the first.

use super::deeds::written;
use super::dice::Dice;
use super::generate::Asked;
use crate::collection::Step;

/// The lines without their ends.
pub fn lines(dice: &mut Dice, asked: &Asked) -> Vec<Vec<u8>> {
    let collection = &asked.collection;
    let mut lines = Vec::new();
    for (left, right) in &collection.concept_rules {
        lines.push(line(&[0x02, left.0, right.0]));
    }
    for (left, right) in &collection.concept_exclusions {
        lines.push(line(&[0x03, left.0, right.0]));
    }
    for (left, right) in &collection.role_rules {
        lines.push(line(&[0x04, left.0, right.0]));
    }
    for (left, right) in &collection.role_exclusions {
        lines.push(line(&[0x05, left.0, right.0]));
    }
    for fact in &collection.concept_facts {
        let deed = written(dice, fact.deed.0);
        lines.push(line(&[&[0x06, fact.name.0, fact.who.0], &deed[..]].concat()));
    }
    for fact in &collection.role_facts {
        let deed = written(dice, fact.deed.0);
        lines.push(line(&[&[0x07, fact.role.0 / 2, fact.first.0, fact.second.0], &deed[..]].concat()));
    }
    lines.extend(question(asked));
    lines.extend(asked.asks.iter().map(|ask| line(&ask.frame())));
    lines.extend(asked.allowance.map(|rounds| line(&allowance(dice, rounds))));
    dice.shuffle(&mut lines);
    let counts = &collection.counts;
    lines
        .insert(0, line(&[1, counts.names, counts.roles, counts.individuals, counts.states, counts.start.0]));
    lines
}

/// The frame 0C: two bytes or four, where two can hold it.
pub fn allowance(dice: &mut Dice, rounds: u32) -> Vec<u8> {
    let bytes = rounds.to_be_bytes();
    let short = rounds <= u16::MAX.into() && dice.percent(50);
    [&[0x0C], &bytes[if short { 2 } else { 0 }..]].concat()
}

/// The steps and finals, or the expression that they are made of.
fn question(asked: &Asked) -> Vec<Vec<u8>> {
    if let Some(marks) = &asked.expression {
        return vec![line(&[&[0x0D], &marks[..]].concat())];
    }
    let step = |step: &Step| match *step {
        Step::Role { from, role, to } => line(&[0x08, from.0, role.0, to.0]),
        Step::Test { from, name, to } => line(&[0x09, from.0, name.0, to.0]),
    };
    let finals = asked.collection.finals.iter().map(|state| line(&[0x0A, state.0]));
    asked.collection.steps.iter().map(step).chain(finals).collect()
}

/// A frame's bytes as capital hexadecimal.
pub fn line(bytes: &[u8]) -> Vec<u8> {
    let mut line = crate::desk::written(bytes);
    line.pop();
    line
}

/// The whole input; a last line of one character or more may lack its end, and no line at all has none.
pub fn input(dice: &mut Dice, lines: &[Vec<u8>]) -> Vec<u8> {
    let mut whole = lines.join(&b'\n');
    let lacks_its_end = lines.last().is_none_or(|last| !last.is_empty() && dice.percent(30));
    if !lacks_its_end {
        whole.push(b'\n');
    }
    whole
}
