//! Deed numbers: thrown at random, and then changed throughout, which must change nothing.

use super::dice::Dice;
use super::text::line;
use crate::collection::Collection;
use crate::desk::frame::{frame, Frame};
use crate::desk::read::lines;
use crate::library::{Call, CONCEPT_FACTS, ROLE_FACTS, SHAPES};
use crate::numbers::Deed;

/// What a file that is answered can have.
pub const NOTED: [&str; 2] =
    ["facts with a deed number and without one", "two facts that differ only in the deed number"];

/// What is asked once more, and must be answered as before.
pub const CHANGED: &str = "once more with other deed numbers";
pub const LEFT_OUT: &str = "once more without deed numbers";
pub const MIXED: &str = "once more with some deed numbers changed and some left out";

/// Each number is possible; none noted, and both ends of a byte and of two, more often than others.
pub fn throw_deed(dice: &mut Dice) -> Deed {
    let any = dice.next() as u16;
    Deed(dice.pick(&[0, 0, 0, 1, 0xFF, 0x100, u16::MAX, any, any, any]))
}

fn another(dice: &mut Dice, deed: u16) -> u16 {
    deed.wrapping_add(dice.between(1, 65_535) as u16)
}

/// What a fact's frame has behind its other fields: where none is noted it may be left out.
pub fn written(dice: &mut Dice, deed: u16) -> Vec<u8> {
    if Deed(deed) == Deed::NONE_NOTED && dice.percent(60) {
        Vec::new()
    } else {
        deed.to_be_bytes().to_vec()
    }
}

/// Of those of `NOTED`.
pub fn noted(collection: &Collection) -> Vec<&'static str> {
    let none = collection.deeds().any(|deed| deed == Deed::NONE_NOTED);
    let names = collection.concept_facts.iter().map(|fact| ((fact.name, fact.who), fact.deed));
    let roles = collection.role_facts.iter().map(|fact| ((fact.role, fact.first, fact.second), fact.deed));
    let met = [none && collection.notes_a_deed(), by_two_deeds(names) || by_two_deeds(roles)];
    NOTED.into_iter().zip(met).filter(|(_, is_so)| *is_so).map(|(what, _)| what).collect()
}

/// Whether one meaning has two deed numbers.
fn by_two_deeds<T: Ord>(facts: impl Iterator<Item = (T, Deed)>) -> bool {
    let mut facts: Vec<(T, Deed)> = facts.collect();
    facts.sort();
    facts.windows(2).any(|pair| pair[0].0 == pair[1].0 && pair[0].1 != pair[1].1)
}

/// The same file but for the deed numbers of its facts, sound frames or not declared: each is another, or each is left out,
/// or some of both. None where it has no such frame.
pub fn renoted(dice: &mut Dice, input: &[u8]) -> Option<(&'static str, Vec<u8>)> {
    let (what, left_out) = dice.pick(&[(CHANGED, 0), (LEFT_OUT, 100), (MIXED, 50)]);
    let mut any = false;
    let mut other = |typed: &[u8]| {
        let (fields, deed) = match frame(typed) {
            Ok(Frame::ConceptFact { name, who, deed }) => (vec![0x06, name, who], deed),
            Ok(Frame::RoleFact { role, first, second, deed }) => (vec![0x07, role, first, second], deed),
            _ => return typed.to_vec(),
        };
        any = true;
        let behind = match dice.percent(left_out) {
            true => Vec::new(),
            false => another(dice, deed).to_be_bytes().to_vec(),
        };
        line(&[fields, behind].concat())
    };
    let mut whole = lines(input).map(&mut other).collect::<Vec<_>>().join(&b'\n');
    if input.ends_with(b"\n") {
        whole.push(b'\n');
    }
    any.then_some((what, whole))
}

/// The same call but for the deed numbers of its facts, each of which is another, whatever else is wrong. None where it has
/// no whole fact.
pub fn lent_with_others(dice: &mut Dice, call: &Call) -> Option<Call> {
    let mut call = call.clone();
    let mut any = false;
    for table in [CONCEPT_FACTS, ROLE_FACTS] {
        for record in call.tables[table].chunks_exact_mut(SHAPES[table].0) {
            let deed = record.last_mut().expect("a record has numbers");
            *deed = another(dice, *deed);
            any = true;
        }
    }
    any.then_some(call)
}
