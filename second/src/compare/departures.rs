//! Lists for the comparison: such as depart from the list of a sheet, and such as have a faulty line. Where they do is known from how
//! they were made.

use super::dice::Dice;
use super::text::line;
use crate::collection::Counts;
use crate::desk::read::{Fault, MOST_LISTED};
use crate::listing::Entry;
use crate::numbers::{Concept, State};
use crate::sheet::Mark;

/// How a list can depart.
pub const DEPARTURES: [&str; 7] = [
    "a list that is cut short",
    "an entry left out",
    "another mark in an entry",
    "another round in an entry",
    "two entries exchanged",
    "an entry more",
    "an entry twice",
];

/// A list that departs from this one.
pub struct Departing {
    pub what: &'static str,
    pub list: Vec<Entry>,
    /// The place of the first entry in which it does, or the one behind its last.
    pub place: usize,
}

/// One change in a list that is not empty, at this place or behind it. None where it can't be made there.
pub fn departing(dice: &mut Dice, counts: &Counts, right: &[Entry], least: usize) -> Option<Departing> {
    let which = dice.below(DEPARTURES.len());
    let mut list = right.to_vec();
    let last = list.len() - 1;
    let any = dice.between(least, last);
    let at = dice.pick(&[any, any, any, any, least, last]);
    let mut place = at;
    match which {
        // Of no entry at all there would be no list.
        0 if at > 0 => list.truncate(at),
        1 if at < last => drop(list.remove(at)),
        2 => list[at].mark = another_mark(dice, counts, list[at].mark)?,
        3 => list[at].round = another_round(dice, list[at].round),
        4 if at < last => {
            let later = dice.between(at + 1, last);
            list.swap(at, dice.pick(&[at + 1, later]));
        }
        5 => place = one_more(dice, counts, &mut list, at)?,
        6 => {
            place = dice.pick(&[at + 1, list.len()]);
            list.insert(place, list[at]);
        }
        _ => return None,
    }
    // With an entry more a full list has one too many.
    (list.len() <= MOST_LISTED).then_some(Departing { what: DEPARTURES[which], list, place })
}

/// One of the two states or the concept is another declared one, often a neighbour.
fn another_mark(dice: &mut Dice, counts: &Counts, mark: Mark) -> Option<Mark> {
    let states: Vec<State> = counts.all_states().collect();
    let concepts: Vec<Concept> = counts.all_concepts().collect();
    Some(match dice.below(3) {
        0 => Mark { from: another(dice, &states, mark.from)?, ..mark },
        1 => Mark { to: another(dice, &states, mark.to)?, ..mark },
        _ => Mark { concept: another(dice, &concepts, mark.concept)?, ..mark },
    })
}

fn another<T: Copy + PartialEq>(dice: &mut Dice, all: &[T], one: T) -> Option<T> {
    let at = all.iter().position(|known| *known == one)?;
    let near = [at.wrapping_sub(1), at + 1, dice.below(all.len())];
    let others: Vec<T> = near.iter().filter_map(|place| all.get(*place)).copied().collect();
    let others: Vec<T> = others.into_iter().filter(|other| *other != one).collect();
    (!others.is_empty()).then(|| dice.pick(&others))
}

/// One more or less, or another in any of its bits.
fn another_round(dice: &mut Dice, round: u32) -> u32 {
    let bit = 1 << dice.below(32);
    dice.pick(&[round.wrapping_add(1), round.wrapping_sub(1), round ^ bit])
}

/// An entry that isn't there, much like the one at this place: where it belongs in the order, at the end, or just here. Gives
/// where it was put.
fn one_more(dice: &mut Dice, counts: &Counts, list: &mut Vec<Entry>, at: usize) -> Option<usize> {
    let near = list[at];
    let mark = if dice.percent(40) { near.mark } else { another_mark(dice, counts, near.mark)? };
    let more = Entry { round: near.round + dice.below(3) as u32, mark };
    let in_order = list.binary_search(&more).err()?;
    let place = dice.pick(&[in_order, in_order, list.len(), at]);
    list.insert(place, more);
    Some(place)
}

/// What can be faulty in a file with a list.
pub const FAULTS: [&str; 6] = [
    "an entry that is not declared",
    "another frame behind an entry",
    "a list before the end of the collection",
    "an entry of another length",
    "an entry with a wrong character, or one more or less",
    "one entry too many",
];

/// A file with one faulty line.
pub struct Faulty {
    pub what: &'static str,
    pub lines: Vec<Vec<u8>>,
    pub fault: Fault,
}

/// The lines of a collection and of a list that is not empty, with a faulty one among those of the list or behind them.
pub fn faulty(dice: &mut Dice, counts: &Counts, before: &[Vec<u8>], list: &[Vec<u8>]) -> Faulty {
    let whole = dice.between(1, before.len());
    if dice.percent(18) && whole < before.len() {
        let lines = [&before[..whole], list, &before[whole..]].concat();
        let fault = Fault { line: whole + list.len() + 1, number: 11 };
        return Faulty { what: FAULTS[2], lines, fault };
    }
    let (which, number) =
        dice.pick(&[(0, 6), (0, 6), (1, 11), (1, 11), (3, 10), (3, 10), (4, 9), (4, 9), (4, 9)]);
    // Another frame is faulty only where one of the list stands before it.
    let place = dice.between(usize::from(number == 11), list.len());
    let bad = match number {
        6 => not_declared(dice, counts),
        11 => another_frame(dice, &before[0]),
        10 => of_another_length(dice),
        _ => misspelt(dice, &list[0]),
    };
    let lines = [before, &list[..place], &[bad], &list[place..]].concat();
    Faulty { what: FAULTS[which], lines, fault: Fault { line: before.len() + place + 1, number } }
}

/// As many entries as there may be, most of them one and the same, and one more or some, not declared or even so.
pub fn overfull(dice: &mut Dice, counts: &Counts, before: &[Vec<u8>], list: &[Vec<u8>]) -> Faulty {
    let again = &list[dice.below(list.len())];
    let one_more = if dice.percent(50) { again.clone() } else { not_declared(dice, counts) };
    let mut lines = [before, if dice.percent(50) { list } else { &[] }].concat();
    lines.resize(before.len() + MOST_LISTED, again.clone());
    lines.resize(lines.len() + dice.between(1, 3), one_more);
    Faulty { what: FAULTS[5], lines, fault: Fault { line: before.len() + MOST_LISTED + 1, number: 5 } }
}

/// A state or the concept is not declared, in any round.
fn not_declared(dice: &mut Dice, counts: &Counts) -> Vec<u8> {
    let over = |dice: &mut Dice, declared: u8| {
        let any = dice.between(declared.into(), 255) as u8;
        dice.pick(&[declared, any, 255])
    };
    let known: Vec<u8> = counts.all_concepts().map(|concept| concept.0).collect();
    let mut mark = [0, 0, dice.pick(&known)];
    match dice.below(4) {
        0 => mark[0] = over(dice, counts.states),
        1 => mark[1] = over(dice, counts.states),
        // Between the declared names and 64 there are basic concepts that aren't valid either.
        2 if counts.names < 64 => mark[2] = dice.pick(&[counts.names, 63]),
        _ => mark[2] = over(dice, 64 + 2 * counts.roles),
    }
    let round = dice.next() as u32 >> dice.pick(&[0, 16, 30]);
    line(&[&[0x10], &round.to_be_bytes()[..], &mark].concat())
}

/// A frame of another kind, sound but for its place, or with what would be refused later.
fn another_frame(dice: &mut Dice, line_1: &[u8]) -> Vec<u8> {
    let frames: [&[u8]; 17] = [
        line_1,
        b"020000",
        b"02FFFF",
        b"030001",
        b"040000",
        b"050001",
        b"060000",
        b"06FFFFFFFF",
        b"07000000",
        b"08000000",
        b"09FFFFFF",
        b"0A00",
        b"0B0000",
        b"0EFF",
        b"0C00000001",
        b"0D83",
        b"0F",
    ];
    dice.pick(&frames).to_vec()
}

fn of_another_length(dice: &mut Dice) -> Vec<u8> {
    let fields = dice.pick(&[0, 1, 5, 6, 8, 9, 31]);
    let mut bytes = vec![0x10];
    bytes.resize_with(1 + fields, || dice.below(2) as u8);
    line(&bytes)
}

fn misspelt(dice: &mut Dice, entry: &[u8]) -> Vec<u8> {
    let mut bad = entry.to_vec();
    match dice.below(4) {
        0 => drop(bad.pop()),
        1 => bad.push(b'0'),
        2 => bad.push(dice.pick(b"\r \0")),
        _ => bad[dice.below(entry.len())] = dice.pick(b"abcdefgG/:@` \r\0\xFF"),
    }
    bad
}
