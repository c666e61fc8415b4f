//! Library calls for the comparison, for a pair and for one individual: sound ones, ones with several faults at once, and wild ones.

use super::dice::Dice;
use super::generate::{full, many_rounds, medium, small, Asked};
use super::protocol::MOST_AREA;
use super::wide::{joined, widened};
use crate::area::AREA;
use crate::ask::Ask;
use crate::library::{Call, CONCEPT_FACTS, ROLE_FACTS, SHAPES};
use crate::numbers::{Individual, MOST_STATES};

/// What is asked of a collection: a pair, one individual, a row of pairs, one of both kinds of ask, or how many marks each
/// round makes.
pub enum Asks {
    Pair([u16; 2]),
    From(u16),
    Row(Row),
    Mixed(Row),
    Rounds(CountRow),
}

pub struct Row {
    /// Two numbers for each pair, three for each ask of both kinds.
    pub asked: Vec<u16>,
    /// The entries lent for numbers and for counts, and the byte they are filled with beforehand.
    pub entries: [usize; 2],
    pub fill: u8,
}

/// A row that counts are put into: how many it has room for, and the byte it is filled with beforehand.
pub struct CountRow {
    pub room: usize,
    pub fill: u8,
}

impl Asks {
    fn numbers(&mut self) -> &mut [u16] {
        match self {
            Asks::Pair(pair) => pair,
            Asks::From(first) => std::slice::from_mut(first),
            Asks::Row(row) | Asks::Mixed(row) => &mut row.asked,
            Asks::Rounds(_) => &mut [],
        }
    }
}

pub struct Lent {
    pub kind: &'static str,
    pub call: Call,
    pub asks: Asks,
    /// The lengths of the two areas and the bytes they are filled with beforehand.
    pub lengths: [usize; 2],
    pub fills: [u8; 2],
    /// The refusals the call was made for; the library gives the first in its order.
    pub planted: Vec<u8>,
}

/// A pair is asked.
pub fn lent(dice: &mut Dice) -> Lent {
    lent_for(dice, |dice, asked| Asks::Pair(pair_of(dice, asked)))
}

/// One individual is asked.
pub fn from_lent(dice: &mut Dice) -> Lent {
    lent_for(dice, |dice, asked| Asks::From(pair_of(dice, asked)[0]))
}

fn lent_for(dice: &mut Dice, asks: impl Fn(&mut Dice, &Asked) -> Asks) -> Lent {
    let (kind, asked) = match dice.below(1_000) {
        0..=449 => ("small", small(dice)),
        450..=529 => ("medium", medium(dice)),
        530..=549 => ("full", full(dice)),
        // few, since under an emulator each takes seconds
        550..=551 => ("many rounds", some_many_rounds(dice)),
        552..=599 => ("wild", small(dice)),
        _ => ("damaged", small(dice)),
    };
    let asked = some_wide(dice, asked);
    let fills = [dice.below(256) as u8, dice.below(256) as u8];
    let asks = asks(dice, &asked);
    let call = call_of(dice, &asked);
    let mut lent = Lent { kind, call, asks, lengths: [AREA; 2], fills, planted: Vec::new() };
    match kind {
        "wild" => make_wild(dice, &mut lent),
        "damaged" => plant(dice, &mut lent, &mut [4, 5, 6, 8]),
        _ => {}
    }
    lent
}

/// Most of what is asked of the library has 17 to 32 states, or what its generator gave it.
pub fn some_wide(dice: &mut Dice, asked: Asked) -> Asked {
    let asked = widened(dice, asked, 62);
    joined(dice, asked)
}

/// The rings of states and of roles are chosen so that some need more than a thousand rounds, the longest 1,954.
pub fn some_many_rounds(dice: &mut Dice) -> Asked {
    let (down, up) =
        dice.pick(&[(7, 9), (9, 7), (5, 11), (7, 8), (3, 4), (6, 9), (4, 10), (16, 15), (13, 19), (15, 16)]);
    let ring = dice.pick(&[31, 31, 29, 17, 5, 1]);
    many_rounds(dice, down, up, ring)
}

pub fn pair_of(dice: &mut Dice, asked: &Asked) -> [u16; 2] {
    // Where there are no individuals, no pair can be asked without fault.
    let nobody = Ask::From(Individual(0));
    let ask = if asked.asks.is_empty() { nobody } else { dice.pick(&asked.asks) };
    let second = match ask {
        Ask::Pair(_, second) => second,
        Ask::From(first) => first,
    };
    [ask.first().0.into(), second.0.into()]
}

pub fn call_of(dice: &mut Dice, asked: &Asked) -> Call {
    let most = asked.collection.counts.most_rounds();
    let allowance = asked.allowance.unwrap_or(dice.pick(&[most, 0xFFFF, 0x1_0000, u32::MAX]));
    Call::of(&asked.collection, allowance)
}

/// One to three faults of different numbers out of these.
pub fn plant(dice: &mut Dice, lent: &mut Lent, numbers: &mut [u8]) {
    dice.shuffle(numbers);
    let mut chosen = numbers[..dice.pick(&[1, 1, 1, 2, 3])].to_vec();
    // Records first: a fault of shape would make it uncertain where the next record begins.
    chosen.sort_by_key(|number| [6, 8, 4, 5].iter().position(|planted| planted == number));
    for number in &chosen {
        match number {
            4 => bad_count(dice, &mut lent.call),
            5 => bad_shape(dice, lent),
            6 => undeclared(dice, &mut lent.call),
            _ => bad_pair(dice, lent),
        }
    }
    lent.planted = chosen;
}

/// A number that is at least this; the nearest, the farthest or any.
fn at_least(dice: &mut Dice, low: u16) -> u16 {
    match dice.below(4) {
        0 => low,
        1 => u16::MAX,
        2 => dice.between(usize::from(low), usize::from(low) + 300) as u16,
        _ => dice.between(usize::from(low), 65_535) as u16,
    }
}

fn bad_count(dice: &mut Dice, call: &mut Call) {
    match dice.below(6) {
        0 => call.counts[0] = at_least(dice, 65),
        1 => call.counts[1] = at_least(dice, 33),
        2 => call.counts[2] = at_least(dice, 256),
        3 => call.counts[3] = at_least(dice, MOST_STATES + 1),
        4 => call.counts[3] = 0,
        _ => call.counts[4] = at_least(dice, call.counts[3]),
    }
}

fn bad_shape(dice: &mut Dice, lent: &mut Lent) {
    let table = dice.below(8);
    let (width, most) = SHAPES[table];
    let numbers = &mut lent.call.tables[table];
    match dice.below(4) {
        0 if width > 1 => numbers.resize(numbers.len() + dice.between(1, width - 1), 0),
        1 => numbers.resize(width * (most + 1), 0),
        2 => numbers.resize(dice.between(width * most + 1, 65_535), 0),
        _ => bad_area(dice, lent),
    }
}

/// One of the areas has another length.
pub fn bad_area(dice: &mut Dice, lent: &mut Lent) {
    let length = dice.pick(&[0, 1, AREA / 2, AREA - 1, AREA + 1, 2 * AREA, MOST_AREA]);
    lent.lengths[dice.below(2)] = length;
}

/// The least number that isn't declared, for each place of a record.
fn first_undeclared(call: &Call, table: usize, record: &[u16], place: usize) -> u16 {
    let [names, roles, individuals, states, _] = call.counts;
    match (table, place) {
        (0 | 1, _) => 64 + 2 * roles,
        (2 | 3, _) => 2 * roles,
        (4, 0) => names,
        (5, 0) => roles,
        (4 | 5, _) => individuals,
        (6, 0) => 2,
        (6, 2) if record[0] == 0 => 2 * roles,
        (6, 2) => names,
        _ => states,
    }
}

fn undeclared(dice: &mut Dice, call: &mut Call) {
    let table = dice.below(8);
    let (width, most) = SHAPES[table];
    if call.tables[table].len() < width * most {
        call.tables[table].extend(vec![0; width]);
    }
    let records = call.tables[table].len() / width;
    let start = width * dice.below(records);
    // Any deed number, the last of a fact, is allowed.
    let place = dice.below(if matches!(table, CONCEPT_FACTS | ROLE_FACTS) { width - 1 } else { width });
    let record = &call.tables[table][start..start + width];
    let low = first_undeclared(call, table, record, place);
    let gap = table < 2 && call.counts[0] < 64 && dice.percent(30);
    // Between the declared names and 64 there are basic concepts that aren't valid either.
    call.tables[table][start + place] = if gap { call.counts[0] } else { at_least(dice, low) };
}

fn bad_pair(dice: &mut Dice, lent: &mut Lent) {
    let individuals = lent.call.counts[2];
    if let Asks::From(first) = &mut lent.asks {
        *first = at_least(dice, individuals);
        return;
    }
    for pair in lent.asks.numbers().chunks_exact_mut(2) {
        make_stranger(dice, individuals, pair);
    }
}

/// One end of the pair or both are no longer declared.
pub fn make_stranger(dice: &mut Dice, individuals: u16, pair: &mut [u16]) {
    let stranger = at_least(dice, individuals);
    match dice.below(3) {
        0 => pair[0] = stranger,
        1 => pair[1] = stranger,
        _ => pair.fill(stranger),
    }
}

/// Any value in any place, a few at a time, so that not every call is refused at once.
pub fn make_wild(dice: &mut Dice, lent: &mut Lent) {
    let often = dice.pick(&[1, 3, 10, 50]);
    let call = &mut lent.call;
    let tables = call.tables.iter_mut().flatten();
    let asked = lent.asks.numbers().iter_mut();
    if dice.percent(often) {
        call.allowance = dice.next() as u32 >> dice.pick(&[0, 8, 16, 24, 26, 28]);
    }
    for number in call.counts.iter_mut().chain(tables).chain(asked) {
        if dice.percent(often) {
            *number = dice.next() as u16 >> dice.pick(&[0, 8, 10, 12]);
        }
    }
}
