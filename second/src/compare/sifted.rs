//! Calls that tell which facts salvage keeps: orders of the facts of both tables, and rows for their marks that are as long as they must
//! be, longer or too short.

use super::calls::{call_of, make_wild, pair_of};
use super::clashing::clashing;
use super::deeds::CHANGED;
use super::dice::Dice;
use super::parts::SELF_DEALING;
use super::protocol::MOST_KEPT;
use super::twice::{damage, lend};
use crate::library::{Call, CONCEPT_FACT, CONCEPT_FACTS, ROLE_FACT, ROLE_FACTS, SHAPES};

/// A call for which facts are kept: their order, how many places the row has, and the byte it is filled with beforehand.
pub struct Sifted {
    pub kind: &'static str,
    pub call: Call,
    pub order: Vec<u16>,
    pub room: usize,
    pub fill: u8,
    /// The refusals that the call was made for.
    pub planted: Vec<u8>,
}

/// What such a call can be answered with.
pub const NUMBERS: [u8; 4] = [0, 4, 5, 6];

/// What it can be, beside that.
pub const MET: [&str; 18] = [
    CHANGED,
    SELF_DEALING,
    "no fact",
    "no fact dropped",
    "some facts dropped, and some kept",
    "every fact dropped",
    "concept facts alone",
    "role facts alone",
    "concept facts, then role facts",
    "facts of both kinds mixed",
    "a place for each fact",
    "more places",
    "one place fewer",
    "no place",
    "an order of one fact less",
    "an order of one fact more",
    "an order with a fact of the other kind",
    "an order with another number",
];

/// A call, and what it is of those, whatever it is answered with.
pub fn sifted(dice: &mut Dice) -> (Sifted, Vec<&'static str>) {
    let (mut kind, asked) = clashing(dice);
    let (pair, mut call) = (pair_of(dice, &asked), call_of(dice, &asked));
    let mut planted = Vec::new();
    if dice.percent(25) {
        kind = "damaged";
        planted = damage(dice, &mut call, pair);
    }
    // A call that is damaged may have a fact more.
    let (mut order, mut met) = order_of(dice, &call);
    if planted.is_empty() && dice.percent(25) {
        met.push(spoil(dice, &mut order));
        planted.push(5);
    }
    let (room, place) = room_for(dice, order.len());
    met.push(place);
    if room < order.len() && !planted.contains(&5) {
        planted.push(5);
    }
    if dice.percent(6) {
        kind = "wild";
        let mut lent = lend(call, pair);
        make_wild(dice, &mut lent);
        call = lent.call;
        (planted, met) = (Vec::new(), Vec::new());
    }
    (Sifted { kind, call, order, room, fill: dice.below(256) as u8, planted }, met)
}

/// A number for each fact of the call.
fn order_of(dice: &mut Dice, call: &Call) -> (Vec<u16>, Vec<&'static str>) {
    let many = |table: usize| call.tables[table].len() / SHAPES[table].0;
    let concepts = vec![CONCEPT_FACT; many(CONCEPT_FACTS)];
    let roles = vec![ROLE_FACT; many(ROLE_FACTS)];
    let kinds = match (concepts.is_empty(), roles.is_empty()) {
        (true, true) => MET[2],
        (false, true) => MET[6],
        (true, false) => MET[7],
        (false, false) => MET[8],
    };
    let in_turn = [concepts, roles].concat();
    let mut order = in_turn.clone();
    if dice.percent(70) {
        dice.shuffle(&mut order);
    }
    let kinds = if order == in_turn { kinds } else { MET[9] };
    // A table may have far too many.
    order.truncate(MOST_KEPT - 1);
    let deals_with_itself =
        call.tables[ROLE_FACTS].chunks_exact(SHAPES[ROLE_FACTS].0).any(|fact| fact[1] == fact[2]);
    let met = [Some(kinds), deals_with_itself.then_some(SELF_DEALING)];
    (order, met.into_iter().flatten().collect())
}

/// Mostly as many places as there must be.
fn room_for(dice: &mut Dice, facts: usize) -> (usize, &'static str) {
    match dice.below(20) {
        0 if facts > 0 => (0, MET[13]),
        1 if facts > 0 => (facts - 1, MET[12]),
        2..=5 => (dice.between(facts + 1, MOST_KEPT), MET[11]),
        _ => (facts, MET[10]),
    }
}

/// The order no longer names each fact once.
fn spoil(dice: &mut Dice, order: &mut Vec<u16>) -> &'static str {
    let at = dice.below(order.len().max(1));
    let any = dice.between(2, 65_535) as u16;
    match dice.below(4) {
        0 if !order.is_empty() => {
            order.remove(at);
            MET[14]
        }
        1 if !order.is_empty() => {
            order[at] = CONCEPT_FACT + ROLE_FACT - order[at];
            MET[16]
        }
        2 if !order.is_empty() => {
            order[at] = dice.pick(&[2, 3, 0x0100, 0x0101, any]);
            MET[17]
        }
        _ => {
            order.insert(at, dice.pick(&[CONCEPT_FACT, ROLE_FACT, any]));
            MET[15]
        }
    }
}

/// What became of the facts, where the call is not refused.
pub fn of_marks(kept: &[bool]) -> Option<&'static str> {
    match (kept.contains(&true), kept.contains(&false)) {
        (false, false) => None,
        (true, false) => Some(MET[3]),
        (true, true) => Some(MET[4]),
        (false, true) => Some(MET[5]),
    }
}
