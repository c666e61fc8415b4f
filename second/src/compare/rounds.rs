//! Calls for how many marks each round makes: allowances about the rounds needed, and room for counts about the allowance.

use super::calls::{bad_area, call_of, make_wild, plant, some_wide, Asks, CountRow, Lent};
use super::deeds::CHANGED;
use super::dice::Dice;
use super::generate::{broad, full, many_rounds, medium, over_a_thousand, small, Asked};
use super::parts::SELF_DEALING;
use super::protocol::MOST_ROOM;
use super::throw::throw_exclusions;
use crate::area::AREA;
use crate::library::{marks, Call};

/// What such a call can be answered with.
pub const NUMBERS: [u8; 6] = [0, 2, 3, 4, 5, 6];

/// What such a call can be, beside the number it is answered with.
pub const MET: [&str; 27] = [
    SELF_DEALING,
    CHANGED,
    "made no round",
    "made one round",
    "made 2 to 1,000 rounds",
    "made over 1,000 rounds",
    "made a thousand marks or more in a round",
    "made over 65,535 marks in a round",
    "allowed none, and some needed",
    "allowed fewer than needed",
    "allowed one fewer than needed",
    "allowed as many as needed",
    "allowed one more than needed",
    "allowed more than needed",
    "allowed 65,535",
    "allowed 65,536 or more",
    "room for none, and none allowed",
    "room for as many as allowed",
    "room for one more than allowed",
    "room for over 65,535",
    "short room: for none",
    "short room: for one fewer than allowed",
    "short room: for as many as needed",
    "short room: for as many as two bytes of the allowance say",
    "more allowed than any row here has room for",
    "short room, and a contradiction",
    "an area of another length",
];

/// A round from this many marks on is met for itself.
const MANY_MARKS: u32 = 1_000;

/// And one of more than two bytes can tell.
const TWO_BYTES: usize = 65_535;

/// A call, and what it is of `MET`.
pub fn rounds_lent(dice: &mut Dice) -> (Lent, Vec<&'static str>) {
    let (kind, asked) = thrown(dice);
    let asked = some_wide(dice, asked);
    let fills = [dice.below(256) as u8, dice.below(256) as u8];
    let fill = dice.below(256) as u8;
    let asks = Asks::Rounds(CountRow { room: 0, fill });
    let call = call_of(dice, &asked);
    let mut lent = Lent { kind, call, asks, lengths: [AREA; 2], fills, planted: Vec::new() };
    if kind == "wild" {
        make_wild(dice, &mut lent);
    }
    let added = added_when_closed(&lent.call);
    let needed = match &added {
        Some(added) => added.len(),
        None => dice.below(6),
    };
    lent.call.allowance = throw_allowance(dice, needed);
    match kind {
        "damaged" => {
            // Alone, 6 is met more often.
            let mut numbers = dice.pick(&[[4, 5, 6], [4, 5, 6], [4, 5, 6], [6, 6, 6]]);
            plant(dice, &mut lent, &mut numbers);
        }
        "another area" => {
            bad_area(dice, &mut lent);
            lent.planted.push(5);
        }
        _ => {}
    }
    // Too little room hides other faults; that it hides a contradiction is to be met.
    let short = match (kind, &added) {
        ("damaged", _) => 5,
        (_, None) => 50,
        _ => 30,
    };
    let allowed = lent.call.allowance as usize;
    let room = throw_room(dice, short, allowed, needed);
    lent.asks = Asks::Rounds(CountRow { room, fill });
    let met = match &added {
        _ if !lent.planted.is_empty() => met_faults(&lent),
        // Wild values are refused for what nobody planted.
        None if kind == "wild" => return (lent, Vec::new()),
        _ if room < allowed => met_short(room, allowed, added.as_ref().map(Vec::len)),
        None => Vec::new(),
        Some(added) => met_answered(added, allowed, room),
    };
    if room < allowed && !lent.planted.contains(&5) {
        lent.planted.push(5);
    }
    (lent, met)
}

fn thrown(dice: &mut Dice) -> (&'static str, Asked) {
    match dice.below(1_000) {
        0..=179 => ("small", small(dice)),
        180..=269 => ("with exclusions", with_exclusions(dice)),
        270..=449 => ("some rounds", some_rounds(dice)),
        450..=489 => ("medium", medium(dice)),
        490..=499 => ("full", full(dice)),
        500..=599 => ("over a thousand rounds", over_a_thousand(dice)),
        600..=709 => ("broad", broad(dice)),
        710..=719 => ("wild", small(dice)),
        720..=754 => ("another area", small(dice)),
        _ => ("damaged", small(dice)),
    }
}

/// Most of these are contradictions.
fn with_exclusions(dice: &mut Dice) -> Asked {
    let mut asked = small(dice);
    throw_exclusions(dice, &mut asked.collection, 3, 2);
    asked
}

/// More than most small collections need, and fewer than a thousand.
fn some_rounds(dice: &mut Dice) -> Asked {
    let (down, up, ring) = (dice.between(1, 5), dice.between(1, 5), dice.between(1, 5));
    many_rounds(dice, down, up, ring)
}

/// How many marks each round needed adds; None where none is worked whatever is allowed.
fn added_when_closed(call: &Call) -> Option<Vec<u32>> {
    let call = Call { allowance: u32::MAX, ..call.clone() };
    marks(&call, usize::MAX, &mut [0; AREA], &mut [0; AREA]).1
}

/// About the rounds needed, which are 126,976 at most; or about what two bytes and four can tell.
fn throw_allowance(dice: &mut Dice, needed: usize) -> u32 {
    let allowed = match dice.below(20) {
        0 => 0,
        1 | 2 => needed.saturating_sub(1),
        3..=7 => dice.below(needed + 1),
        8 | 9 => needed,
        10 | 11 => needed + 1,
        12 | 13 => needed + dice.between(2, 300),
        14 => return dice.pick(&[u32::MAX, u32::MAX - 1, 1 << 31, MOST_ROOM as u32 + 1]),
        15 | 16 => TWO_BYTES + 1 + dice.below(needed + 2),
        17 | 18 => TWO_BYTES,
        _ => dice.pick(&[TWO_BYTES + 1, 126_976, MOST_ROOM]),
    };
    allowed as u32
}

/// About the rounds allowed; so often in a hundred it is for fewer, which is a fault.
fn throw_room(dice: &mut Dice, short: usize, allowed: usize, needed: usize) -> usize {
    if allowed > 0 && (allowed > MOST_ROOM || dice.percent(short)) {
        let one_fewer = (allowed - 1).min(MOST_ROOM);
        // Among them is room for what the allowance's last two bytes say, and for as many as are needed.
        let narrow = (allowed % (TWO_BYTES + 1)).min(one_fewer);
        let fewer = dice.below(one_fewer + 1);
        let last = if allowed > TWO_BYTES { narrow } else { one_fewer };
        return dice.pick(&[0, fewer, one_fewer, last, last, needed.min(one_fewer)]);
    }
    let more = allowed + dice.between(2, 300);
    // In two bytes the last three would be room for none, or for one too few.
    let many = dice.pick(&[65_535, 65_536, 65_536, 65_535 + allowed]).max(allowed);
    dice.pick(&[allowed, allowed, allowed, allowed + 1, more, many]).clamp(allowed, MOST_ROOM)
}

fn met_answered(added: &[u32], allowed: usize, room: usize) -> Vec<&'static str> {
    let needed = added.len();
    let made = needed.min(allowed);
    let rounds = match made {
        0 => "made no round",
        1 => "made one round",
        2..=1_000 => "made 2 to 1,000 rounds",
        _ => "made over 1,000 rounds",
    };
    let other = [
        ("made a thousand marks or more in a round", added[..made].iter().any(|marks| *marks >= MANY_MARKS)),
        ("made over 65,535 marks in a round", added[..made].iter().any(|marks| *marks as usize > TWO_BYTES)),
        ("allowed none, and some needed", allowed == 0 && needed > 0),
        ("allowed fewer than needed", allowed > 0 && allowed + 1 < needed),
        ("allowed one fewer than needed", allowed > 0 && allowed + 1 == needed),
        ("allowed as many as needed", allowed == needed),
        ("allowed one more than needed", allowed == needed + 1),
        ("allowed more than needed", allowed > needed + 1 && allowed < TWO_BYTES),
        ("allowed 65,535", allowed == TWO_BYTES),
        ("allowed 65,536 or more", allowed > TWO_BYTES),
        ("room for none, and none allowed", room == 0),
        ("room for as many as allowed", room > 0 && room == allowed),
        ("room for one more than allowed", room == allowed + 1),
        ("room for over 65,535", room > TWO_BYTES),
    ];
    std::iter::once(rounds).chain(those_that_are(other)).collect()
}

/// There are no needed rounds of a contradiction.
fn met_short(room: usize, allowed: usize, needed: Option<usize>) -> Vec<&'static str> {
    those_that_are([
        ("short room: for none", room == 0),
        ("short room: for one fewer than allowed", room + 1 == allowed),
        ("short room: for as many as needed", needed.is_some_and(|needed| room >= needed)),
        (
            "short room: for as many as two bytes of the allowance say",
            allowed > TWO_BYTES && room == allowed % (TWO_BYTES + 1),
        ),
        ("more allowed than any row here has room for", allowed > MOST_ROOM),
        ("short room, and a contradiction", needed.is_none()),
    ])
    .collect()
}

fn met_faults(lent: &Lent) -> Vec<&'static str> {
    let five = lent.planted.contains(&5) && !lent.planted.contains(&4);
    those_that_are([("an area of another length", five && lent.lengths != [AREA; 2])]).collect()
}

fn those_that_are<const N: usize>(all: [(&'static str, bool); N]) -> impl Iterator<Item = &'static str> {
    all.into_iter().filter(|(_, is_so)| *is_so).map(|(what, _)| what)
}
