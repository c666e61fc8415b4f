//! Rows of pairs and of both kinds of ask for the library: of every length, with undeclared individuals in every place, and
//! with lengths and kinds that do not fit.

use super::calls::{call_of, make_stranger, make_wild, pair_of, plant, some_many_rounds, some_wide};
use super::calls::{Asks, Lent, Row};
use super::deeds::CHANGED;
use super::dice::Dice;
use super::generate::{full, medium, small, Asked};
use super::parts::SELF_DEALING;
use crate::area::AREA;
use crate::library::PAIRS;

/// What a row can be, beside the numbers it is answered with; 8 is an undeclared pair.
pub const MET: [&str; 17] = [
    SELF_DEALING,
    CHANGED,
    "no pair",
    "one pair",
    "2 to 255 pairs",
    "256 pairs",
    "half a pair",
    "over 256 pairs",
    "numbers too short",
    "numbers too long",
    "counts too short",
    "counts too long",
    "8 first",
    "8 between",
    "8 last",
    "8 last after a sheet",
    "8 throughout",
];

/// Likewise for a row of both kinds of ask.
pub const MIXED_MET: [&str; 18] = [
    SELF_DEALING,
    CHANGED,
    "no ask",
    "asks of one kind",
    "asks of both kinds",
    "256 asks",
    "a broken ask",
    "over 256 asks",
    "numbers too short",
    "numbers too long",
    "counts too short",
    "counts too long",
    "a kind above 1",
    "a kind above 1 in a row that does not fit",
    "an undeclared second that is not read",
    "8 for a pair",
    "8 for one individual",
    "8 between answers",
];

/// How many numbers an ask has in a row of pairs, and in one of both kinds.
const PAIR: usize = 2;
const ASK: usize = 3;

/// A row of pairs is asked.
pub fn row_lent(dice: &mut Dice) -> Lent {
    lent_for(dice, |dice, asked| Asks::Row(row_of(dice, asked)))
}

/// A row of both kinds of ask is asked.
pub fn mixed_lent(dice: &mut Dice) -> Lent {
    lent_for(dice, |dice, asked| Asks::Mixed(mixed_of(dice, asked)))
}

fn lent_for(dice: &mut Dice, asks: impl Fn(&mut Dice, &Asked) -> Asks) -> Lent {
    let (kind, asked) = match dice.below(1_000) {
        0..=509 => ("small", small(dice)),
        510..=569 => ("medium", medium(dice)),
        570..=579 => ("full", full(dice)),
        // few, since under an emulator each takes seconds
        580..=581 => ("many rounds", some_many_rounds(dice)),
        582..=619 => ("wild", small(dice)),
        _ => ("damaged", small(dice)),
    };
    let asked = some_wide(dice, asked);
    let fills = [dice.below(256) as u8, dice.below(256) as u8];
    let asks = asks(dice, &asked);
    let call = call_of(dice, &asked);
    let mut lent = Lent { kind, call, asks, lengths: [AREA; 2], fills, planted: Vec::new() };
    match kind {
        "wild" => make_wild(dice, &mut lent),
        "damaged" => plant(dice, &mut lent, &mut [4, 5, 6]),
        _ => {}
    }
    lent
}

fn row_of(dice: &mut Dice, asked: &Asked) -> Row {
    let pairs = pairs_of(dice, asked);
    let mut row = Row { entries: [pairs.len() / PAIR; 2], asked: pairs, fill: dice.below(256) as u8 };
    if dice.percent(25) {
        misfit(dice, &mut row, PAIR);
    }
    row
}

/// Each pair becomes an ask, some of them of its first individual alone.
fn mixed_of(dice: &mut Dice, asked: &Asked) -> Row {
    let pairs = pairs_of(dice, asked);
    let often = dice.pick(&[0, 20, 50, 50, 80, 100]);
    let ask = |pair: &[u16]| [u16::from(dice.percent(often)), pair[0], pair[1]];
    let asks: Vec<u16> = pairs.chunks_exact(PAIR).flat_map(ask).collect();
    let mut row = Row { entries: [asks.len() / ASK; 2], asked: asks, fill: dice.below(256) as u8 };
    let fits = dice.percent(75);
    if dice.percent(if fits { 8 } else { 30 }) {
        other_kind(dice, &mut row);
    }
    if !fits {
        misfit(dice, &mut row, ASK);
    }
    row
}

/// Some ask is of a kind above 1.
fn other_kind(dice: &mut Dice, row: &mut Row) {
    let kind = dice.pick(&[2, 2, 3, 256, u16::MAX]);
    let length = row.asked.len() / ASK;
    if length > 0 {
        row.asked[ASK * dice.below(length)] = kind;
    }
}

fn pairs_of(dice: &mut Dice, asked: &Asked) -> Vec<u16> {
    let length = match dice.below(100) {
        0..=7 => 0,
        8..=19 => 1,
        20..=79 => dice.between(2, 12),
        80..=87 => dice.between(13, PAIRS - 1),
        _ => PAIRS,
    };
    let mut pairs: Vec<u16> = (0..length).flat_map(|_| pair_of(dice, asked)).collect();
    make_strangers(dice, asked.collection.counts.individuals.into(), &mut pairs);
    pairs
}

/// Some pairs, all or none are no longer declared; the first and the last more often than those between.
fn make_strangers(dice: &mut Dice, individuals: u16, pairs: &mut [u16]) {
    let often = dice.pick(&[0, 0, 0, 10, 30, 100]);
    let last = (pairs.len() / 2).saturating_sub(1);
    for (k, pair) in pairs.chunks_exact_mut(2).enumerate() {
        let end = (k == 0 || k == last) && dice.percent(25);
        if end || dice.percent(often) {
            make_stranger(dice, individuals, pair);
        }
    }
}

/// A broken ask, too many asks, or more or fewer entries than asks, of so many numbers each.
fn misfit(dice: &mut Dice, row: &mut Row, width: usize) {
    let length = row.asked.len() / width;
    match dice.below(5) {
        0 => {
            row.asked.resize(row.asked.len() + dice.between(1, width - 1), 0);
            row.entries = [length + dice.below(2); 2];
        }
        1 => {
            let many = dice.pick(&[257, 257, 258, 300, 512, 1_000]);
            row.asked.resize(width * many, 0);
            row.entries = [dice.pick(&[many, many, PAIRS]); 2];
        }
        _ => {
            let shorter = length > 0 && dice.percent(50);
            let near = if shorter { length - 1 } else { length + 1 };
            let far = if shorter { dice.below(length) } else { length + dice.between(1, 600) };
            let other = dice.pick(&[near, far]);
            match dice.below(3) {
                0 => row.entries[0] = other,
                1 => row.entries[1] = other,
                _ => row.entries = [other; 2],
            }
        }
    }
}

/// What a row is, of those of `MET`; it is answered unless a length does not fit.
pub fn met(row: &Row, answers: Option<&[(u8, u32)]>) -> Vec<&'static str> {
    match answers {
        Some(answers) => met_answered(answers),
        None => met_refused(row),
    }
}

fn met_answered(answers: &[(u8, u32)]) -> Vec<&'static str> {
    let stranger = |answer: &(u8, u32)| answer.0 == 8;
    let between = answers.get(1..answers.len().saturating_sub(1)).unwrap_or_default();
    let last = answers.last().is_some_and(stranger);
    let length = match answers.len() {
        0 => "no pair",
        1 => "one pair",
        PAIRS => "256 pairs",
        _ => "2 to 255 pairs",
    };
    let strangers = [
        ("8 first", answers.first().is_some_and(stranger)),
        ("8 between", between.iter().any(stranger)),
        ("8 last", last),
        ("8 last after a sheet", last && answers.iter().any(|answer| matches!(answer.0, 0 | 1 | 3))),
        ("8 throughout", last && answers.iter().all(stranger)),
    ];
    let met = strangers.into_iter().filter(|(_, is_so)| *is_so).map(|(what, _)| what);
    std::iter::once(length).chain(met).collect()
}

fn met_refused(row: &Row) -> Vec<&'static str> {
    let whole = ("half a pair", row.asked.len() % PAIR == 1);
    let few = ("over 256 pairs", row.asked.len() / PAIR > PAIRS);
    so_of([whole, few].into_iter().chain(misfits(row, PAIR)))
}

/// Of how the entries do not fit, what is so.
fn misfits(row: &Row, width: usize) -> [(&'static str, bool); 4] {
    let length = row.asked.len() / width;
    let [numbers, counts] = row.entries;
    [
        ("numbers too short", numbers < length),
        ("numbers too long", numbers > length),
        ("counts too short", counts < length),
        ("counts too long", counts > length),
    ]
}

fn so_of(faults: impl Iterator<Item = (&'static str, bool)>) -> Vec<&'static str> {
    faults.filter(|(_, is_so)| *is_so).map(|(what, _)| what).collect()
}

/// What a row of both kinds of ask is, of those of `MIXED_MET`; it is answered unless a length or a kind does not fit.
pub fn mixed_met(row: &Row, individuals: u16, answers: Option<&[(u8, u32)]>) -> Vec<&'static str> {
    match answers {
        Some(answers) => mixed_answered(row, individuals, answers),
        None => mixed_refused(row),
    }
}

fn mixed_answered(row: &Row, individuals: u16, answers: &[(u8, u32)]) -> Vec<&'static str> {
    let asks: Vec<&[u16]> = row.asked.chunks_exact(ASK).collect();
    let ones = asks.iter().filter(|ask| ask[0] == 1).count();
    let refused = |kind: u16| asks.iter().zip(answers).any(|(ask, answer)| ask[0] == kind && answer.0 == 8);
    let unread = |(ask, answer): (&&[u16], &(u8, u32))| ask[0] == 1 && ask[2] >= individuals && answer.0 < 4;
    let around = |three: &[(u8, u32)]| three[1].0 == 8 && three[0].0 != 8 && three[2].0 != 8;
    let faults = [
        ("no ask", asks.is_empty()),
        ("asks of one kind", !asks.is_empty() && (ones == 0 || ones == asks.len())),
        ("asks of both kinds", ones > 0 && ones < asks.len()),
        ("256 asks", asks.len() == PAIRS),
        ("an undeclared second that is not read", asks.iter().zip(answers).any(unread)),
        ("8 for a pair", refused(0)),
        ("8 for one individual", refused(1)),
        ("8 between answers", answers.windows(3).any(around)),
    ];
    so_of(faults.into_iter())
}

fn mixed_refused(row: &Row) -> Vec<&'static str> {
    let whole = ("a broken ask", !row.asked.len().is_multiple_of(ASK));
    let few = ("over 256 asks", row.asked.len() / ASK > PAIRS);
    let lengths: Vec<_> = [whole, few].into_iter().chain(misfits(row, ASK)).collect();
    let fits = lengths.iter().all(|(_, is_so)| !is_so);
    let other = row.asked.chunks_exact(ASK).any(|ask| ask[0] > 1);
    let kinds =
        [("a kind above 1", other && fits), ("a kind above 1 in a row that does not fit", other && !fits)];
    so_of(lengths.into_iter().chain(kinds))
}
