//! The parts of the comparison that run another program, each a case after the other.

use super::calls::{from_lent, lent, some_many_rounds, Asks, CountRow, Lent};
use super::child::{run_desk, Driver, Words};
use super::damage::{damaged, spoilt, Damaged};
use super::deeds::{lent_with_others, noted, renoted, CHANGED};
use super::dice::Dice;
use super::expressions::{self, expressed, MOST_MARKS};
use super::generate::{broad, full, medium, over_a_thousand, small, Asked};
use super::inputs;
use super::listings::{departs, listed, Departs, Listed};
use super::long::long;
use super::moved::moved;
use super::outputs;
use super::protocol;
use super::rounds::rounds_lent;
use super::rows::{met, mixed_lent, mixed_met, row_lent};
use super::salvages::with_choice;
use super::sifted::{self, sifted, Sifted};
use super::tally::Tally;
use super::text;
use super::twice::{self, twice};
use super::typed::{self, typed};
use super::wide::{is_wide, joined, widened};
use crate::collection::Collection;
use crate::desk::read::{read, Fault};
use crate::desk::{desk, fault_line};
use crate::library::{ask, ask_from, marks, role_and_test_marks, Call, SHAPES};
use std::collections::BTreeSet;

/// What differed, with the input that shows it.
pub struct Difference {
    pub input: Vec<u8>,
    pub expected: String,
    pub found: String,
}

pub type Outcome = Result<(), Difference>;

/// What each part must meet in collections that are answered.
pub const SELF_DEALING: &str = "a self-dealing fact";

/// And in a file without 0C, beside more rounds than a fixed allowance would do for.
pub const NONE_GIVEN: [&str; 2] =
    ["answers where no allowance is given", "more than 64 rounds where no allowance is given"];

pub fn has_equal_ends(collection: &Collection) -> bool {
    collection.role_facts.iter().any(|fact| fact.first == fact.second)
}

/// Whether what is lent has a role fact with equal ends.
fn deals_with_itself(lent: &Lent) -> bool {
    lent.call.tables[5].chunks_exact(SHAPES[5].0).any(|fact| fact[1] == fact[2])
}

/// An input for the desk, and for a faulty one what it was made for.
fn desk_case(dice: &mut Dice, tally: &mut Tally) -> (Vec<u8>, Option<Damaged>) {
    type Make = fn(&mut Dice) -> Asked;
    let (kind, sound): (&str, Option<Make>) = match dice.below(1_000) {
        0..=239 => ("small", Some(small)),
        240..=284 => ("medium", Some(medium)),
        285..=304 => ("full", Some(full)),
        305..=308 => ("many rounds", Some(some_many_rounds)),
        309..=374 => ("over a thousand rounds", Some(over_a_thousand)),
        375..=444 => ("broad", Some(broad)),
        445..=457 => ("long", None),
        _ => ("damaged", None),
    };
    tally.kind(kind);
    if let Some(make) = sound {
        let mut asked = make(dice);
        // These two are made for what their own question does.
        if !matches!(kind, "over a thousand rounds" | "broad") {
            asked = expressed(dice, asked, if kind == "small" { 6 } else { MOST_MARKS });
        }
        asked = widened(dice, asked, 60);
        if kind == "small" {
            asked = joined(dice, asked);
        }
        if asked.expression.is_some() {
            tally.kind("with an expression");
        }
        let mut lines = text::lines(dice, &asked);
        // Full tables take some seconds, and have a part of their own with the others.
        if kind != "full" && dice.percent(15) {
            tally.kind("with salvage");
            lines = with_choice(dice, &lines);
        }
        return (text::input(dice, &lines), None);
    }
    let damaged = if kind == "long" { long(dice) } else { damaged(dice) };
    (text::input(dice, &damaged.lines), Some(damaged))
}

/// Sound inputs below this length are asked once more with a line that is not.
pub const MOST_SPOILT: usize = 20_000;

/// Part (a): a desk program against module `desk`, byte for byte.
pub fn desk_part(words: &Words, mut dice: Dice, tally: &mut Tally) -> Outcome {
    let (input, made_for) = desk_case(&mut dice, tally);
    let expected = desk(&input);
    outputs::count(&expected, tally);
    let wide = is_wide(inputs::states(&input).unwrap_or(0));
    if wide {
        outputs::numbers(&expected).into_iter().for_each(|number| tally.wide(number));
    }
    inputs::met(&input, outputs::faulty_line(&expected).unwrap_or(usize::MAX))
        .into_iter()
        .for_each(|what| tally.met(what));
    let itself = |input: &[u8], expected: &[u8], found: &[u8]| Difference {
        input: input.to_vec(),
        expected: String::from_utf8_lossy(expected).into_owned(),
        found: format!("module desk itself: {}", String::from_utf8_lossy(found)),
    };
    if let Ok(file) = read(&input) {
        let self_dealing = has_equal_ends(&file.collection).then_some(SELF_DEALING);
        noted(&file.collection).into_iter().chain(self_dealing).for_each(|what| tally.met(what));
        if file.allowance.is_none() && !file.asks.is_empty() {
            tally.met(NONE_GIVEN[0]);
            if outputs::rounds(&expected) > 64 {
                tally.met(NONE_GIVEN[1]);
            }
            if outputs::is_spent(&expected) {
                return Err(itself(&input, b"no number 3 where no allowance is given", &expected));
            }
        }
    }
    let sound = made_for.is_none();
    if let Some(damaged) = made_for {
        let line = fault_line(Fault { line: damaged.at, number: damaged.number });
        if line != expected {
            return Err(itself(&input, &line, &expected));
        }
        damaged.also.iter().for_each(|also| tally.order(damaged.number, *also));
    }
    writes(words, &input, &expected)?;
    if sound && input.len() < MOST_SPOILT {
        let (input, at, number) = spoilt(&mut dice, &input);
        tally.number(number);
        if wide {
            tally.wide(number);
        }
        inputs::met(&input, at).into_iter().for_each(|what| tally.met(what));
        let expected = fault_line(Fault { line: at, number });
        let found = desk(&input);
        if found != expected {
            return Err(itself(&input, &expected, &found));
        }
        writes(words, &input, &expected)?;
    }
    let Some((what, other)) = renoted(&mut dice, &input) else { return Ok(()) };
    tally.met(what);
    match desk(&other) {
        same if same == expected => writes(words, &other, &expected),
        found => Err(itself(&other, &expected, &found)),
    }
}

/// The program writes just that.
pub fn writes(words: &Words, input: &[u8], expected: &[u8]) -> Outcome {
    let found = match run_desk(words, input) {
        Ok(output) if output == expected => return Ok(()),
        Ok(output) => String::from_utf8_lossy(&output).into_owned(),
        Err(error) => error.to_string(),
    };
    let expected = String::from_utf8_lossy(expected).into_owned();
    Err(Difference { input: input.to_vec(), expected, found })
}

/// Part (b): the library behind a driver against module `library`, with both areas and the bytes behind them.
pub fn library_part(driver: &mut Driver, mut dice: Dice, tally: &mut Tally) -> Outcome {
    let lent = lent(&mut dice);
    one_ask(driver, lent, &mut dice, tally)
}

/// Part (f): likewise of one individual.
pub fn from_part(driver: &mut Driver, mut dice: Dice, tally: &mut Tally) -> Outcome {
    let lent = from_lent(&mut dice);
    one_ask(driver, lent, &mut dice, tally)
}

fn one_ask(driver: &mut Driver, lent: Lent, dice: &mut Dice, tally: &mut Tally) -> Outcome {
    tally.kind(lent.kind);
    let (answers, expected) = protocol::answer(&lent);
    let (number, count) = answers.expect("one ask is always answered")[0];
    tally.number(number);
    if is_wide(lent.call.counts[3]) {
        tally.wide(number);
    }
    if number < 2 {
        tally.rounds(count);
    }
    if number < 4 && deals_with_itself(&lent) {
        tally.met(SELF_DEALING);
    }
    let request = protocol::request(&lent);
    let differs = |expected, found| Difference { input: request.clone().into_bytes(), expected, found };
    if let Some(&first) = lent.planted.iter().min() {
        if number != first {
            return Err(differs(format!("number {first}"), format!("module library itself: {number}")));
        }
        lent.planted.iter().filter(|also| **also > first).for_each(|also| tally.order(first, *also));
    }
    if number == 2 && number_without_exclusions(&lent) == 3 {
        tally.order(2, 3);
    }
    replies(driver, request, &expected)?;
    replies_with_other_deeds(driver, lent, dice, tally, expected)
}

/// The same call but for its deed numbers has the same reply, with what both areas hold.
fn replies_with_other_deeds(
    driver: &mut Driver,
    lent: Lent,
    dice: &mut Dice,
    tally: &mut Tally,
    expected: String,
) -> Outcome {
    let Some(call) = lent_with_others(dice, &lent.call) else { return Ok(()) };
    tally.met(CHANGED);
    let other = Lent { call, ..lent };
    let (request, itself) = (protocol::request(&other), protocol::answer(&other).1);
    if itself != expected {
        let found = format!("module library itself: {itself}");
        return Err(Difference { input: request.into_bytes(), expected, found });
    }
    replies(driver, request, &expected)
}

/// Part (c): a row of pairs, likewise: each entry, what lies behind the entries, both areas and what lies behind them.
pub fn row_part(driver: &mut Driver, mut dice: Dice, tally: &mut Tally) -> Outcome {
    let lent = row_lent(&mut dice);
    one_row(driver, lent, &mut dice, tally)
}

/// Part (h): a row of both kinds of ask, likewise.
pub fn mixed_part(driver: &mut Driver, mut dice: Dice, tally: &mut Tally) -> Outcome {
    let lent = mixed_lent(&mut dice);
    one_row(driver, lent, &mut dice, tally)
}

fn one_row(driver: &mut Driver, lent: Lent, dice: &mut Dice, tally: &mut Tally) -> Outcome {
    tally.kind(lent.kind);
    let (answers, expected) = protocol::answer(&lent);
    let found = match &lent.asks {
        Asks::Row(row) => met(row, answers.as_deref()),
        Asks::Mixed(row) => mixed_met(row, lent.call.counts[2], answers.as_deref()),
        _ => Vec::new(),
    };
    found.into_iter().for_each(|what| tally.met(what));
    let answers = answers.unwrap_or_default();
    let numbers: BTreeSet<u8> = answers.iter().map(|answer| answer.0).collect();
    numbers.iter().for_each(|number| tally.number(*number));
    if is_wide(lent.call.counts[3]) {
        numbers.iter().for_each(|number| tally.wide(*number));
    }
    if numbers.iter().any(|number| *number < 4) && deals_with_itself(&lent) {
        tally.met(SELF_DEALING);
    }
    // All answers 0 and 1 of one row have the same count.
    if let Some((_, count)) = answers.iter().find(|answer| answer.0 < 2) {
        tally.rounds(*count);
    }
    let request = protocol::request(&lent);
    match lent.planted.iter().min() {
        Some(first) if numbers.iter().any(|number| number != first) => {
            let found = format!("module library itself: {numbers:?}");
            Err(Difference { input: request.into_bytes(), expected: format!("number {first}"), found })
        }
        _ => {
            replies(driver, request, &expected)?;
            replies_with_other_deeds(driver, lent, dice, tally, expected)
        }
    }
}

/// Part (d): the tables of an expression, likewise: the number and three counts, both rows and what lies behind them.
pub fn typed_part(driver: &mut Driver, mut dice: Dice, tally: &mut Tally) -> Outcome {
    let typed = typed(&mut dice);
    tally.kind(typed.kind);
    let (made, expected) = protocol::answer_expression(&typed);
    let number = made.as_ref().err().copied().unwrap_or(0);
    tally.number(number);
    if expressions::MANY_MARKS.contains(&role_and_test_marks(&typed.marks)) {
        tally.wide(number);
    }
    typed::met(&typed, made.as_ref().ok()).into_iter().for_each(|what| tally.met(what));
    let request = protocol::request_expression(&typed);
    if let Some(planted) = typed.planted.filter(|planted| *planted != number) {
        let found = format!("module library itself: {number}");
        return Err(Difference { input: request.into_bytes(), expected: format!("number {planted}"), found });
    }
    let stand = typed::stand(&typed);
    stand.iter().filter(|also| **also != number).for_each(|also| tally.order(number, *also));
    replies(driver, request, &expected)
}

fn replies(driver: &mut Driver, request: String, expected: &str) -> Outcome {
    let found = match driver.ask(&request) {
        Ok(reply) if reply == expected => return Ok(()),
        Ok(reply) => reply,
        Err(error) => error.to_string(),
    };
    Err(Difference { input: request.into_bytes(), expected: expected.to_string(), found })
}

/// Part (i): an area moved to the places of today or back, likewise: the number, both areas and what lies behind them.
pub fn moved_part(driver: &mut Driver, mut dice: Dice, tally: &mut Tally) -> Outcome {
    let (moved, met) = moved(&mut dice);
    tally.kind(moved.kind);
    met.into_iter().for_each(|what| tally.met(what));
    let (number, expected) = protocol::answer_moved(&moved);
    tally.number(number);
    replies(driver, protocol::request_moved(&moved), &expected)
}

/// Part (k): whether two collections are the same as sets, likewise: the number.
pub fn twice_part(driver: &mut Driver, mut dice: Dice, tally: &mut Tally) -> Outcome {
    let (twice, met) = twice(&mut dice);
    tally.kind(twice.kind);
    let (number, expected) = protocol::answer_twice(&twice.calls);
    tally.number(number);
    if twice.calls.iter().any(|call| is_wide(call.counts[3])) {
        tally.wide(number);
    }
    met.into_iter().chain(twice::refused(&twice)).for_each(|what| tally.met(what));
    twice.changed.filter(|_| number == 0).into_iter().for_each(|what| tally.met(what));
    let request = protocol::request_twice(&twice);
    let planted = twice.planted.iter().find_map(|planted| planted.iter().min()).copied();
    let made_for = planted.or((twice.kind == "same").then_some(1));
    if let Some(made_for) = made_for.filter(|made_for| *made_for != number) {
        let found = format!("module library itself: {number}");
        return Err(Difference {
            input: request.into_bytes(),
            expected: format!("number {made_for}"),
            found,
        });
    }
    replies(driver, request, &expected)
}

/// Part (m): the list of a sheet, likewise: the number, how many entries are told, the row and what lies behind it.
pub fn listed_part(driver: &mut Driver, mut dice: Dice, tally: &mut Tally) -> Outcome {
    let (listed, met) = listed(&mut dice);
    tally.kind(listed.kind);
    met.into_iter().for_each(|what| tally.met(what));
    let (list, expected) = protocol::answer_listed(&listed);
    let number = list.as_ref().err().copied().unwrap_or(0);
    told(tally, number, &listed.call, &listed.planted);
    let request = protocol::request_listed(&listed);
    made_for(&request, listed.planted.iter().min().copied(), number)?;
    replies(driver, request, &expected)?;
    let Some(call) = lent_with_others(&mut dice, &listed.call) else { return Ok(()) };
    tally.met(CHANGED);
    replies(driver, protocol::request_listed(&Listed { call, ..listed }), &expected)
}

/// Part (n): where a list departs, likewise: the number and the place.
pub fn departs_part(driver: &mut Driver, mut dice: Dice, tally: &mut Tally) -> Outcome {
    let (departs, met, place) = departs(&mut dice);
    tally.kind(departs.kind);
    met.into_iter().for_each(|what| tally.met(what));
    let (number, expected) = protocol::answer_departs(&departs);
    told(tally, number, &departs.call, &departs.planted);
    let request = protocol::request_departs(&departs);
    made_for(&request, departs.planted.iter().min().copied(), number)?;
    if let Some(place) = place.filter(|place| expected != format!("0F{place:08X}")) {
        let found = format!("module library itself: {expected}");
        return Err(Difference { input: request.into_bytes(), expected: format!("15 at {place}"), found });
    }
    replies(driver, request, &expected)?;
    let Some(call) = lent_with_others(&mut dice, &departs.call) else { return Ok(()) };
    tally.met(CHANGED);
    replies(driver, protocol::request_departs(&Departs { call, ..departs }), &expected)
}

/// Part (p): which facts salvage keeps, likewise: the number, the row of marks and what lies behind it.
pub fn sifted_part(driver: &mut Driver, mut dice: Dice, tally: &mut Tally) -> Outcome {
    let (sifted, met) = sifted(&mut dice);
    tally.kind(sifted.kind);
    let (kept, expected) = protocol::answer_sifted(&sifted);
    let number = kept.as_ref().err().copied().unwrap_or(0);
    told(tally, number, &sifted.call, &sifted.planted);
    let of_marks = kept.as_ref().ok().and_then(|kept| sifted::of_marks(kept));
    met.into_iter().chain(of_marks).for_each(|what| tally.met(what));
    let request = protocol::request_sifted(&sifted);
    made_for(&request, sifted.planted.iter().min().copied(), number)?;
    replies(driver, request, &expected)?;
    let Some(call) = lent_with_others(&mut dice, &sifted.call) else { return Ok(()) };
    tally.met(CHANGED);
    replies(driver, protocol::request_sifted(&Sifted { call, ..sifted }), &expected)
}

/// The number of a call, and what it was given before.
fn told(tally: &mut Tally, number: u8, call: &Call, planted: &[u8]) {
    tally.number(number);
    if is_wide(call.counts[3]) {
        tally.wide(number);
    }
    planted.iter().filter(|also| **also > number).for_each(|also| tally.order(number, *also));
}

/// The second program itself gives the refusal that the call was made for.
fn made_for(request: &str, planted: Option<u8>, number: u8) -> Outcome {
    match planted.filter(|planted| *planted != number) {
        None => Ok(()),
        Some(planted) => Err(Difference {
            input: request.as_bytes().to_vec(),
            expected: format!("number {planted}"),
            found: format!("module library itself: {number}"),
        }),
    }
}

/// Part (g): likewise of how many marks each round makes, with how many rounds are told, the row of counts and what lies
/// behind it.
pub fn rounds_part(driver: &mut Driver, mut dice: Dice, tally: &mut Tally) -> Outcome {
    let (lent, met) = rounds_lent(&mut dice);
    met.into_iter().for_each(|what| tally.met(what));
    one_ask(driver, lent, &mut dice, tally)
}

/// What any ask but a row would be answered were there no exclusion to break.
fn number_without_exclusions(lent: &Lent) -> u8 {
    let mut call = lent.call.clone();
    call.tables[1].clear();
    call.tables[3].clear();
    let [mut area, mut spare] = lent.lengths.map(|length| vec![0; length]);
    match lent.asks {
        Asks::Pair(pair) => ask(&call, pair, &mut area, &mut spare).0,
        Asks::From(first) => ask_from(&call, first, &mut area, &mut spare).0,
        Asks::Row(_) | Asks::Mixed(_) => unreachable!("a row is not asked for it"),
        Asks::Rounds(CountRow { room, .. }) => marks(&call, room, &mut area, &mut spare).0,
    }
}
