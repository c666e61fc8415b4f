//! The answers, the walk of the individuals, what is come to below them, and the paths.

use super::clash::clash;
use super::rounds::step;
use super::table::Table;
use super::words::{ask, counted, states, Words};
use crate::ask::Ask;
use crate::explain::below::{by_last_role, Before, Below, Found};
use crate::explain::path::{Move, Path, Spot};
use crate::explain::walk::{Ground, Leg, Place};
use crate::explain::{Asked, Behind, Explanation};
use crate::numbers::{Individual, State};
use std::collections::{BTreeMap, BTreeSet};

const ANSWERS: [&str; 5] = ["Ask", "Answer", "Number", "Count", "The desk writes"];
const WALK: [&str; 5] = ["Individual", "State", "Final", "Comes from", "By"];
const BELOW: [&str; 5] = ["Element", "State", "Final", "Comes from", "By"];
const PATH: [&str; 5] = ["Step", "Element", "State", "By", "Rests on"];

/// What a path's table says of each step; the facts only where a deed is noted.
fn path_heads(explained: &Explanation) -> &'static [&'static str] {
    let last = if explained.file.collection.notes_a_deed() { 5 } else { 4 };
    &PATH[..last]
}

/// Each ask's answer in words, its number and count, and the line of output.
pub fn answers(explained: &Explanation) -> String {
    let mut table = Table::new(&ANSWERS);
    for asked in &explained.asks {
        let Asked { ask: asked_of, number, count, .. } = asked;
        let typed = format!("`{}`", explained.answer_line(asked));
        table.row([ask(*asked_of), in_words(asked), number.to_string(), count.to_string(), typed]);
    }
    table.text()
}

pub fn answers_form(explained: &Explanation) -> String {
    let asks = explained.asks.iter();
    Table::form(&ANSWERS, asks.map(|asked| vec![ask(asked.ask)])).text()
}

/// A walk begins at the first individual of an ask, in the start state.
pub fn walks_form(explained: &Explanation) -> String {
    let start = explained.file.collection.counts.start.0.to_string();
    let firsts: BTreeSet<Individual> = explained.asks.iter().map(|asked| asked.ask.first()).collect();
    let begin = |first: Individual| [vec![first.0.to_string(), start.clone()], Vec::new()];
    let forms: Vec<String> =
        firsts.into_iter().map(|first| Table::form(&WALK, begin(first)).text()).collect();
    forms.join("\n")
}

pub fn path_form(explained: &Explanation) -> String {
    Table::form(path_heads(explained), [vec!["0".to_string()], Vec::new()]).text()
}

/// `yes, 2 rounds`.
pub fn in_words(asked: &Asked) -> String {
    let count = asked.count as usize;
    match asked.number {
        0 => format!("no, {}", counted(count, "round")),
        1 => format!("yes, {}", counted(count, "round")),
        2 => "contradiction".to_string(),
        _ => format!("the allowance of {count} is below the rounds needed"),
    }
}

/// What stands behind each answer: the path, the walk without one, or the clash.
pub fn behind(explained: &Explanation, words: &Words) -> String {
    if let Some(found) = &explained.clash {
        return clash(found, words, explained.file.collection.notes_a_deed());
    }
    let parts: Vec<String> = explained.asks.iter().map(|asked| behind_one(explained, asked, words)).collect();
    parts.join("\n")
}

fn behind_one(explained: &Explanation, asked: &Asked, words: &Words) -> String {
    let asked_pair = ask(asked.ask);
    match &asked.behind {
        Behind::Path(found) if found.stands.len() == 1 => {
            let state = found.stands[0].state.0;
            format!(
                "{asked_pair}: the empty path. It stands at {} in state {state}, which is final.\n",
                asked.ask.first().0
            )
        }
        Behind::Path(found) => format!("{asked_pair}: the path.\n\n{}", path(explained, found, words)),
        Behind::Reached(places) => format!("{asked_pair}: {}\n", reached(explained, asked.ask, places)),
        Behind::Everywhere(places, spots) => {
            format!("{asked_pair}: {}\n", everywhere(explained, asked.ask, (places, spots), words))
        }
        Behind::Nothing => format!("{asked_pair}: {}. The walk isn't worked.\n", in_words(asked)),
    }
}

/// In which states the walk comes to the second individual, none of them final.
fn reached(explained: &Explanation, asked: Ask, places: &[Place]) -> String {
    let Ask::Pair(first, second) = asked else { return String::new() };
    let collection = &explained.file.collection;
    let there = places.iter().filter(|(who, _)| *who == second).map(|(_, state)| *state);
    let there: BTreeSet<State> = there.collect();
    let from = format!("from {} in state {} the walk", first.0, collection.counts.start.0);
    if there.is_empty() {
        return format!("{from} never comes to {}.", second.0);
    }
    let finals = states(collection.finals.iter().copied());
    let there = states(there.into_iter());
    format!("{from} comes to {} in these states only: {there}. Final: {finals}.", second.0)
}

/// In which states any path comes to the individuals, and to what is below them, none of them final.
fn everywhere(
    explained: &Explanation,
    asked: Ask,
    (places, spots): (&[Place], &[Spot]),
    words: &Words,
) -> String {
    let collection = &explained.file.collection;
    let mut named: BTreeMap<Individual, BTreeSet<State>> = BTreeMap::new();
    for (who, state) in places {
        named.entry(*who).or_default().insert(*state);
    }
    let named =
        named.into_iter().map(|(who, there)| format!("to {} in {}", who.0, states(there.into_iter())));
    let unnamed = by_last_role(spots).into_iter();
    let unnamed = unnamed.map(|(role, there)| {
        format!("to rows that end in {} in {}", words.role(role), states(there.into_iter()))
    });
    let comes: Vec<String> = named.chain(unnamed).collect();
    let finals = states(collection.finals.iter().copied());
    let start = collection.counts.start.0;
    let comes = comes.join("; ");
    format!(
        "from {} in state {start} paths come in these states only: {comes}. Final: {finals}.",
        asked.first().0
    )
}

fn path(explained: &Explanation, path: &Path, words: &Words) -> String {
    let heads = path_heads(explained);
    let mut table = Table::new(heads);
    for (number, stand) in path.stands.iter().enumerate() {
        let by = match &stand.by {
            None => "the start".to_string(),
            Some(Move::Fact { step: by, noted }) => {
                format!("{}, along the fact on line {}", step(by, words), noted.line)
            }
            Some(Move::Test { name, line }) => format!("test {} (line {line})", words.concept(*name)),
            Some(Move::Down { step: by }) => format!("down by {}", step(by, words)),
            Some(Move::Up { step: by }) => format!("up by {}", step(by, words)),
        };
        let fact = stand.rests_on.map_or(String::new(), |fact| fact.to_string());
        let cells = [number.to_string(), words.element(&stand.element), stand.state.0.to_string(), by, fact];
        table.row(cells.into_iter().take(heads.len()));
    }
    let more = if path.more > 0 { "\nThe path is longer than is shown.\n" } else { "" };
    table.text() + more
}

/// Where the walk from each first individual comes, in the order found.
pub fn walks(explained: &Explanation, words: &Words) -> String {
    let firsts: BTreeSet<Individual> = explained.asks.iter().map(|asked| asked.ask.first()).collect();
    let ground = Ground::of(&explained.file, &explained.rounds);
    let mut text = String::new();
    for first in firsts {
        let walk = ground.walk(first);
        let mut table = Table::new(&WALK);
        for place in &walk.reached {
            let final_state = if explained.file.collection.finals.contains(&place.1) { "yes" } else { "no" };
            let (from, by) = match walk.legs.get(place) {
                None => (String::new(), "the start".to_string()),
                Some((from, leg)) => (standing(*from), leg_in_words(leg, words)),
            };
            table.row([place.0 .0.to_string(), place.1 .0.to_string(), final_state.to_string(), from, by]);
        }
        text += &format!("{}The walk from {}:\n\n", if text.is_empty() { "" } else { "\n" }, first.0);
        text += &table.text();
    }
    text
}

/// The individuals that are asked whether a path leads to any element at all.
fn asked_from(explained: &Explanation) -> BTreeSet<Individual> {
    let from = |asked: &Asked| matches!(asked.ask, Ask::From(_)).then(|| asked.ask.first());
    explained.asks.iter().filter_map(from).collect()
}

pub fn is_one_asked_from(explained: &Explanation) -> bool {
    !asked_from(explained).is_empty()
}

const NO_ASK: &str = "No ask is of one individual.\n";

/// Where paths from each individual that is asked of alone come below the individuals: of each last signed role and state the
/// element found first.
pub fn below(explained: &Explanation, words: &Words) -> String {
    let ground = Ground::of(&explained.file, &explained.rounds);
    let mut parts: Vec<String> = Vec::new();
    for first in asked_from(explained) {
        let walk = ground.walk(first);
        let below = Below::of(&ground, &walk);
        let mut table = Table::new(&BELOW);
        for Found { spot: (element, state), from, leg } in &below.found {
            let final_state = if explained.file.collection.finals.contains(state) { "yes" } else { "no" };
            let from = match from {
                Before::Walked(place) => standing(*place),
                Before::Found(place) => {
                    let (element, state) = &below.found[*place].spot;
                    format!("{} in state {}", words.element(element), state.0)
                }
            };
            let (name, by) = (words.element(element), leg_in_words(leg, words));
            table.row([name, state.0.to_string(), final_state.to_string(), from, by]);
        }
        parts.push(match below.found.is_empty() {
            true => format!("Below the individuals, from {}: no path comes there.\n", first.0),
            false => format!("Below the individuals, from {}:\n\n{}", first.0, table.text()),
        });
    }
    if parts.is_empty() {
        return NO_ASK.to_string();
    }
    parts.join("\n")
}

pub fn below_form(explained: &Explanation) -> String {
    let forms: Vec<String> =
        asked_from(explained).iter().map(|_| Table::form(&BELOW, [Vec::new()]).text()).collect();
    if forms.is_empty() {
        return NO_ASK.to_string();
    }
    forms.join("\n")
}

fn standing((who, state): Place) -> String {
    format!("{} in state {}", who.0, state.0)
}

fn leg_in_words(leg: &Leg, words: &Words) -> String {
    match leg {
        Leg::Fact { step: by, noted } => {
            format!("{}, along the fact on line {}", step(by, words), noted.line)
        }
        Leg::Test { name, line } => format!("test {} (line {line})", words.concept(*name)),
        Leg::Loop(mark) => format!("the mark {}", words.mark(*mark)),
        Leg::Down { step: by } => format!("down by {}", step(by, words)),
    }
}
