//! The asks as text: the answer line, and the path as a row of elements and states.

use super::names;
use crate::ask::Ask;
use crate::explain::below::by_last_role;
use crate::explain::path::{Move, Path, Spot, Stand};
use crate::explain::{Asked, Behind, Explanation};
use crate::numbers::{Individual, Role, State};
use std::collections::{BTreeMap, BTreeSet};

pub fn asks(explained: &Explanation) -> String {
    let mut text = String::from("\nASKS\n");
    if explained.asks.is_empty() {
        let dropped = explained.salvage.as_ref().is_some_and(|salvage| !salvage.dropped.is_empty());
        let written = if dropped { "nothing more" } else { "nothing" };
        text += &format!("  none: the desk writes {written}\n");
    }
    for asked in &explained.asks {
        text += &ask(asked, explained);
    }
    text
}

fn ask(asked: &Asked, explained: &Explanation) -> String {
    let Asked { line, ask, number, count, behind } = asked;
    let written = explained.answer_line(asked);
    let mut text = match ask {
        Ask::Pair(first, second) => format!("Line {line}: ({first}, {second}): {written}, "),
        Ask::From(first) => format!("Line {line}: {first} to any element: {written}, "),
    };
    match behind {
        Behind::Path(path) => {
            text += &format!("yes, {}\n{}", names::rounds(*count as usize), self::path(path))
        }
        Behind::Reached(places) => {
            let start = explained.file.collection.counts.start;
            text += &format!("no, {}\n", names::rounds(*count as usize));
            text += &format!("  from ({}, {start}) the walk reaches {}\n", ask.first(), reached(places));
        }
        Behind::Everywhere(places, spots) => {
            let start = explained.file.collection.counts.start;
            text += &format!("no, {}\n", names::rounds(*count as usize));
            text += &format!("  from ({}, {start}) paths come to {}\n", ask.first(), reached(places));
            text += &format!("  and below the individuals {}\n", unnamed(spots));
        }
        Behind::Nothing if *number == 2 => text += "contradiction\n",
        Behind::Nothing => {
            let needed = explained.rounds.needed();
            text += &format!("the allowance of {count} is below the {needed} rounds needed\n");
        }
    }
    text
}

fn reached(places: &[(Individual, State)]) -> String {
    let mut by_person: BTreeMap<Individual, BTreeSet<State>> = BTreeMap::new();
    for (who, state) in places {
        by_person.entry(*who).or_default().insert(*state);
    }
    let one = |(who, states): (&Individual, &BTreeSet<State>)| {
        let states: Vec<String> = states.iter().map(State::to_string).collect();
        format!("{who} in {}", states.join(", "))
    };
    let all: Vec<String> = by_person.iter().map(one).collect();
    all.join("; ")
}

/// The first element found with each last signed role stands for all that end so.
fn unnamed(spots: &[Spot]) -> String {
    if spots.is_empty() {
        return "nowhere".to_string();
    }
    let one = |(role, states): (Role, BTreeSet<State>)| {
        let states: Vec<String> = states.iter().map(State::to_string).collect();
        format!("to rows that end in {role} in {}", states.join(", "))
    };
    by_last_role(spots).into_iter().map(one).collect::<Vec<String>>().join("; ")
}

fn path(path: &Path) -> String {
    let mut text = String::new();
    for Stand { by, element, state, rests_on } in &path.stands {
        let how = match by {
            None => String::new(),
            Some(Move::Fact { step, noted }) => format!("  by {step} along the fact on line {}", noted.line),
            Some(Move::Test { name, line }) => format!("  by the test {name}? (line {line})"),
            Some(Move::Down { step }) => format!("  down by {step}"),
            Some(Move::Up { step }) => format!("  up by {step}"),
        };
        let fact = rests_on.map_or(String::new(), |fact| format!("; rests on {fact}"));
        text += &format!("  ({element}, {state}){how}{fact}\n");
    }
    if path.more > 0 {
        let many = if path.more == u128::MAX { "very many".to_string() } else { path.more.to_string() };
        text += &format!("  … and {many} steps more\n");
    }
    text
}
