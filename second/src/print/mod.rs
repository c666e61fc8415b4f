//! The explanation as readable text.

mod asks;
mod clash;
mod names;
mod salvage;

use crate::collection::Step;
use crate::desk::fault_line;
use crate::explain::fault::Faulty;
use crate::explain::path::{halves, inner};
use crate::explain::rounds::Reason;
use crate::explain::Explanation;
use crate::expression::in_words;
use crate::sheet::Mark;
use std::fmt::Display;

const NOTATION: &str = "NOTATION
  A0, A1 …        concept names             r0, r0⁻         role 0 forward, role 0 backward
  ∃r0             has an r0-neighbour       C ≤ D           whoever has C has D; so for roles
  i0, i1 …        individuals               q0, q1 …        states of the question
  i0·r0·r1⁻       the unnamed element reached from i0 by the row r0, r1⁻
  (q0, q3, A0)    a mark of the loop sheet: state, state, concept
  q0 –r0→ q1      a role step               q0 –A0?→ q1     a test step
  r0 then A0?     an expression: a role step, then a test. Of \"then\", \"or\" and \"any number of times\" the last
                  holds tightest and \"or\" loosest. State k is the k-th role or test written.
  line 5          the line of the file where the record stands
  deed 7, line 5  the deed number of a typed fact, and its line; none noted: it is 0, or left out
Of several reasons for one thing only one is shown: the shortest chain of rules, and for a mark the first of
the three rules of a round that adds it; of facts that give the same, one with a deed number.
";

/// A faulty file: its 8F line and the same in words.
pub fn faulty(faulty: &Faulty) -> String {
    let written = String::from_utf8_lossy(&fault_line(faulty.fault)).into_owned();
    let mut text = format!("The file is faulty. The desk writes\n\n  {written}\n");
    text += &format!("Line {}, number {}: {}.\n", faulty.fault.line, faulty.fault.number, faulty.reason);
    if let Some(line) = &faulty.line {
        let shown: String = String::from_utf8_lossy(line).chars().take(80).collect();
        text += &format!("The line reads: {shown:?}\n");
    }
    text
}

pub fn explanation(explained: &Explanation) -> String {
    let mut text = String::from(NOTATION);
    text += &collection(explained);
    text += &orders(explained);
    text += &explained.salvage.as_ref().map_or(String::new(), salvage::salvage);
    text += &people(explained);
    match &explained.clash {
        Some(clash) => text += &clash::clash(clash),
        None => text += &sheet(explained),
    }
    text += &asks::asks(explained);
    text
}

fn collection(explained: &Explanation) -> String {
    let counts = &explained.file.collection.counts;
    let mut text = format!(
        "\nCOLLECTION\n  {} names, {} roles, {} individuals, {} states, start {}; {} concepts\n",
        counts.names,
        counts.roles,
        counts.individuals,
        counts.states,
        counts.start,
        counts.all_concepts().count()
    );
    if let Some(typed) = &explained.file.expression {
        let marks = in_words(&typed.marks, |role| role.to_string(), |name| name.to_string());
        text += &format!("  the question: {marks} (line {})\n", typed.line);
    }
    let steps = explained.file.collection.steps.iter().zip(&explained.file.lines.steps);
    for (step, line) in steps {
        text += &match step {
            Step::Role { from, role, to } => format!("  {from} –{role}→ {to} (line {line})\n"),
            Step::Test { from, name, to } => format!("  {from} –{name}?→ {to} (line {line})\n"),
        };
    }
    let finals = &explained.file.collection.finals;
    let finals: Vec<String> = finals.iter().map(|state| state.to_string()).collect();
    text += &format!("  finals: {}\n", if finals.is_empty() { "none".into() } else { finals.join(", ") });
    let list = &explained.file.lines.list;
    if let (Some(first), Some(last)) = (list.first(), list.last()) {
        let is = if explained.clash.is_none() { "it is the sheet" } else { "it is not looked at" };
        text += &format!("  a list of {} entries (lines {first} to {last}): {is}\n", list.len());
    }
    text
}

fn orders(explained: &Explanation) -> String {
    let mut text = String::from("\nORDER OF ROLES (besides each role below itself)\n");
    let before = text.len();
    for (role, above) in &explained.chains.roles {
        for upper in above.others() {
            let links = above.chain(upper).expect("it is above");
            text += &format!("  {}\n", names::below(*role, upper, &links));
        }
    }
    none_if_nothing_since(&mut text, before);
    text += "\nORDER OF CONCEPTS (besides each concept below itself)\n";
    let before = text.len();
    for (concept, above) in &explained.chains.concepts {
        for upper in above.others() {
            let links = above.chain(upper).expect("it is above");
            text += &format!("  {}\n", names::below(*concept, upper, &links));
        }
    }
    none_if_nothing_since(&mut text, before);
    text
}

fn none_if_nothing_since(text: &mut String, before: usize) {
    if text.len() == before {
        text.push_str("  none\n");
    }
}

fn people(explained: &Explanation) -> String {
    let mut text = String::from("\nWHO HAS WHICH CONCEPT\n");
    let before = text.len();
    for (who, concepts) in explained.people.iter().enumerate() {
        for has in concepts.values() {
            text += &format!("  i{who} has {}: {}\n", has.concept, names::has(has));
        }
    }
    none_if_nothing_since(&mut text, before);
    text
}

fn sheet(explained: &Explanation) -> String {
    let counts = &explained.file.collection.counts;
    let allowance = explained.file.allowance() as usize;
    let needed = explained.rounds.needed();
    let mut marks = usize::from(counts.states) * counts.all_concepts().count();
    let mut text = format!(
        "\nTHE LOOP SHEET, ROUND BY ROUND\nRound 0: (s, s, B) for every state and concept, {marks} marks\n"
    );
    for (before, added) in explained.rounds.added.iter().enumerate() {
        if before == allowance {
            text += &format!(
                "The allowance is spent here: {}. The desk doesn't work what follows.\n",
                names::rounds(allowance)
            );
        }
        marks += added.len();
        text += &format!("Round {}: {} added, {marks} marks\n", before + 1, added.len());
        for (mark, reason) in added {
            text += &format!("  {mark} {}\n", rule(mark, reason));
        }
        if let Some(line) = explained.round_line(before + 1) {
            text += &format!("  the desk writes {line}\n");
        }
    }
    text + &format!("Rounds needed: {needed}. Allowance: {}.\n", explained.allowance())
}

fn rule(mark: &Mark, reason: &Reason) -> String {
    match reason {
        Reason::Test { name, line } => {
            let order = unless_equal(mark.concept, *name);
            format!("rule 1: test {} –{name}?→ {} (line {line}){order}", mark.from, mark.to)
        }
        Reason::Composed { middle } => {
            let [first, second] = halves(*mark, *middle);
            format!("rule 2: {first} then {second}")
        }
        Reason::Trip { role, down, up } => {
            let below = inner(down, up, role.inverse().neighbour());
            let child = unless_equal(mark.concept, role.neighbour());
            let (there, back) = (unless_equal(*role, down.role), unless_equal(*role, up.role.inverse()));
            format!("rule 3: R = {role}{child}; down {down}{there}; below {below}; up {up}{back}")
        }
    }
}

/// `, C ≤ D` where that isn't plain.
fn unless_equal<T: PartialEq + Display>(lower: T, upper: T) -> String {
    if lower == upper {
        String::new()
    } else {
        format!(", {lower} ≤ {upper}")
    }
}
