//! What rules 1 and 3 read in every round besides the sheet: the tests with their columns, and each signed role's ways down and up.

use super::table::Table;
use super::words::{listed, Words};
use crate::collection::Step;
use crate::explain::Explanation;
use crate::numbers::{Concept, Role, State};

const TESTS: [&str; 4] = ["Test step", "From s", "To t", "Columns B with B ≤ A"];
const TRIPS: [&str; 5] =
    ["Signed role R", "Columns B with B ≤ ∃R", "Ways down, s to t", "Column to look in", "Ways up, u to v"];

/// One step of the question with its line.
struct Typed {
    from: State,
    to: State,
    line: usize,
}

pub fn ways(explained: &Explanation, words: &Words) -> String {
    let mut tests = Table::new(&TESTS);
    for (name, Typed { from, to, line }) in tests_of(explained) {
        let test = format!("{} (line {line})", words.concept(name));
        let columns = columns_below(explained, name, words);
        tests.row([test, from.0.to_string(), to.0.to_string(), columns]);
    }
    let mut trips = Table::new(&TRIPS);
    for role in explained.file.collection.counts.all_roles() {
        trips.row([
            words.role(role),
            columns_below(explained, role.neighbour(), words),
            steps_along(explained, role, words),
            words.concept(role.inverse().neighbour()),
            steps_along(explained, role.inverse(), words),
        ]);
    }
    if tests_of(explained).next().is_none() {
        return format!("There is no test step.\n\n{}", trips.text());
    }
    tests.text() + "\n" + &trips.text()
}

pub fn ways_form(explained: &Explanation, words: &Words) -> String {
    let mut tests: Vec<Vec<String>> = tests_of(explained)
        .map(|(name, typed)| vec![format!("{} (line {})", words.concept(name), typed.line)])
        .collect();
    if tests.is_empty() {
        tests.push(Vec::new());
    }
    let roles = explained.file.collection.counts.all_roles();
    let trips = Table::form(&TRIPS, roles.map(|role| vec![words.role(role)]));
    Table::form(&TESTS, tests).text() + "\n" + &trips.text()
}

fn tests_of(explained: &Explanation) -> impl Iterator<Item = (Concept, Typed)> + '_ {
    let steps = explained.file.collection.steps.iter().zip(&explained.file.lines.steps);
    steps.filter_map(|(step, &line)| match *step {
        Step::Test { from, name, to } => Some((name, Typed { from, to, line })),
        Step::Role { .. } => None,
    })
}

/// The columns of all concepts below this one.
fn columns_below(explained: &Explanation, upper: Concept, words: &Words) -> String {
    let below = |lower: &Concept| explained.chains.concepts[lower].chain(upper).is_some();
    let columns: Vec<Concept> = explained.file.collection.counts.all_concepts().filter(below).collect();
    words.concepts(&columns)
}

/// The role steps on this signed role or one above it; rule 3 goes up by those on roles above the inverse.
fn steps_along(explained: &Explanation, made: Role, words: &Words) -> String {
    let steps = explained.file.collection.steps.iter().zip(&explained.file.lines.steps);
    let along = steps.filter_map(|(step, &line)| match *step {
        Step::Role { from, role, to } => {
            explained.chains.roles[&made].chain(role)?;
            Some(format!("{} to {} by {} (line {line})", from.0, to.0, words.role(role)))
        }
        Step::Test { .. } => None,
    });
    listed(&along.collect::<Vec<String>>())
}
