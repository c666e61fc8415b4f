//! The loop sheet as tables: an empty form, the sheet after each round, the marks of each round with their rules.

use super::table::Table;
use super::words::{counted, Words};
use crate::explain::path::{halves, inner};
use crate::explain::rounds::{Carried, Reason};
use crate::explain::Explanation;
use crate::numbers::{Concept, State};
use crate::sheet::Mark;

const ROUNDS: [&str; 6] = ["Round", "Added", "Rule", "Because", "Marks after the round", "The desk writes"];

/// A square for each state and concept, with nothing in it.
pub fn sheets_form(explained: &Explanation, words: &Words) -> String {
    squares(explained, words, |_, _| String::new()) + "\nMarks added:\n"
}

/// The sheet after round 0 and after each further round; what the round added is in bold, and how many at the foot.
pub fn sheets(explained: &Explanation, words: &Words) -> String {
    let mut text = String::new();
    for round in 0..=worked(explained) {
        let marks = counted(marks_after(explained, round), "mark");
        text += &format!("{}After round {round}: {marks}.\n\n", if round == 0 { "" } else { "\n" });
        text += &squares(explained, words, |from, concept| square(explained, round, from, concept));
        text += &foot(explained, round);
    }
    text
}

/// How many marks the round added, and what the desk writes of it; nothing below round 0.
fn foot(explained: &Explanation, round: usize) -> String {
    let Some(before) = round.checked_sub(1) else { return String::new() };
    let added = explained.rounds.added[before].len();
    let written = explained.round_line(round).map(|line| format!(" The desk writes `{line}`."));
    format!("\nMarks added: {added}.{}\n", written.unwrap_or_default())
}

/// `24 + 2 = 26`.
fn sum(explained: &Explanation, round: usize) -> String {
    let (before, after) = (marks_after(explained, round - 1), marks_after(explained, round));
    format!("{before} + {} = {after}", after - before)
}

fn squares(explained: &Explanation, words: &Words, inside: impl Fn(State, Concept) -> String) -> String {
    let counts = &explained.file.collection.counts;
    let concepts: Vec<Concept> = counts.all_concepts().collect();
    let mut heads = vec!["From state".to_string()];
    heads.extend(concepts.iter().map(|concept| words.concept(*concept)));
    let mut table = Table::new(&heads);
    for from in counts.all_states() {
        let cells = concepts.iter().map(|concept| inside(from, *concept));
        table.row(std::iter::once(from.0.to_string()).chain(cells));
    }
    table.text()
}

/// The states t with (s, t, B) after the round, those of the round itself in bold.
fn square(explained: &Explanation, round: usize, from: State, concept: Concept) -> String {
    let round_of = |to: State| {
        let mark = Mark { from, to, concept };
        let mut rounds = explained.rounds.added.iter().take(round);
        let place = rounds.position(|added| added.iter().any(|(known, _)| *known == mark));
        place.map(|before| before + 1).or_else(|| (from == to).then_some(0))
    };
    let states = explained.file.collection.counts.all_states();
    let written = states.filter_map(|to| match round_of(to) {
        Some(came) if came == round && round > 0 => Some(format!("**{}**", to.0)),
        Some(_) => Some(to.0.to_string()),
        None => None,
    });
    written.collect::<Vec<String>>().join(" ")
}

/// The rounds that the desk works: those needed, or the allowance where that is less.
pub fn worked(explained: &Explanation) -> usize {
    explained.rounds.needed().min(explained.file.allowance() as usize)
}

pub fn marks_of_round_0(explained: &Explanation) -> usize {
    let counts = &explained.file.collection.counts;
    usize::from(counts.states) * counts.all_concepts().count()
}

pub fn marks_after(explained: &Explanation, round: usize) -> usize {
    let added: usize = explained.rounds.added.iter().take(round).map(Vec::len).sum();
    marks_of_round_0(explained) + added
}

/// What each round added, mark by mark, and by which of the three rules.
pub fn rounds(explained: &Explanation, words: &Words) -> String {
    if explained.clash.is_some() {
        return "The collection is a contradiction, so no round is worked.\n".to_string();
    }
    let mut table = Table::new(&ROUNDS);
    let counts = &explained.file.collection.counts;
    let every = format!(
        "(s, s, B), {} times {}",
        counted(counts.states.into(), "state"),
        counted(counts.all_concepts().count(), "concept")
    );
    let nothing = String::new;
    let zero = marks_of_round_0(explained).to_string();
    table.row([0.to_string(), every, nothing(), nothing(), zero, nothing()]);
    for (before, added) in explained.rounds.added.iter().enumerate().take(worked(explained)) {
        let round = before + 1;
        let line = explained.round_line(round).map(|line| format!("`{line}`")).unwrap_or_default();
        for (place, (mark, reason)) in added.iter().enumerate() {
            let (rule, because) = rule(*mark, reason, words);
            let last = place + 1 == added.len();
            let (after, line) =
                if last { (sum(explained, round), line.clone()) } else { (nothing(), nothing()) };
            table.row([round.to_string(), words.mark(*mark), rule.to_string(), because, after, line]);
        }
    }
    table.text() + "\n" + &ending(explained)
}

pub fn rounds_form() -> String {
    Table::form(&ROUNDS, ["0", "1"].map(|round| vec![round.to_string()])).text()
}

/// Why no further round is worked.
fn ending(explained: &Explanation) -> String {
    let (needed, worked) = (explained.rounds.needed(), worked(explained));
    let allowance = explained.allowance();
    if worked < needed {
        let next = worked + 1;
        return format!(
            "Round {next} would add more, so the allowance of {allowance} is below the rounds needed.\n"
        );
    }
    let next = needed + 1;
    format!("Round {next} adds nothing and isn't counted: rounds needed {needed}, allowance {allowance}.\n")
}

fn rule(mark: Mark, reason: &Reason, words: &Words) -> (u8, String) {
    match reason {
        Reason::Test { name, line } => {
            let test = format!("test {} on line {line}", words.concept(*name));
            (1, test + &unless_equal(words.concept(mark.concept), words.concept(*name)))
        }
        Reason::Composed { middle } => {
            let [first, second] = halves(mark, *middle).map(|half| words.mark(half));
            (2, format!("{first} and {second} stand"))
        }
        Reason::Trip { role, down, up } => {
            let below = words.mark(inner(down, up, role.inverse().neighbour()));
            let child = unless_equal(words.concept(mark.concept), words.concept(role.neighbour()));
            let there = unless_equal(words.role(*role), words.role(down.role));
            let back = unless_equal(words.role(*role), words.role(up.role.inverse()));
            let (down, up) = (step(down, words), step(up, words));
            let made = format!("R is {}{child}", words.role(*role));
            (3, format!("{made}; down by {down}{there}; {below} stands; up by {up}{back}"))
        }
    }
}

/// `signs, 0 to 1 (line 5)`.
pub fn step(step: &Carried, words: &Words) -> String {
    format!("{}, {} to {} (line {})", words.role(step.role), step.from.0, step.to.0, step.line)
}

/// `, C ≤ D` where that isn't plain.
fn unless_equal(lower: String, upper: String) -> String {
    if lower == upper {
        String::new()
    } else {
        format!(", {lower} ≤ {upper}")
    }
}
