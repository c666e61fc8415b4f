//! A salvage on paper: fact after fact in the order typed, what each gives, what it clashes with, and whether it is kept.

use super::clash::clash;
use super::table::Table;
use super::words::{pair, Words};
use crate::desk::dropped_line;
use crate::explain::salvage::{Dropped, Salvage, Typed};
use crate::explain::Explanation;
use crate::numbers::{Concept, Role};
use crate::salvage::Fact;

const HEADS: [&str; 5] = ["Line", "Fact", "What it gives", "Clashes with", "Kept"];

const NOT_CHOSEN: &str = "The file does not choose salvage, so no fact is dropped.\n";

/// The table, and behind it each clash.
pub fn salvage(explained: &Explanation, words: &Words) -> String {
    let Some(salvage) = &explained.salvage else { return NOT_CHOSEN.to_string() };
    let mut table = Table::new(&HEADS);
    for (fact, line) in facts(explained, salvage) {
        let dropped = salvage.dropped.iter().find(|dropped| dropped.fact.1.line == line);
        let with = dropped.map_or("nothing".to_string(), |dropped| clashes_with(dropped, words));
        let outcome = match dropped {
            None => "kept".to_string(),
            Some(_) => format!("dropped: `{}`", String::from_utf8_lossy(&dropped_line(line)).trim_end()),
        };
        let what = words.fact(&fact);
        table.row([line.to_string(), what, gives(explained, words, &fact), with, outcome]);
    }
    let clashes = salvage.dropped.iter().map(|dropped| {
        let (fact, noted) = &dropped.fact;
        format!("\nLine {}, {}. {}", noted.line, words.fact(fact), clash(&dropped.clash, words, false))
    });
    table.text() + &clashes.collect::<String>()
}

pub fn salvage_form(explained: &Explanation, words: &Words) -> String {
    let Some(salvage) = &explained.salvage else { return NOT_CHOSEN.to_string() };
    let facts = facts(explained, salvage).into_iter();
    Table::form(&HEADS, facts.map(|(fact, line)| vec![line.to_string(), words.fact(&fact)])).text()
}

/// The kept and the dropped ones in the order typed, each with its line.
fn facts(explained: &Explanation, salvage: &Salvage) -> Vec<(Fact, usize)> {
    let dropped = salvage.dropped.iter().map(|dropped| (dropped.fact.0, dropped.fact.1.line));
    let mut facts: Vec<(Fact, usize)> = explained.file.facts().into_iter().chain(dropped).collect();
    facts.sort_by_key(|(_, line)| *line);
    facts
}

fn clashes_with(dropped: &Dropped, words: &Words) -> String {
    let one = |(fact, noted): &Typed| format!("{} (line {})", words.fact(fact), noted.line);
    match &dropped.with[..] {
        [] => "the rules alone".to_string(),
        with => with.iter().map(one).collect::<Vec<String>>().join(" and "),
    }
}

/// The concepts that a fact gives its individuals, and the signed roles that it gives their pair.
fn gives(explained: &Explanation, words: &Words, fact: &Fact) -> String {
    let concepts = |from: Concept| {
        let above = explained.chains.concepts[&from].others();
        let mut all: Vec<Concept> = std::iter::once(from).chain(above).collect();
        all.sort();
        words.concepts(&all)
    };
    match fact {
        Fact::Concept(fact) => format!("{} has {}", fact.who.0, concepts(fact.name)),
        Fact::Role(fact) => {
            let mut roles: Vec<Role> =
                std::iter::once(fact.role).chain(explained.chains.roles[&fact.role].others()).collect();
            roles.sort();
            let first = format!("{} has {}", fact.first.0, concepts(fact.role.neighbour()));
            let second = format!("{} has {}", fact.second.0, concepts(fact.role.inverse().neighbour()));
            format!("{first}; {second}; {} has {}", pair(fact.first, fact.second), words.roles(&roles))
        }
    }
}
