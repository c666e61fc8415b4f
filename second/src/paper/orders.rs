//! What stands before the sheet: the numbers of concepts and signed roles, both orders, and who has which concept.

use super::table::Table;
use super::words::Words;
use crate::explain::chain::Above;
use crate::explain::people::{Has, Source};
use crate::explain::Explanation;
use std::collections::BTreeMap;

const ROLE_NUMBERS: [&str; 3] = ["Signed role", "Number", "Typed"];
const CONCEPT_NUMBERS: [&str; 3] = ["Concept", "Number", "Typed"];
const ROLE_ORDER: [&str; 3] = ["Signed role", "Above it", "By"];
const CONCEPT_ORDER: [&str; 3] = ["Concept", "Above it", "By"];
const PEOPLE: [&str; 3] = ["Individual", "Has", "Why"];

/// The numbers of all signed roles and concepts, as they are typed.
pub fn numbers(explained: &Explanation, words: &Words) -> String {
    let counts = &explained.file.collection.counts;
    let mut roles = Table::new(&ROLE_NUMBERS);
    for role in counts.all_roles() {
        roles.row([words.role(role), role.0.to_string(), format!("`{:02X}`", role.0)]);
    }
    let mut concepts = Table::new(&CONCEPT_NUMBERS);
    for concept in counts.all_concepts() {
        concepts.row([words.concept(concept), concept.0.to_string(), format!("`{:02X}`", concept.0)]);
    }
    both(roles, concepts)
}

pub fn numbers_form(explained: &Explanation, words: &Words) -> String {
    by_role_and_concept(explained, words, &ROLE_NUMBERS, &CONCEPT_NUMBERS)
}

/// What is above each signed role and each concept, itself left out, with the rules that make it so.
pub fn orders(explained: &Explanation, words: &Words) -> String {
    let roles = order(&ROLE_ORDER, &explained.chains.roles, words, Words::role);
    both(roles, order(&CONCEPT_ORDER, &explained.chains.concepts, words, Words::concept))
}

pub fn orders_form(explained: &Explanation, words: &Words) -> String {
    by_role_and_concept(explained, words, &ROLE_ORDER, &CONCEPT_ORDER)
}

fn order<T: Copy + Ord>(
    heads: &[&str; 3],
    order: &BTreeMap<T, Above<T>>,
    words: &Words,
    word: fn(&Words, T) -> String,
) -> Table {
    let mut table = Table::new(heads);
    for (&lower, above) in order {
        for upper in above.others() {
            let links = above.chain(upper).expect("it is above");
            table.row([word(words, lower), word(words, upper), words.chain(lower, &links, word)]);
        }
        if above.others().next().is_none() {
            table.row([word(words, lower), "none".to_string(), String::new()]);
        }
    }
    table
}

/// A row for each signed role, and a row for each concept.
fn by_role_and_concept(
    explained: &Explanation,
    words: &Words,
    of_roles: &[&str; 3],
    of_concepts: &[&str; 3],
) -> String {
    let counts = &explained.file.collection.counts;
    let roles = Table::form(of_roles, counts.all_roles().map(|role| vec![words.role(role)]));
    both(roles, Table::form(of_concepts, counts.all_concepts().map(|concept| vec![words.concept(concept)])))
}

fn both(first: Table, second: Table) -> String {
    first.text() + "\n" + &second.text()
}

/// Every individual with its concepts, and the fact and rules each comes from.
pub fn people(explained: &Explanation, words: &Words) -> String {
    let mut table = Table::new(&PEOPLE);
    for (who, concepts) in explained.people.iter().enumerate() {
        for has in concepts.values() {
            table.row([who.to_string(), words.concept(has.concept), why(has, words)]);
        }
        if concepts.is_empty() {
            table.row([who.to_string(), "none".to_string(), "no fact is about it".to_string()]);
        }
    }
    table.text()
}

pub fn people_form(explained: &Explanation) -> String {
    let people = explained.file.collection.counts.all_individuals();
    Table::form(&PEOPLE, people.map(|who| vec![who.0.to_string()])).text()
}

pub fn why(has: &Has, words: &Words) -> String {
    let line = has.noted.line;
    let fact = match has.source {
        Source::Name => format!("typed on line {line}"),
        Source::Neighbour { role, other } => {
            format!("line {line} joins it by {} to {}", words.role(role), other.0)
        }
    };
    if has.chain.is_empty() {
        fact
    } else {
        format!("{fact}; {}", words.chain(has.from, &has.chain, Words::concept))
    }
}
