//! The places where an exclusion is looked for: individuals, the signed roles that a row can end in, the pairs joined by facts.

use super::table::Table;
use super::words::{listed, pair, Words};
use crate::collection::RoleFact;
use crate::explain::chain::{Above, Link};
use crate::explain::noted::{role_facts, Noted};
use crate::explain::Explanation;
use crate::numbers::{Concept, Individual, Role};
use std::collections::{BTreeMap, VecDeque};

const ENDS: [&str; 5] =
    ["Signed role R", "A row ends in R, since", "…·R has", "(…, …·R) has", "(…·R, …) has"];
const PAIRS: [&str; 3] = ["Pair", "Has", "Why"];
const EXCLUSIONS: [&str; 5] = ["Line", "Excluded", "The first at", "The second at", "Both at"];

/// Why a row can end in a signed role: an individual's concept, or the role before it in the row.
#[derive(Clone, Copy)]
enum End {
    Individual(Individual),
    After(Role),
}

/// The signed roles that a row can end in, each with the reason found first.
fn ends_of(explained: &Explanation) -> BTreeMap<Role, End> {
    let mut ends = BTreeMap::new();
    let mut waiting = VecDeque::new();
    let first = explained.people.iter().enumerate().flat_map(|(who, concepts)| {
        let roles = concepts.keys().filter_map(|concept| concept.as_neighbour());
        roles.map(move |role| (role, End::Individual(Individual(who as u8))))
    });
    let mut found: Vec<(Role, End)> = first.collect();
    loop {
        for (role, end) in found {
            ends.entry(role).or_insert_with(|| {
                waiting.push_back(role);
                end
            });
        }
        let Some(before) = waiting.pop_front() else { return ends };
        let has = concepts_after(explained, before);
        found = has.iter().filter_map(|has| Some((has.as_neighbour()?, End::After(before)))).collect();
    }
}

/// What an element has whose row ends in this role, in the order of the numbers.
fn concepts_after(explained: &Explanation, role: Role) -> Vec<Concept> {
    let mut concepts = itself_and_above(&explained.chains.concepts, role.inverse().neighbour());
    concepts.sort();
    concepts
}

fn roles_above(explained: &Explanation, role: Role) -> Vec<Role> {
    itself_and_above(&explained.chains.roles, role)
}

fn itself_and_above<T: Copy + Ord>(order: &BTreeMap<T, Above<T>>, lower: T) -> Vec<T> {
    std::iter::once(lower).chain(order[&lower].others()).collect()
}

/// For each signed role whether a row can end in it, and then what such an element has and how it is joined to its parent.
pub fn ends(explained: &Explanation, words: &Words) -> String {
    let ends = ends_of(explained);
    let mut table = Table::new(&ENDS);
    for role in explained.file.collection.counts.all_roles() {
        let Some(end) = ends.get(&role) else {
            let nothing = String::new;
            table.row([words.role(role), "no row does".to_string(), nothing(), nothing(), nothing()]);
            continue;
        };
        table.row([
            words.role(role),
            since(*end, role, words),
            words.concepts(&concepts_after(explained, role)),
            words.roles(&roles_above(explained, role)),
            words.roles(&roles_above(explained, role.inverse())),
        ]);
    }
    table.text()
}

fn since(end: End, role: Role, words: &Words) -> String {
    let there = words.concept(role.neighbour());
    match end {
        End::Individual(who) => format!("{} has {there}", who.0),
        End::After(before) => format!("…·{} has {there}", words.bracketed(before)),
    }
}

pub fn ends_form(explained: &Explanation, words: &Words) -> String {
    let roles = explained.file.collection.counts.all_roles();
    Table::form(&ENDS, roles.map(|role| vec![words.role(role)])).text()
}

/// Each ordered pair of individuals that facts join, with its signed roles, and the line and rules each comes from.
type Pairs = BTreeMap<(Individual, Individual), BTreeMap<Role, (usize, Role, Vec<Link<Role>>)>>;

fn pairs_of(explained: &Explanation) -> Pairs {
    let file = &explained.file;
    let mut pairs = Pairs::new();
    for (RoleFact { role, first, second, .. }, Noted { line, .. }) in role_facts(file) {
        for (first, second, typed) in [(first, second, role), (second, first, role.inverse())] {
            let has = pairs.entry((first, second)).or_default();
            for to in roles_above(explained, typed) {
                let chain = explained.chains.roles[&typed].chain(to).expect("it is above");
                if has.get(&to).is_none_or(|(_, _, known)| chain.len() < known.len()) {
                    has.insert(to, (line, typed, chain));
                }
            }
        }
    }
    pairs
}

/// The pairs of individuals that facts join, each both ways.
pub fn pairs(explained: &Explanation, words: &Words) -> String {
    let pairs = pairs_of(explained);
    if pairs.is_empty() {
        return "No role fact is typed, so no pair of individuals has a row.\n".to_string();
    }
    let mut table = Table::new(&PAIRS);
    for ((first, second), has) in &pairs {
        for (role, (line, typed, links)) in has {
            let rules = if links.is_empty() {
                String::new()
            } else {
                format!("; {}", words.chain(*typed, links, Words::role))
            };
            let ends = if first == second { "it to itself" } else { "them" };
            let why = format!("line {line} joins {ends} by {}{rules}", words.role(*typed));
            table.row([pair(*first, *second), words.role(*role), why]);
        }
    }
    table.text()
}

pub fn pairs_form() -> String {
    Table::form(&PAIRS, [Vec::new()]).text()
}

/// The exclusions in the order of the file: line, the two sides in words, and the places of each.
fn exclusions_of(explained: &Explanation, words: &Words) -> BTreeMap<usize, (String, [Vec<String>; 2])> {
    let (file, collection) = (&explained.file, &explained.file.collection);
    let concepts = collection.concept_exclusions.iter().zip(&file.lines.concept_exclusions);
    let concepts = concepts.map(|(&(left, right), &line)| {
        let excluded = format!("{} excludes {}", words.concept(left), words.concept(right));
        (line, (excluded, [left, right].map(|side| elements_with(explained, side, words))))
    });
    let roles = collection.role_exclusions.iter().zip(&file.lines.role_exclusions);
    let roles = roles.map(|(&(left, right), &line)| {
        let excluded = format!("{} excludes {}", words.role(left), words.role(right));
        (line, (excluded, [left, right].map(|side| pairs_with(explained, side, words))))
    });
    concepts.chain(roles).collect()
}

/// The individuals with a concept, then the elements with it by the role that their row ends in.
fn elements_with(explained: &Explanation, concept: Concept, words: &Words) -> Vec<String> {
    let people = explained.people.iter().enumerate();
    let people = people.filter(|(_, has)| has.contains_key(&concept)).map(|(who, _)| who.to_string());
    let ends = ends_of(explained).into_keys();
    let ends = ends.filter(|role| concepts_after(explained, *role).contains(&concept));
    people.chain(ends.map(|role| format!("…·{}", words.bracketed(role)))).collect()
}

/// The pairs of individuals with a signed role, then the pairs of a parent and its child, both ways.
fn pairs_with(explained: &Explanation, role: Role, words: &Words) -> Vec<String> {
    let pairs = pairs_of(explained).into_iter().filter(|(_, has)| has.contains_key(&role));
    let mut places: Vec<String> = pairs.map(|((first, second), _)| pair(first, second)).collect();
    for end in ends_of(explained).into_keys() {
        let child = format!("…·{}", words.bracketed(end));
        if roles_above(explained, end).contains(&role) {
            places.push(format!("(…, {child})"));
        }
        if roles_above(explained, end.inverse()).contains(&role) {
            places.push(format!("({child}, …)"));
        }
    }
    places
}

/// Where each side of each exclusion is, and where both are.
pub fn exclusions(explained: &Explanation, words: &Words) -> String {
    let exclusions = exclusions_of(explained, words);
    if exclusions.is_empty() {
        return "No exclusion is typed, so none has a row.\n".to_string();
    }
    let mut table = Table::new(&EXCLUSIONS);
    for (line, (excluded, [first, second])) in exclusions {
        let both: Vec<String> = first.iter().filter(|place| second.contains(place)).cloned().collect();
        let [first, second, both] = [first, second, both].map(|places| listed(&places));
        table.row([line.to_string(), excluded, first, second, both]);
    }
    table.text()
}

pub fn exclusions_form(explained: &Explanation, words: &Words) -> String {
    let known = exclusions_of(explained, words).into_iter();
    let mut rows: Vec<Vec<String>> =
        known.map(|(line, (excluded, _))| vec![line.to_string(), excluded]).collect();
    if rows.is_empty() {
        rows.push(Vec::new());
    }
    Table::form(&EXCLUSIONS, rows).text()
}
