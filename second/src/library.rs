//! The library's calls: over lent tables, with both areas (docs/RULES.md, sections 3 and 7); what each round adds (section 6);
//! from marks to tables (section 8); the list of a sheet, and where a list departs from it (section 12); which facts are kept
//! (section 13).

use crate::area::AREA;
use crate::ask::Ask;
use crate::collection::{Collection, ConceptFact, Counts, RoleFact, Step};
use crate::desk::read::MOST_LISTED;
use crate::expression::automaton::Automaton;
use crate::expression::read::{expression, too_deep};
use crate::expression::Letter;
use crate::listing::{self, Entry};
use crate::numbers::{Concept, Deed, Role, State, MOST_STATES};
use crate::prepared::{Prepared, ALLOWANCE_SPENT, CONTRADICTION};
use crate::salvage::{kept, Fact};
use crate::sheet::Mark;
use std::collections::BTreeSet;

/// How many numbers a record has and how many records there may be, in the order of docs/RULES.md, section 3.
pub const SHAPES: [(usize, usize); 8] =
    [(2, 512), (2, 512), (2, 128), (2, 128), (3, 1_024), (4, 4_096), (4, 1_024), (1, 32)];

/// The places of both tables of facts; the last number of their records is a deed number.
pub const CONCEPT_FACTS: usize = 4;
pub const ROLE_FACTS: usize = 5;

/// The most pairs of one row, and the most asks.
pub const PAIRS: usize = 256;

/// What is lent for any ask. Every value is possible in every place.
#[derive(Clone, Debug, PartialEq, Eq)]
pub struct Call {
    /// Names, roles, individuals, states, start.
    pub counts: [u16; 5],
    /// Concept rules, concept exclusions, role rules, role exclusions, concept facts, role facts, steps, finals.
    pub tables: [Vec<u16>; 8],
    pub allowance: u32,
}

impl Call {
    /// What lends a collection already read.
    pub fn of(collection: &Collection, allowance: u32) -> Call {
        let counts = &collection.counts;
        let sizes = [counts.names, counts.roles, counts.individuals, counts.states, counts.start.0];
        let concepts = |table: &[(Concept, Concept)]| flat(table, |pair| vec![pair.0 .0, pair.1 .0]);
        let roles = |table: &[(Role, Role)]| flat(table, |pair| vec![pair.0 .0, pair.1 .0]);
        let tables = [
            concepts(&collection.concept_rules),
            concepts(&collection.concept_exclusions),
            roles(&collection.role_rules),
            roles(&collection.role_exclusions),
            collection.concept_facts.iter().flat_map(concept_fact_numbers).collect(),
            collection.role_facts.iter().flat_map(role_fact_numbers).collect(),
            step_numbers(&collection.steps),
            final_numbers(&collection.finals),
        ];
        Call { counts: sizes.map(u16::from), tables, allowance }
    }
}

/// What a collection says, whatever the order and the repeats of its records are. Only whole records are told apart.
#[derive(Clone, Debug, PartialEq, Eq)]
pub struct Sets {
    pub counts: [u16; 5],
    pub tables: [BTreeSet<Vec<u16>>; 8],
}

pub fn sets(call: &Call) -> Sets {
    let records = |table: usize| call.tables[table].chunks(SHAPES[table].0).map(<[u16]>::to_vec).collect();
    Sets { counts: call.counts, tables: [0, 1, 2, 3, 4, 5, 6, 7].map(records) }
}

/// Whether two collections are the same as sets, 1 or 0; else the refusal of the first, or else that of the second. Neither
/// allowance is looked at, and no area is lent.
pub fn same_records(one: &Call, other: &Call) -> u8 {
    let refused = |call: &Call| checked(call, AREA, AREA).err();
    refused(one).or(refused(other)).unwrap_or(u8::from(sets(one) == sets(other)))
}

fn flat<T>(table: &[T], record: impl Fn(&T) -> Vec<u8>) -> Vec<u16> {
    table.iter().flat_map(record).map(u16::from).collect()
}

fn concept_fact_numbers(fact: &ConceptFact) -> [u16; 3] {
    [fact.name.0.into(), fact.who.0.into(), fact.deed.0]
}

fn role_fact_numbers(fact: &RoleFact) -> [u16; 4] {
    [u16::from(fact.role.0 / 2), fact.first.0.into(), fact.second.0.into(), fact.deed.0]
}

fn step_numbers(steps: &[Step]) -> Vec<u16> {
    flat(steps, |step| match *step {
        Step::Role { from, role, to } => vec![0, from.0, role.0, to.0],
        Step::Test { from, name, to } => vec![1, from.0, name.0, to.0],
    })
}

fn final_numbers(finals: &[State]) -> Vec<u16> {
    flat(finals, |state| vec![state.0])
}

/// The number and its count; the areas are written after 0, 1 and 3 only.
pub fn ask(call: &Call, pair: [u16; 2], area: &mut [u8], spare: &mut [u8]) -> (u8, u32) {
    ask_each(call, &[Asked::Pair(pair)], area, spare)[0]
}

/// Likewise for one individual.
pub fn ask_from(call: &Call, first: u16, area: &mut [u8], spare: &mut [u8]) -> (u8, u32) {
    ask_each(call, &[Asked::From(first)], area, spare)[0]
}

/// An ask that need not be declared.
enum Asked {
    Pair([u16; 2]),
    From(u16),
}

/// The answers to a row of pairs, first and second after each other. The two lengths are those of the entries lent for
/// numbers and counts; None, and nothing written, where a pair is broken, there are too many, or a length is not theirs.
pub fn ask_all(
    call: &Call,
    pairs: &[u16],
    entries: [usize; 2],
    area: &mut [u8],
    spare: &mut [u8],
) -> Option<Vec<(u8, u32)>> {
    let whole = pairs.chunks_exact(2);
    let broken = !whole.remainder().is_empty();
    let row: Vec<Asked> = whole.map(|pair| Asked::Pair([pair[0], pair[1]])).collect();
    let fits = !broken && row.len() <= PAIRS && entries == [row.len(); 2];
    fits.then(|| ask_each(call, &row, area, spare))
}

/// The answers to a row of asks of both kinds, three numbers each: 0 for a pair or 1 for one individual, first, second. Else
/// the refusal, and nothing written: 5 where an ask is broken, there are too many, or a length is not theirs; then 6 for
/// another kind.
pub fn ask_row(
    call: &Call,
    asks: &[u16],
    entries: [usize; 2],
    area: &mut [u8],
    spare: &mut [u8],
) -> Result<Vec<(u8, u32)>, u8> {
    let whole = asks.chunks_exact(3);
    if !whole.remainder().is_empty() || whole.len() > PAIRS || entries != [whole.len(); 2] {
        return Err(5);
    }
    let row = whole.map(|ask| match ask[0] {
        0 => Some(Asked::Pair([ask[1], ask[2]])),
        1 => Some(Asked::From(ask[1])),
        _ => None,
    });
    let row = row.collect::<Option<Vec<Asked>>>().ok_or(6)?;
    Ok(ask_each(call, &row, area, spare))
}

/// The number, and how many marks each worked round adds, round 1 first, for a row that has so much room: 4, then 5 where
/// there is no room for each round that is allowed, 5 and 6, 2, 3, or else 0. None, and nothing written, after all but 0
/// and 3.
pub fn marks(call: &Call, room: usize, area: &mut [u8], spare: &mut [u8]) -> (u8, Option<Vec<u32>>) {
    let collection = match checked(call, area.len(), spare.len()) {
        Err(4) => return (4, None),
        _ if room < call.allowance as usize => return (5, None),
        Err(number) => return (number, None),
        Ok(collection) => collection,
    };
    let prepared = Prepared::of(&collection, call.allowance);
    let (Some(added), Some(bytes)) = (prepared.added(), prepared.area()) else {
        return (CONTRADICTION, None);
    };
    area.copy_from_slice(&bytes);
    spare.fill(0);
    (if prepared.spent() { ALLOWANCE_SPENT } else { 0 }, Some(added.to_vec()))
}

/// The numbers of an entry in a row: its round, two states and a concept.
const ENTRY: usize = 4;

/// The numbers of the longest list; a row that takes one must have room for so many, whatever is put there.
pub const LONGEST_LIST: usize = ENTRY * MOST_LISTED;

pub fn entry_numbers(entry: &Entry) -> [u32; ENTRY] {
    let Mark { from, to, concept } = entry.mark;
    [entry.round, from.0.into(), to.0.into(), concept.0.into()]
}

/// The list of the closed sheet, for a row that has room for so many numbers: 4, then 5 where it is too short for the longest
/// list, 5 and 6, 2. Neither an allowance nor an area is lent.
pub fn list_of(call: &Call, room: usize) -> Result<Vec<Entry>, u8> {
    let collection = match checked(call, AREA, AREA) {
        Err(4) => return Err(4),
        _ if room < LONGEST_LIST => return Err(5),
        checked => checked?,
    };
    listing::listing(&collection).ok_or(CONTRADICTION)
}

/// The place of the first entry in which a list departs from that of the closed sheet, or of the one after its last where it
/// is short, which is number 15; None where it is that list. Else 4, 5 where an entry is broken or there are too many, 5 and 6,
/// then 6 where a state or a concept of an entry is not declared, 2.
pub fn departs(call: &Call, list: &[u32]) -> Result<Option<usize>, u8> {
    let entries = list.chunks_exact(ENTRY);
    let whole = entries.remainder().is_empty() && entries.len() <= MOST_LISTED;
    let collection = match checked(call, AREA, AREA) {
        Err(4) => return Err(4),
        _ if !whole => return Err(5),
        checked => checked?,
    };
    let typed =
        entries.map(|numbers| entry(&collection.counts, numbers)).collect::<Option<Vec<Entry>>>().ok_or(6)?;
    let listed = listing::listing(&collection).ok_or(CONTRADICTION)?;
    Ok(listing::departure(&typed, &listed))
}

/// What stands in an order for a fact of either table.
pub const CONCEPT_FACT: u16 = 0;
pub const ROLE_FACT: u16 = 1;

/// Whether each fact is kept, in the order that says from which table the next one comes, for a row that has so much room: 4,
/// then 5 where the order does not name each fact of both tables once, or the row has no place for each, 5 and 6.
pub fn salvage(call: &Call, order: &[u16], room: usize) -> Result<Vec<bool>, u8> {
    let many = |table: usize| call.tables[table].len() / SHAPES[table].0;
    let named = |number: u16| order.iter().filter(|one| **one == number).count();
    let (concepts, roles) = (many(CONCEPT_FACTS), many(ROLE_FACTS));
    let names_all =
        [named(CONCEPT_FACT), named(ROLE_FACT), order.len()] == [concepts, roles, concepts + roles];
    let collection = match checked(call, AREA, AREA) {
        Err(4) => return Err(4),
        _ if !names_all || room < order.len() => return Err(5),
        checked => checked?,
    };
    let (mut concepts, mut roles) = (collection.concept_facts.iter(), collection.role_facts.iter());
    let next = |kind: &u16| match *kind {
        CONCEPT_FACT => concepts.next().map(|fact| Fact::Concept(*fact)),
        _ => roles.next().map(|fact| Fact::Role(*fact)),
    };
    let facts: Vec<Fact> = order.iter().filter_map(next).collect();
    Ok(kept(&collection, &facts))
}

/// None where a state or the concept is not declared; no round is refused.
fn entry(counts: &Counts, numbers: &[u32]) -> Option<Entry> {
    let state = |number: u32| counts.state(u16::try_from(number).ok()?);
    let (from, to) = (state(numbers[1])?, state(numbers[2])?);
    let concept = counts.basic_concept(u16::try_from(numbers[3]).ok()?)?;
    Some(Entry { round: numbers[0], mark: Mark { from, to, concept } })
}

/// One ask after the other, each with the areas as the one before left them.
fn ask_each(call: &Call, asks: &[Asked], area: &mut [u8], spare: &mut [u8]) -> Vec<(u8, u32)> {
    let collection = match checked(call, area.len(), spare.len()) {
        Ok(sound) => sound,
        Err(number) => return vec![(number, 0); asks.len()],
    };
    let mut prepared = None;
    let answer = |asked: &Asked| {
        let Some(ask) = declared(&collection.counts, asked) else { return (8, 0) };
        let prepared = prepared.get_or_insert_with(|| Prepared::of(&collection, call.allowance));
        if let Some(bytes) = prepared.area() {
            area.copy_from_slice(&bytes);
            spare.fill(0);
        }
        prepared.answer(ask)
    };
    asks.iter().map(answer).collect()
}

fn declared(counts: &Counts, asked: &Asked) -> Option<Ask> {
    Some(match *asked {
        Asked::Pair([first, second]) => Ask::Pair(counts.individual(first)?, counts.individual(second)?),
        Asked::From(first) => Ask::From(counts.individual(first)?),
    })
}

/// The refusals before the ask's own 8, in the library's order: 4, 5, 6.
fn checked(call: &Call, area: usize, spare: usize) -> Result<Collection, u8> {
    let [names, roles, individuals, states, start] = call.counts;
    let counts = Counts::new(names, roles, individuals, states, start).ok_or(4)?;
    let well_shaped = call
        .tables
        .iter()
        .zip(SHAPES)
        .all(|(table, (width, most))| table.len() % width == 0 && table.len() / width <= most);
    if !well_shaped || area != AREA || spare != AREA {
        return Err(5);
    }
    records(counts, &call.tables).ok_or(6)
}

/// None is number 6: a number in a record not declared, or a step kind above 1.
fn records(counts: Counts, tables: &[Vec<u16>; 8]) -> Option<Collection> {
    let [rules, exclusions, role_rules, role_exclusions, facts, role_facts, steps, finals] = tables;
    Some(Collection {
        counts,
        concept_rules: concept_pairs(&counts, rules)?,
        concept_exclusions: concept_pairs(&counts, exclusions)?,
        role_rules: role_pairs(&counts, role_rules)?,
        role_exclusions: role_pairs(&counts, role_exclusions)?,
        concept_facts: facts.chunks(3).map(|record| concept_fact(&counts, record)).collect::<Option<_>>()?,
        role_facts: role_facts.chunks(4).map(|record| role_fact(&counts, record)).collect::<Option<_>>()?,
        steps: steps.chunks(4).map(|record| step(&counts, record)).collect::<Option<_>>()?,
        finals: finals.iter().map(|&state| counts.state(state)).collect::<Option<_>>()?,
    })
}

fn concept_pairs(counts: &Counts, table: &[u16]) -> Option<Vec<(Concept, Concept)>> {
    let pair = |record: &[u16]| Some((counts.basic_concept(record[0])?, counts.basic_concept(record[1])?));
    table.chunks(2).map(pair).collect()
}

fn role_pairs(counts: &Counts, table: &[u16]) -> Option<Vec<(Role, Role)>> {
    let pair = |record: &[u16]| Some((counts.signed_role(record[0])?, counts.signed_role(record[1])?));
    table.chunks(2).map(pair).collect()
}

fn concept_fact(counts: &Counts, record: &[u16]) -> Option<ConceptFact> {
    let (name, who) = (counts.name(record[0])?, counts.individual(record[1])?);
    Some(ConceptFact { name, who, deed: Deed(record[2]) })
}

fn role_fact(counts: &Counts, record: &[u16]) -> Option<RoleFact> {
    let role = counts.role_name(record[0])?;
    let (first, second) = (counts.individual(record[1])?, counts.individual(record[2])?);
    Some(RoleFact { role, first, second, deed: Deed(record[3]) })
}

fn step(counts: &Counts, record: &[u16]) -> Option<Step> {
    let (from, to) = (counts.state(record[1])?, counts.state(record[3])?);
    match record[0] {
        0 => Some(Step::Role { from, role: counts.signed_role(record[2])?, to }),
        1 => Some(Step::Test { from, name: counts.name(record[2])?, to }),
        _ => None,
    }
}

/// How many numbers the rows for steps and for finals must have, whatever is put there: those of the fullest tables.
pub const ROOM: [usize; 2] = [SHAPES[6].0 * SHAPES[6].1, SHAPES[7].0 * SHAPES[7].1];

/// What is made of an expression: how many states to declare, and the numbers of its steps and of its finals.
#[derive(Clone, Debug, PartialEq, Eq)]
pub struct Made {
    pub states: u16,
    pub tables: [Vec<u16>; 2],
}

/// The tables of an expression from its marks, to be put into rows of these lengths; or the refusal, in the order 5, 13,
/// 12, 14. Whether the marks are declared isn't asked here.
pub fn made_of(marks: &[u8], rows: [usize; 2]) -> Result<Made, u8> {
    if rows[0] < ROOM[0] || rows[1] < ROOM[1] {
        return Err(5);
    }
    if too_deep(marks).is_some() {
        return Err(13);
    }
    let read = expression(marks).map_err(|_| 12)?;
    if role_and_test_marks(marks) >= usize::from(MOST_STATES) {
        return Err(14);
    }
    let automaton = Automaton::of(&read);
    let tables = [step_numbers(&automaton.as_steps()), final_numbers(&automaton.as_finals())];
    Ok(Made { states: automaton.states() as u16, tables })
}

/// How many of these marks become a state.
pub fn role_and_test_marks(marks: &[u8]) -> usize {
    marks.iter().filter(|mark| Letter::of(**mark).is_some()).count()
}
