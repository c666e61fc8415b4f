//! Records thrown into a collection: rules, facts, steps, exclusions, and repeats that fill the tables.

use super::deeds::throw_deed;
use super::dice::Dice;
use crate::clash::{breaks_concepts, breaks_roles, element_concepts, last_roles, pair_roles};
use crate::collection::{Collection, ConceptFact, Counts, RoleFact, Step};
use crate::desk::question::{MOST_FINALS, MOST_STEPS};
use crate::numbers::{Concept, Individual, Role, State};
use crate::order::Orders;
use crate::people::People;

/// How many records of each kind are thrown.
#[derive(Default)]
pub struct Amounts {
    pub rules: usize,
    pub exclusions: usize,
    pub role_rules: usize,
    pub role_exclusions: usize,
    pub facts: usize,
    pub role_facts: usize,
    pub steps: usize,
    pub finals: usize,
}

pub fn throw_records(dice: &mut Dice, collection: &mut Collection, amounts: &Amounts) {
    let counts = collection.counts;
    let concepts: Vec<Concept> = counts.all_concepts().collect();
    let roles: Vec<Role> = counts.all_roles().collect();
    for _ in 0..if_any(&concepts, amounts.rules) {
        collection.concept_rules.push((dice.pick(&concepts), dice.pick(&concepts)));
    }
    for _ in 0..if_any(&roles, amounts.role_rules) {
        collection.role_rules.push((dice.pick(&roles), dice.pick(&roles)));
    }
    throw_exclusions(dice, collection, amounts.exclusions, amounts.role_exclusions);
    throw_facts(dice, collection, amounts);
    for _ in 0..amounts.steps {
        collection.steps.extend(throw_step(dice, &counts));
    }
    for _ in 0..amounts.finals {
        collection.finals.push(throw_state(dice, &counts));
    }
}

pub fn throw_facts(dice: &mut Dice, collection: &mut Collection, amounts: &Amounts) {
    let counts = collection.counts;
    let names: Vec<Concept> = (0..counts.names).map(Concept).collect();
    let roles: Vec<Role> = (0..counts.roles).map(Role::forward).collect();
    let people: Vec<Individual> = counts.all_individuals().collect();
    for _ in 0..if_any(&names, if_any(&people, amounts.facts)) {
        let (name, who) = (dice.pick(&names), dice.pick(&people));
        collection.concept_facts.push(ConceptFact { name, who, deed: throw_deed(dice) });
    }
    for _ in 0..if_any(&roles, if_any(&people, amounts.role_facts)) {
        let first = dice.pick(&people);
        // Of many people two picked are seldom one, so it is made so.
        let second = if dice.percent(30) { first } else { dice.pick(&people) };
        let role = dice.pick(&roles);
        collection.role_facts.push(RoleFact { role, first, second, deed: throw_deed(dice) });
    }
}

/// No record can be thrown where there is nothing to pick from.
fn if_any<T>(list: &[T], amount: usize) -> usize {
    if list.is_empty() {
        0
    } else {
        amount
    }
}

fn throw_state(dice: &mut Dice, counts: &Counts) -> State {
    State(dice.below(usize::from(counts.states)) as u8)
}

pub fn throw_step(dice: &mut Dice, counts: &Counts) -> Option<Step> {
    let (from, to) = (throw_state(dice, counts), throw_state(dice, counts));
    let test = counts.names > 0 && dice.percent(25);
    if test {
        Some(Step::Test { from, name: Concept(dice.below(usize::from(counts.names)) as u8), to })
    } else if counts.roles > 0 {
        Some(Step::Role { from, role: Role(dice.below(2 * usize::from(counts.roles)) as u8), to })
    } else {
        None
    }
}

/// Adds a question that goes down by a row of roles and comes back by their inverses, so that loops are frequent.
pub fn there_and_back(dice: &mut Dice, collection: &mut Collection) {
    let counts = collection.counts;
    let (states, roles) = (usize::from(counts.states), 2 * usize::from(counts.roles));
    if roles == 0 || states < 3 {
        return;
    }
    let long = dice.between(1, (states - 1) / 2);
    let word: Vec<Role> = (0..long).map(|_| Role(dice.below(roles) as u8)).collect();
    let back = word.iter().rev().map(|role| role.inverse());
    let mut from = counts.start;
    for role in word.iter().copied().chain(back) {
        let to = State((from.0 + 1) % counts.states);
        collection.steps.push(Step::Role { from, role, to });
        from = to;
    }
    collection.finals.push(from);
    // A chance that the tree is deep enough for it.
    for &role in &word {
        if dice.percent(70) {
            let below: Vec<Concept> = counts.all_concepts().collect();
            collection.concept_rules.push((dice.pick(&below), role.neighbour()));
        }
    }
}

/// Adds a ring of steps down by one role and another up, so that the loops found last are deep.
pub fn rings_of_steps(dice: &mut Dice, collection: &mut Collection) {
    let counts = collection.counts;
    let roles: Vec<Role> = counts.all_roles().collect();
    if roles.is_empty() {
        return;
    }
    let role = dice.pick(&roles);
    let mut states: Vec<State> = counts.all_states().collect();
    for carried in [role, role.inverse()] {
        dice.shuffle(&mut states);
        let ring = dice.between(1, states.len());
        for (place, &from) in states[..ring].iter().enumerate() {
            collection.steps.push(Step::Role { from, role: carried, to: states[(place + 1) % ring] });
        }
    }
    let concepts: Vec<Concept> = counts.all_concepts().collect();
    collection.concept_rules.push((dice.pick(&concepts), role.neighbour()));
    collection.concept_rules.push((role.inverse().neighbour(), dice.pick(&concepts)));
}

pub fn throw_exclusions(dice: &mut Dice, collection: &mut Collection, concepts: usize, roles: usize) {
    let valid: Vec<Concept> = collection.counts.all_concepts().collect();
    let signed: Vec<Role> = collection.counts.all_roles().collect();
    for _ in 0..if_any(&valid, concepts) {
        collection.concept_exclusions.push((dice.pick(&valid), dice.pick(&valid)));
    }
    for _ in 0..if_any(&signed, roles) {
        collection.role_exclusions.push((dice.pick(&signed), dice.pick(&signed)));
    }
}

/// Exclusions that no element and no pair breaks, as far as some are found.
pub fn harmless_exclusions(dice: &mut Dice, collection: &mut Collection, concepts: usize, roles: usize) {
    let orders = Orders::of(collection);
    let people = People::of(collection, &orders);
    let last = last_roles(collection, &orders, &people);
    let elements = element_concepts(&orders, &people, &last);
    let pairs = pair_roles(&orders, &people, &last);
    throw_exclusions(dice, collection, 4 * concepts, 4 * roles);
    collection.concept_exclusions.retain(|exclusion| !breaks_concepts(&elements, *exclusion));
    collection.concept_exclusions.truncate(concepts);
    collection.role_exclusions.retain(|exclusion| !breaks_roles(&pairs, *exclusion));
    collection.role_exclusions.truncate(roles);
}

/// Adds a row of different roles that a name promises, each by the one before, so that there are deep elements.
pub fn promised_row(dice: &mut Dice, collection: &mut Collection, name: Concept) -> Vec<Role> {
    let mut names: Vec<u8> = (0..collection.counts.roles).collect();
    dice.shuffle(&mut names);
    let row: Vec<Role> = names.iter().map(|name| Role(2 * name + dice.below(2) as u8)).collect();
    let mut at = name;
    for role in &row {
        collection.concept_rules.push((at, role.neighbour()));
        at = role.inverse().neighbour();
    }
    row
}

/// One exclusion that the elements ending in this role break, or their pairs with their parents.
/// It is made without asking the modules that are compared where the model clashes.
pub fn exclusion_below(dice: &mut Dice, collection: &mut Collection, role: Role, name: Concept) {
    let child = role.inverse().neighbour();
    match dice.below(5) {
        0 => collection.concept_exclusions.push((child, child)),
        1 => {
            collection.concept_rules.push((child, name));
            collection.concept_exclusions.push(dice.pick(&[(name, child), (child, name), (name, name)]));
        }
        2 => collection.role_exclusions.push(dice.pick(&[(role, role), (role.inverse(), role.inverse())])),
        _ => {
            let wider = Role(dice.below(2 * usize::from(collection.counts.roles)) as u8);
            collection.role_rules.push((role, wider));
            let backward = (wider.inverse(), role.inverse());
            collection.role_exclusions.push(dice.pick(&[(role, wider), (wider, role), backward]));
        }
    }
}

/// Some facts once more, each by a deed of its own: they mean nothing more, but stand in the tables. No table is full.
pub fn repeat_by_other_deeds(dice: &mut Dice, collection: &mut Collection) {
    if !collection.concept_facts.is_empty() {
        let fact = dice.pick(&collection.concept_facts);
        collection.concept_facts.push(ConceptFact { deed: throw_deed(dice), ..fact });
    }
    if !collection.role_facts.is_empty() {
        let fact = dice.pick(&collection.role_facts);
        collection.role_facts.push(RoleFact { deed: throw_deed(dice), ..fact });
    }
}

/// Repeated records mean nothing more, but they fill the tables; so do facts that differ only in the deed number.
pub fn repeat_to_the_most(dice: &mut Dice, collection: &mut Collection) {
    fn fill<T: Copy>(dice: &mut Dice, table: &mut Vec<T>, most: usize) {
        let distinct = table.len();
        while distinct > 0 && table.len() < most {
            table.push(table[dice.below(distinct)]);
        }
    }
    fill(dice, &mut collection.concept_rules, 512);
    fill(dice, &mut collection.concept_exclusions, 512);
    fill(dice, &mut collection.role_rules, 128);
    fill(dice, &mut collection.role_exclusions, 128);
    fill(dice, &mut collection.concept_facts, 1_024);
    fill(dice, &mut collection.role_facts, 4_096);
    fill(dice, &mut collection.steps, MOST_STEPS);
    fill(dice, &mut collection.finals, MOST_FINALS);
    if dice.percent(50) {
        collection.concept_facts.iter_mut().for_each(|fact| fact.deed = throw_deed(dice));
        collection.role_facts.iter_mut().for_each(|fact| fact.deed = throw_deed(dice));
    }
}
