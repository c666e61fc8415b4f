//! Sound collections for the comparison: small, medium, full tables, many rounds.

use super::deeds::throw_deed;
use super::dice::Dice;
use super::throw::*;
use crate::ask::Ask;
use crate::collection::{Collection, ConceptFact, Counts, RoleFact, Step};
use crate::desk::question::MOST_STEPS;
use crate::numbers::{Concept, Individual, Role, State};

/// A collection with its asks.
pub struct Asked {
    pub collection: Collection,
    pub asks: Vec<Ask>,
    /// None where the file is to have no frame 0C, so that as many rounds are allowed as can be needed.
    pub allowance: Option<u32>,
    /// The marks of a question typed as an expression; the steps and finals are then its automaton's.
    pub expression: Option<Vec<u8>>,
}

/// Fewer rounds than that; sometimes so many more that two bytes of the number would be few.
fn few_rounds(dice: &mut Dice, end: usize) -> u32 {
    let few = dice.below(end) as u32;
    few + dice.pick(&[0, 0, 0, 0, 0, 0, 0, 0, 0, 0x1_0000])
}

/// Few enough elements for the built-out model, dense enough that all four answers are frequent.
pub fn small(dice: &mut Dice) -> Asked {
    match dice.below(100) {
        0..=7 => return small_rings(dice),
        8..=15 => return deep_clash(dice),
        16..=21 => return deep_end(dice),
        _ => {}
    }
    let roles = dice.pick(&[0, 1, 1, 1, 2, 2, 2, 2, 2, 3, 3]);
    let names = dice.pick(&[0, 1, 2, 2, 3, 3]);
    let least_states = dice.pick(&[1, 2, 3, 4]);
    let people = if dice.percent(3) { (0, 0) } else { (1, 4) };
    let mut collection = Collection::empty(counts(dice, names, roles, people, (least_states, 6)));
    let concepts = names + 2 * roles;
    let amounts = Amounts {
        rules: dice.below(concepts + 2),
        exclusions: if dice.percent(25) { dice.between(1, 2) } else { 0 },
        role_rules: dice.below(roles + 1),
        role_exclusions: if dice.percent(20) { 1 } else { 0 },
        facts: dice.below(4),
        role_facts: dice.below(4),
        steps: dice.below(2 * usize::from(collection.counts.states)),
        finals: dice.pick(&[0, 1, 1, 1, 2, 3]),
    };
    throw_records(dice, &mut collection, &amounts);
    if dice.percent(20) {
        repeat_by_other_deeds(dice, &mut collection);
    }
    if dice.percent(50) {
        there_and_back(dice, &mut collection);
    }
    if dice.percent(50) {
        rings_of_steps(dice, &mut collection);
    }
    let allowance = if dice.percent(35) { None } else { Some(few_rounds(dice, 4)) };
    let asks = all_asks(&collection);
    Asked { collection, asks, allowance, expression: None }
}

/// Most contradictions here are two roles or more below the individuals.
pub fn deep_clash(dice: &mut Dice) -> Asked {
    let mut collection = Collection::empty(counts(dice, 2, 3, (1, 3), (1, 4)));
    let amounts = Amounts { rules: dice.below(2), steps: dice.below(8), finals: 1, ..Amounts::default() };
    throw_records(dice, &mut collection, &amounts);
    collection.concept_facts.push(owner_0(dice));
    let row = promised_row(dice, &mut collection, Concept(0));
    if dice.percent(70) {
        let deep = dice.pick(&row[1..]);
        exclusion_below(dice, &mut collection, deep, Concept(1));
    }
    let asks = all_asks(&collection);
    Asked { collection, asks, allowance: Some(few_rounds(dice, 5)), expression: None }
}

/// A question that goes down state by state and need not come back: most of its ends are unnamed, and many are deep.
pub fn deep_end(dice: &mut Dice) -> Asked {
    let (ring, few, many) = (dice.between(1, 3), dice.between(2, 6), dice.between(7, 12));
    let most = dice.between(17, 20);
    let states = dice.pick(&[few, many, many, many, most]);
    let mut collection = Collection::empty(counts(dice, 2, ring, (1, 3), (states, states)));
    collection.counts.start = State(0);
    let amounts = Amounts {
        rules: dice.below(2),
        facts: dice.below(2),
        role_facts: dice.below(2),
        steps: dice.below(2),
        finals: dice.pick(&[0, 0, 0, 0, 0, 1]),
        ..Amounts::default()
    };
    throw_records(dice, &mut collection, &amounts);
    let role = |number: usize| Role::forward((number % ring) as u8);
    let (owner, last) = (Concept(0), State(states as u8 - 1));
    collection.concept_facts.push(owner_0(dice));
    collection.concept_rules.push((owner, role(0).neighbour()));
    for number in 0..ring {
        // Where a link lacks, the rows end there.
        if dice.percent(92) {
            let child = role(number).inverse().neighbour();
            collection.concept_rules.push((child, role(number + 1).neighbour()));
        }
    }
    // Down by the roles in their order, and sometimes a test on the way, which most of the elements pass.
    let tested = Concept(1);
    let passes = if dice.percent(80) { ring } else { dice.below(ring) };
    let children = (0..passes).map(|number| role(number).inverse().neighbour());
    collection.concept_rules.extend(children.map(|child| (child, tested)));
    let (tests, mut deep) = (dice.pick(&[0, 20]), 0);
    for number in 0..states - 1 {
        let (from, to) = (State(number as u8), State(number as u8 + 1));
        if deep > 0 && dice.percent(tests) {
            collection.steps.push(Step::Test { from, name: tested, to });
        } else {
            collection.steps.push(Step::Role { from, role: role(deep), to });
            deep += 1;
        }
    }
    collection.finals.push(last);
    // Loops on the way.
    if dice.percent(40) {
        rings_of_steps(dice, &mut collection);
    }
    let allowance = if dice.percent(60) { None } else { Some(few_rounds(dice, 3)) };
    let asks = all_asks(&collection);
    Asked { collection, asks, allowance, expression: None }
}

/// Name 0 of individual 0.
fn owner_0(dice: &mut Dice) -> ConceptFact {
    ConceptFact { name: Concept(0), who: Individual(0), deed: throw_deed(dice) }
}

fn small_rings(dice: &mut Dice) -> Asked {
    let (down, up, ring) = (dice.between(1, 3), dice.between(1, 4), dice.between(1, 2));
    let mut asked = many_rounds(dice, down, up, ring);
    asked.allowance = asked.allowance.map(|_| few_rounds(dice, 30));
    asked
}

pub fn medium(dice: &mut Dice) -> Asked {
    let (names, roles) = (dice.between(1, 12), dice.between(1, 6));
    let mut collection = Collection::empty(counts(dice, names, roles, (2, 40), (2, 9)));
    let amounts = Amounts {
        rules: dice.below(names + 2 * roles),
        exclusions: 0,
        role_rules: dice.below(roles + 1),
        role_exclusions: 0,
        facts: dice.below(40),
        role_facts: dice.below(120),
        steps: dice.below(30),
        finals: dice.between(1, 3),
    };
    throw_records(dice, &mut collection, &amounts);
    there_and_back(dice, &mut collection);
    match dice.below(10) {
        0 | 1 => throw_exclusions(dice, &mut collection, 3, 2),
        _ => harmless_exclusions(dice, &mut collection, 20, 5),
    }
    let allowance = if dice.percent(60) { None } else { Some(few_rounds(dice, 20)) };
    let asks = some_asks(dice, &collection, 40);
    Asked { collection, asks, allowance, expression: None }
}

/// Every table at its most. Layered rules leave differences between concepts; dense ones make most of them equal.
pub fn full(dice: &mut Dice) -> Asked {
    if dice.percent(10) {
        return full_rings(dice);
    }
    let states = dice.pick(&[16, 32, 32]);
    let counts = Counts::new(64, 32, 255, states, dice.below(states.into()) as u16).expect("counts in range");
    let mut collection = Collection::empty(counts);
    let layered = dice.percent(60);
    let distinct = |dice: &mut Dice, most: usize| if layered { dice.between(1, most / 4) } else { most };
    let amounts = Amounts {
        rules: distinct(dice, 512),
        exclusions: 0,
        role_rules: if layered { dice.below(40) } else { 128 },
        role_exclusions: 0,
        facts: 1_024,
        role_facts: if dice.percent(50) { 4_096 } else { dice.between(100, 500) },
        steps: if dice.percent(50) { MOST_STEPS } else { dice.between(16, 60) },
        finals: dice.between(1, 4),
    };
    throw_records(dice, &mut collection, &amounts);
    if layered {
        // Only upward rules, so that no ring of rules makes all concepts the same.
        for rule in &mut collection.concept_rules {
            *rule = (rule.0.min(rule.1), rule.0.max(rule.1));
        }
    }
    if dice.percent(20) {
        throw_exclusions(dice, &mut collection, 512, 128);
    } else {
        harmless_exclusions(dice, &mut collection, 512, 128);
    }
    repeat_to_the_most(dice, &mut collection);
    let allowance = if dice.percent(80) { None } else { Some(few_rounds(dice, 4)) };
    let asks = some_asks(dice, &collection, 256);
    Asked { collection, asks, allowance, expression: None }
}

/// Full tables that need more than a thousand rounds.
fn full_rings(dice: &mut Dice) -> Asked {
    let (down, up) = dice.pick(&[(7, 9), (11, 8)]);
    let Asked { mut collection, allowance, .. } = many_rounds(dice, down, up, 31);
    collection.counts.names = 64;
    collection.counts.individuals = 255;
    let amounts = Amounts { facts: 1_024, role_facts: dice.between(50, 4_096), ..Amounts::default() };
    throw_facts(dice, &mut collection, &amounts);
    harmless_exclusions(dice, &mut collection, 512, 128);
    repeat_to_the_most(dice, &mut collection);
    let asks = some_asks(dice, &collection, 256);
    Asked { collection, asks, allowance, expression: None }
}

/// A ring of children under one wider role, walked down in one ring of states and up in another:
/// a way back exists only where the three lengths agree, so the last loop is as deep as their common multiple.
pub fn many_rounds(dice: &mut Dice, down: usize, up: usize, ring: usize) -> Asked {
    let states = down + up;
    let counts = Counts::new(1, ring as u16 + 1, 2, states as u16, 0).expect("counts in range");
    let mut collection = Collection::empty(counts);
    let wide = Role::forward(ring as u8);
    let role = |number: usize| Role::forward((number % ring) as u8);
    for number in 0..ring {
        let child = role(number).inverse().neighbour();
        collection.concept_rules.push((child, role(number + 1).neighbour()));
        collection.role_rules.push((role(number), wide));
    }
    // The turn from down to up is a test that only one role's children pass.
    let turn = Concept(0);
    collection.concept_rules.push((role(0).inverse().neighbour(), turn));
    let state = |number: usize| State(number as u8);
    collection.steps.push(Step::Test { from: state(0), name: turn, to: state(down) });
    for number in 0..down {
        let to = state((number + 1) % down);
        collection.steps.push(Step::Role { from: state(number), role: wide, to });
    }
    for number in 0..up {
        let to = state(down + (number + 1) % up);
        collection.steps.push(Step::Role { from: state(down + number), role: wide.inverse(), to });
    }
    let (first, second) = (Individual(0), Individual(1));
    collection.role_facts.push(RoleFact { role: role(0), first, second, deed: throw_deed(dice) });
    collection.finals.push(state(down + dice.below(up)));
    let allowance = match dice.below(4) {
        0 => None,
        1 => Some(dice.between(64, 1_900) as u32),
        _ => Some(dice.pick(&[0xFFFF, 0x1_0000, u32::MAX])),
    };
    let asks = all_asks(&collection);
    Asked { collection, asks, allowance, expression: None }
}

/// More than a thousand rounds are needed and allowed; an allowance that is given may be less than those needed.
pub fn over_a_thousand(dice: &mut Dice) -> Asked {
    let (down, up) = dice.pick(&[(7, 9), (9, 7), (7, 10), (8, 13), (3, 29)]);
    let ring = dice.pick(&[31, 31, 17]);
    let mut asked = many_rounds(dice, down, up, ring);
    let given = [1_001, 1_001, 1_050, 1_050, 1_500, 1_500, 0xFFFF, 0x1_0000, u32::MAX].map(Some);
    asked.allowance = if dice.percent(60) { None } else { dice.pick(&given) };
    asked
}

/// Most concepts are below one name, which is tested from most states to most, so that round 1 adds thousands of marks.
pub fn broad(dice: &mut Dice) -> Asked {
    // Most of them add over 65,535 marks.
    let widest = dice.percent(75);
    let (names, roles) = if widest { (64, 32) } else { (dice.between(32, 64), dice.between(16, 32)) };
    let states = if widest { (31, 32) } else { dice.pick(&[(12, 16), (17, 28)]) };
    let mut collection = Collection::empty(counts(dice, names, roles, (2, 12), states));
    let amounts =
        Amounts { facts: 6, role_facts: 12, steps: dice.below(20), finals: 2, ..Amounts::default() };
    throw_records(dice, &mut collection, &amounts);
    let (most_concepts, most_steps) = (dice.pick(&[80, 95, 100]), dice.pick(&[80, 95, 100]));
    // Of 32 states there are 992 such tests; with the steps thrown before them the table isn't full.
    let tested = Concept(dice.below(names) as u8);
    let counts = collection.counts;
    let below = counts.all_concepts().filter(|_| dice.percent(most_concepts));
    collection.concept_rules.extend(below.map(|concept| (concept, tested)));
    let ends = counts.all_states().flat_map(|from| counts.all_states().map(move |to| (from, to)));
    let tests = ends.filter(|(from, to)| from != to && dice.percent(most_steps));
    collection.steps.extend(tests.map(|(from, to)| Step::Test { from, name: tested, to }));
    let allowance = if dice.percent(50) { None } else { Some(few_rounds(dice, 4)) };
    let asks = some_asks(dice, &collection, 12);
    Asked { collection, asks, allowance, expression: None }
}

fn counts(
    dice: &mut Dice,
    names: usize,
    roles: usize,
    people: (usize, usize),
    states: (usize, usize),
) -> Counts {
    let individuals = dice.between(people.0, people.1);
    let states = dice.between(states.0, states.1);
    let start = dice.below(states);
    let [names, roles, individuals, states, start] =
        [names, roles, individuals, states, start].map(|n| n as u16);
    Counts::new(names, roles, individuals, states, start).expect("counts in range")
}

/// Every pair, and every individual alone.
fn all_asks(collection: &Collection) -> Vec<Ask> {
    let people: Vec<Individual> = collection.counts.all_individuals().collect();
    let pairs = people.iter().flat_map(|&first| people.iter().map(move |&second| Ask::Pair(first, second)));
    pairs.chain(people.iter().map(|first| Ask::From(*first))).collect()
}

fn some_asks(dice: &mut Dice, collection: &Collection, most: usize) -> Vec<Ask> {
    let people: Vec<Individual> = collection.counts.all_individuals().collect();
    let alone = dice.pick(&[0, 20, 50]);
    let one = |dice: &mut Dice| match dice.percent(alone) {
        true => Ask::From(dice.pick(&people)),
        false => Ask::Pair(dice.pick(&people), dice.pick(&people)),
    };
    (0..most).map(|_| one(dice)).collect()
}
