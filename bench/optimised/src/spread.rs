//! The spread: files that no program was tuned for. A kind, a size and a seed give the same file everywhere.

use crate::bits::Places;
use crate::draft::{concept, Dice, Draft, Shown};

pub const KINDS: [&str; 7] =
    ["expressions", "clusters", "few-roles", "many-roles", "contradictions", "chains", "ladders"];

/// What a file of this size has at most, and how many lines it is to have. Role facts fill what is left.
struct Size {
    names: usize,
    roles: usize,
    individuals: usize,
    least_states: usize,
    states: usize,
    rules: usize,
    role_rules: usize,
    exclusions: usize,
    role_exclusions: usize,
    concept_facts: usize,
    steps: usize,
    asks: usize,
    lines: usize,
}

const LARGE: Size = Size {
    names: 64,
    roles: 32,
    individuals: 255,
    least_states: 8,
    states: 16,
    rules: 320,
    role_rules: 64,
    exclusions: 160,
    role_exclusions: 48,
    concept_facts: 640,
    steps: 384,
    asks: 256,
    lines: 5_000,
};

const SMALL: Size = Size {
    names: 12,
    roles: 6,
    individuals: 24,
    least_states: 4,
    states: 8,
    rules: 24,
    role_rules: 6,
    exclusions: 8,
    role_exclusions: 3,
    concept_facts: 24,
    steps: 32,
    asks: 24,
    lines: 150,
};

/// Files of more than sixteen states are thrown like the others, and have as many steps for each state.
const WIDE_LARGE: Size = Size { least_states: 17, states: 32, steps: 768, ..LARGE };

const WIDE_SMALL: Size = Size { least_states: 17, states: 32, steps: 128, ..SMALL };

/// What is thrown beside the tables has dice of these numbers.
const SHAPE: u8 = 200;
const ORDER: u8 = 201;
const BROKEN: u8 = 202;

/// None where there is no such kind or size.
pub fn make(kind: &str, size: &str, seed: u64) -> Option<Vec<u8>> {
    let size = match size {
        "large" => LARGE,
        "small" => SMALL,
        "wide-large" => WIDE_LARGE,
        "wide-small" => WIDE_SMALL,
        _ => return None,
    };
    KINDS.contains(&kind).then(|| Thrown::new(kind, size, seed).text())
}

struct Thrown<'a> {
    kind: &'a str,
    size: Size,
    seed: u64,
    draft: Draft,
    /// Rules lead only from lower to higher layers. With one layer they lead anywhere.
    layers: usize,
    /// How many facts of a hundred have a deed number.
    deeds: usize,
}

impl Thrown<'_> {
    fn new(kind: &str, mut size: Size, seed: u64) -> Thrown<'_> {
        let mut dice = Dice::of(seed, SHAPE);
        size.names = dice.between(size.names / 2, size.names);
        size.roles = match kind {
            "few-roles" => dice.between(2, 4),
            "many-roles" => size.roles,
            _ => dice.between(size.roles / 2, size.roles),
        };
        size.states = dice.between(size.least_states, size.states);
        // From questions of a step or two for each state to full ones.
        size.steps = dice.pick(&[2 * size.states, size.steps / 4, size.steps]);
        size.asks = dice.between(size.asks / 2, size.asks);
        let (layers, deeds) = (dice.pick(&[1, 3, 5, 8]), dice.pick(&[0, 50, 100]));
        let draft = Draft::new(seed, [size.names, size.roles, size.individuals, size.states, 0]);
        Thrown { kind, size, seed, draft, layers, deeds }
    }

    fn text(mut self) -> Vec<u8> {
        self.throw_rules();
        self.throw_concept_facts();
        self.throw_question();
        self.throw_asks();
        self.throw_allowance();
        let others = self.draft.lines() + self.size.exclusions + self.size.role_exclusions;
        self.throw_role_facts(self.size.lines.saturating_sub(others).min(4_096));
        if self.kind == "contradictions" {
            self.throw_broken();
        }
        self.draft.throw_exclusions(self.size.exclusions, self.size.role_exclusions);
        self.draft.text()
    }

    /// The last name and the last role stand in no rule and no fact, so that some exclusions are harmless.
    fn used(&self) -> (usize, usize) {
        (self.size.names - 1, self.size.roles - 1)
    }

    fn throw_rules(&mut self) {
        let ((names, roles), layers) = (self.used(), self.layers);
        let role_layer = move |signed: usize| signed / 2 * layers / roles;
        let layer = move |concept: usize| {
            if concept < 64 {
                concept * layers / names
            } else {
                role_layer(concept - 64)
            }
        };
        let signed = 2 * roles;
        self.draft.throw(2, self.size.rules, |dice| {
            let [left, right] = [0; 2].map(|_| concept(dice.below(names + signed), names));
            (layers == 1 || layer(left) < layer(right)).then(|| vec![2, left as u8, right as u8])
        });
        self.draft.throw(4, self.size.role_rules, |dice| {
            let [left, right] = [0; 2].map(|_| dice.below(signed));
            (layers == 1 || role_layer(left) < role_layer(right)).then(|| vec![4, left as u8, right as u8])
        });
    }

    fn throw_concept_facts(&mut self) {
        let ((names, _), individuals, deeds) = (self.used(), self.size.individuals, self.deeds);
        self.draft.throw(6, self.size.concept_facts, |dice| {
            let fact = vec![6, dice.below(names) as u8, dice.below(individuals) as u8];
            Some(known(dice, deeds, fact))
        });
    }

    fn throw_role_facts(&mut self, count: usize) {
        let ((_, roles), individuals, deeds) = (self.used(), self.size.individuals, self.deeds);
        let mut dice = Dice::of(self.seed, ORDER);
        let order = shuffled(&mut dice, individuals);
        let chain = self.kind == "chains";
        // Whom a fact may join: those of one block of the order, and in a chain those that stand near in it.
        let block = match self.kind {
            "clusters" => dice.between(individuals / 32 + 2, individuals / 8 + 3),
            _ => individuals,
        };
        let near = if chain { dice.between(1, 3) } else { individuals };
        let onward = chain && dice.percent(50);
        self.draft.throw(7, count, |dice| {
            let [role, first, second] = [roles, individuals, individuals].map(|end| dice.below(end));
            let joins = first / block == second / block
                && first.abs_diff(second) <= near
                && !(chain && first == second)
                && !(onward && first > second);
            let fact = vec![7, role as u8, order[first], order[second]];
            joins.then(|| known(dice, deeds, fact))
        });
    }

    fn throw_question(&mut self) {
        let Size { names, roles, states, steps, .. } = self.size;
        if self.kind == "expressions" {
            let mut dice = Dice::of(self.seed, 13);
            let letters: Vec<u8> = (0..2 * roles).chain(0x40..0x40 + names).map(|mark| mark as u8).collect();
            let marks = expression(&mut dice, &letters, states - 1);
            return self.draft.put(13, [vec![13], marks].concat());
        }
        let ladder = self.kind == "ladders";
        self.draft.throw(8, steps, |dice| {
            let from = dice.below(if ladder { states - 1 } else { states });
            let to = if ladder { from + 1 } else { dice.below(states) };
            Some(if dice.percent(15) {
                vec![9, from as u8, dice.below(names) as u8, to as u8]
            } else {
                vec![8, from as u8, dice.below(2 * roles) as u8, to as u8]
            })
        });
        let finals = if ladder { 1 } else { Dice::of(self.seed, 10).between(1, 3) };
        self.draft.throw(10, finals, |dice| {
            Some(vec![10, if ladder { states - 1 } else { dice.below(states) } as u8])
        });
    }

    /// Asks of both kinds.
    fn throw_asks(&mut self) {
        let individuals = self.size.individuals;
        self.draft.throw(11, self.size.asks, |dice| {
            let [first, second] = [0; 2].map(|_| dice.below(individuals) as u8);
            Some(if dice.percent(25) { vec![14, first] } else { vec![11, first, second] })
        });
    }

    /// Where rounds are allowed in so many words, there are more than any of these files needs.
    fn throw_allowance(&mut self) {
        let mut dice = Dice::of(self.seed, 12);
        if dice.percent(50) {
            let [high, low] = (dice.between(1_000, 65_535) as u16).to_be_bytes();
            self.draft.put(12, vec![12, high, low]);
        }
    }

    /// An exclusion that an individual breaks, or an unnamed element, or a pair.
    fn throw_broken(&mut self) {
        let mut shown = Shown::of(&self.draft.text());
        let mut dice = Dice::of(self.seed, BROKEN);
        let unnamed = shown.elements.split_off(self.size.individuals);
        let mut elements = if dice.percent(50) { unnamed } else { shown.elements };
        elements.retain(|has| *has != 0);
        let (table, has): (u8, Vec<usize>) = if dice.percent(65) && !elements.is_empty() {
            (3, Places(dice.pick(&elements)).collect())
        } else {
            (5, Places(dice.pick(&shown.pairs)).collect())
        };
        let frame = vec![table, dice.pick(&has) as u8, dice.pick(&has) as u8];
        self.draft.put(table, frame);
    }
}

/// A fact by a deed, or with none noted.
fn known(dice: &mut Dice, deeds: usize, mut fact: Vec<u8>) -> Vec<u8> {
    if dice.percent(deeds) {
        fact.extend((dice.below(1 << 16) as u16).to_be_bytes());
    }
    fact
}

fn shuffled(dice: &mut Dice, individuals: usize) -> Vec<u8> {
    let mut order: Vec<u8> = (0..individuals).map(|individual| individual as u8).collect();
    for last in (1..individuals).rev() {
        order.swap(last, dice.below(last + 1));
    }
    order
}

/// An expression with so many role and test marks, which fits on a line: of 31 marks, and of 64 where it has more than 15
/// role and test marks.
fn expression(dice: &mut Dice, letters: &[u8], marks: usize) -> Vec<u8> {
    loop {
        let mut row = Vec::new();
        either(dice, letters, marks, 3, &mut row);
        if row.len() <= if marks <= 15 { 31 } else { 64 } {
            return row;
        }
    }
}

fn either(dice: &mut Dice, letters: &[u8], mut marks: usize, deep: usize, row: &mut Vec<u8>) {
    while marks > 0 {
        let share = dice.between(1, marks);
        if share > 1 && deep > 0 && dice.percent(60) {
            row.push(0x80);
            either(dice, letters, share, deep - 1, row);
            row.push(0x81);
        } else {
            row.extend((0..share).map(|_| dice.pick(letters)));
        }
        if dice.percent(40) {
            row.push(0x83);
        }
        marks -= share;
        if marks > 0 && dice.percent(30) {
            row.push(0x82);
        }
    }
}
