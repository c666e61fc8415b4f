//! The loop sheet, round by round: each works out only what the marks of the one before it can add.

use crate::bits::{Places, Relation, States};
use crate::order::{all_roles, neighbour, Orders};
use crate::read::{File, Question};

pub struct Sheet<S: States> {
    /// The marks of each concept that is the lowest of its kind.
    pub loops: [Relation<S>; 128],
    pub rounds: u32,
    /// One more round would have added marks, and the allowance is spent.
    pub spent: bool,
}

/// For each signed role, the role steps along an edge which was made by it.
#[inline(never)]
pub fn along<S: States>(file: &File, question: &Question<S>, orders: &Orders) -> [Relation<S>; 64] {
    let mut stepped = 0u64;
    for (role, steps) in question.role_steps.iter().enumerate() {
        stepped |= u64::from(!steps.is_empty()) << role;
    }
    let mut along = [Relation::EMPTY; 64];
    for role in Places(all_roles(file)) {
        for upper in Places(orders.roles[role] & stepped) {
            along[role].join(&question.role_steps[upper & 63]);
        }
    }
    along
}

struct Closing<'a, S: States> {
    along: &'a [Relation<S>; 64],
    /// For each signed role R, the concepts (lowest of their kind) B with B ≤ ∃R.
    below: [u128; 64],
    /// For each concept, the signed roles R (lowest of their kind) for which it is ∃(inverse of R).
    coming: [u64; 128],
    loops: [Relation<S>; 128],
    /// Down by the role, a loop below, and up again: what was worked out so far.
    excursions: [Relation<S>; 64],
    /// What the marks of the last round add, and for which concepts.
    found: [Relation<S>; 128],
    touched: u128,
}

/// How many marks a round added for these concepts, each for all that are equal to it.
#[inline(always)]
pub fn marks<S: States>(orders: &Orders, changed: u128, added: &[Relation<S>; 128]) -> u32 {
    let marks = |concept: usize| added[concept & 127].count() * u32::from(orders.kin[concept & 127]);
    Places(changed).map(marks).sum()
}

/// Each round worked is told, with what it added for which concepts, the lowest of their kind.
#[inline(never)]
pub fn close<S: States>(
    file: &File,
    question: &Question<S>,
    orders: &Orders,
    along: &[Relation<S>; 64],
    allowance: u32,
    mut told: impl FnMut(u32, u128, &[Relation<S>; 128]),
) -> Sheet<S> {
    let mut closing = Closing::round_zero(file, question, orders, along);
    let mut added = [Relation::EMPTY; 128];
    let mut rounds = 0;
    let spent = loop {
        let changed = closing.take_found(&mut added);
        if changed == 0 {
            break false;
        }
        if rounds == allowance {
            break true;
        }
        rounds += 1;
        told(rounds, changed, &added);
        closing.round(changed, &added);
    };
    Sheet { loops: closing.loops, rounds, spent }
}

impl<S: States> Closing<'_, S> {
    /// Round 0, and what it adds: all tests, and the excursions that turn at once.
    fn round_zero<'a>(
        file: &File,
        question: &Question<S>,
        orders: &'a Orders,
        along: &'a [Relation<S>; 64],
    ) -> Closing<'a, S> {
        let mut closing = Closing {
            along,
            below: [0; 64],
            coming: [0; 128],
            loops: [Relation::EMPTY; 128],
            excursions: [Relation::EMPTY; 64],
            found: [Relation::EMPTY; 128],
            touched: orders.lowest,
        };
        let mut standing = Relation::EMPTY;
        for state in 0..file.states {
            standing.add(state, state);
        }
        let mut tested = 0u64;
        for (name, steps) in question.test_steps.iter().enumerate() {
            tested |= u64::from(!steps.is_empty()) << name;
        }
        for concept in Places(orders.lowest) {
            closing.loops[concept] = standing;
            let row = orders.concepts[concept];
            for name in Places(row as u64 & tested) {
                closing.found[concept].join(&question.test_steps[name & 63]);
            }
            for role in Places((row >> 64) as u64 & orders.lowest_roles) {
                closing.below[role & 63] |= 1 << concept;
            }
        }
        for role in Places(orders.lowest_roles) {
            let child = usize::from(orders.same[neighbour(role ^ 1)] & 127);
            closing.coming[child] |= 1 << role;
            closing.excursion(role, &standing);
        }
        closing
    }

    /// Down by the role, one of these loops, and up again; for every concept that has the child.
    fn excursion(&mut self, role: usize, loops: &Relation<S>) {
        let (down, up) = (&self.along[role & 63], &self.along[(role ^ 1) & 63]);
        let mut to_bottom = Relation::EMPTY;
        to_bottom.join_product(down, loops);
        let mut back = Relation::EMPTY;
        back.join_product(&to_bottom, up);
        let new = back.without(&self.excursions[role & 63]);
        if new.is_empty() {
            return;
        }
        self.excursions[role & 63].join(&new);
        let below = self.below[role & 63];
        self.touched |= below;
        for concept in Places(below) {
            self.found[concept & 127].join(&new);
        }
    }

    /// What was found and did not stand yet, and the concepts where there is any.
    fn take_found(&mut self, added: &mut [Relation<S>; 128]) -> u128 {
        let mut changed = 0;
        for concept in Places(self.touched) {
            let new = self.found[concept & 127].without(&self.loops[concept & 127]);
            self.found[concept & 127] = Relation::EMPTY;
            if !new.is_empty() {
                added[concept & 127] = new;
                changed |= 1 << concept;
            }
        }
        self.touched = 0;
        changed
    }

    /// The added marks stand from now on; what they lead to is found, for the round after.
    fn round(&mut self, changed: u128, added: &[Relation<S>; 128]) {
        self.touched = changed;
        for concept in Places(changed) {
            let new = &added[concept & 127];
            let loops = &mut self.loops[concept & 127];
            loops.join(new);
            let loops = *loops;
            let mut found = Relation::EMPTY;
            found.join_product(new, &loops);
            for middle in Places(new.starts()) {
                found.lead_on(&loops, middle, new.row(middle));
            }
            self.found[concept & 127].join(&found);
            for role in Places(self.coming[concept & 127]) {
                self.excursion(role, new);
            }
        }
    }
}

impl<S: States> Sheet<S> {
    #[inline(always)]
    pub fn of_concept(&self, orders: &Orders, concept: usize) -> &Relation<S> {
        &self.loops[usize::from(orders.same[concept & 127] & 127)]
    }
}
