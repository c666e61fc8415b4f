//! In which states a path leaves each individual for an element below it, or ends at once: worked once, for all asks of one individual.

use crate::bits::{Places, Relation, States};
use crate::order::{neighbour, Orders};
use crate::read::{File, Question};
use crate::sheet::Sheet;

/// For each individual, the states from which a path without other individuals comes to a final state.
#[inline(never)]
pub fn leaving<S: States>(
    file: &File,
    question: &Question<S>,
    orders: &Orders,
    along: &[Relation<S>; 64],
    sheet: &Sheet<S>,
) -> [S; 256] {
    let below = below(question.finals, orders, along, sheet);
    let mut leaving = [S::NONE; 256];
    for (individual, states) in leaving[..usize::from(file.individuals)].iter_mut().enumerate() {
        let names = Places(file.typed_names[individual]);
        let roles = Places(file.typed_roles[individual]).map(neighbour);
        let typed = names.chain(roles).map(|typed| usize::from(orders.same[typed & 127] & 127));
        *states = typed.fold(question.finals, |all, typed| all | below[typed]);
    }
    leaving
}

/// The same for an element of each concept that is the lowest of its kind: sweeps, until nothing grows.
fn below<S: States>(finals: S, orders: &Orders, along: &[Relation<S>; 64], sheet: &Sheet<S>) -> [S; 128] {
    let mut below = [S::NONE; 128];
    Places(orders.lowest).for_each(|concept| below[concept & 127] = finals);
    loop {
        let mut grown = false;
        // From the parent down by each role.
        let mut down = [S::NONE; 64];
        for role in Places(orders.lowest_roles) {
            let child = usize::from(orders.same[neighbour(role ^ 1)] & 127);
            down[role & 63] = along[role & 63].leading_to(below[child]);
        }
        for concept in Places(orders.lowest) {
            let roles = Places((orders.concepts[concept & 127] >> 64) as u64 & orders.lowest_roles);
            let states = roles.fold(below[concept & 127], |all, role| all | down[role & 63]);
            let states = states | sheet.loops[concept & 127].leading_to(states);
            grown |= states != below[concept & 127];
            below[concept & 127] = states;
        }
        if !grown {
            return below;
        }
    }
}
