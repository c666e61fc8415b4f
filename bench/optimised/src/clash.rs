//! Contradiction: every element's concepts, and each pair's roles, against what they exclude.

use crate::bits::Places;
use crate::order::{neighbour, Orders};
use crate::read::File;

/// For each concept that is the lowest of its kind and each role: what is excluded by something above it.
pub struct Excluded {
    pub concepts: [u128; 128],
    pub roles: [u64; 64],
}

impl Excluded {
    #[inline(never)]
    pub fn of(file: &File, orders: &Orders) -> Excluded {
        let mut excluded = Excluded { concepts: [0; 128], roles: [0; 64] };
        let mut excluding = 0u128;
        for (concept, row) in file.concept_exclusions.iter().enumerate() {
            excluding |= u128::from(*row != 0) << concept;
        }
        for concept in Places(orders.lowest) {
            let above = Places(orders.concepts[concept] & excluding);
            excluded.concepts[concept] =
                above.fold(0, |all, upper| all | file.concept_exclusions[upper & 127]);
        }
        if file.excludes_roles {
            for role in 0..usize::from(file.signed) {
                let above = Places(orders.roles[role]);
                excluded.roles[role] = above.fold(0, |all, upper| all | file.role_exclusions[upper & 63]);
            }
        }
        excluded
    }
}

/// None where a contradiction shows in an individual, in an unnamed element or between it and its parent.
/// The pairs of individuals are tested where their roles are brought together.
#[inline(never)]
pub fn individuals(file: &File, orders: &Orders, excluded: &Excluded) -> Option<()> {
    let mut children = 0u64;
    for individual in 0..usize::from(file.individuals) {
        let (mut has, mut forbidden) = (0u128, 0u128);
        let names = Places(file.typed_names[individual]);
        let roles = Places(file.typed_roles[individual]).map(neighbour);
        names.chain(roles).for_each(|typed| {
            has |= orders.concepts[typed & 127];
            forbidden |= excluded.concepts[usize::from(orders.same[typed & 127] & 127)];
        });
        if has & forbidden != 0 {
            return None;
        }
        children |= (has >> 64) as u64;
    }
    let mut waiting = children;
    while waiting != 0 {
        let role = waiting.trailing_zeros() as usize;
        waiting &= waiting - 1;
        let child = neighbour(role ^ 1);
        let has = orders.concepts[child];
        let forbidden = excluded.concepts[usize::from(orders.same[child] & 127)];
        if has & forbidden != 0 || orders.roles[role] & excluded.roles[role] != 0 {
            return None;
        }
        let below = (has >> 64) as u64 & !children;
        children |= below;
        waiting |= below;
    }
    Some(())
}
