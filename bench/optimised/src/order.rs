//! What follows from the rules: both orders as closed bit rows, and what is equal in them.

use crate::bits::Places;
use crate::read::File;

pub struct Orders {
    /// Bit S of row R: R ≤ S.
    pub roles: [u64; 64],
    /// Bit D of row C: C ≤ D.
    pub concepts: [u128; 128],
    /// The lowest concept that is below and above this one: all that follows is worked once for it.
    pub same: [u8; 128],
    /// For each lowest concept, how many it is worked for.
    pub kin: [u8; 128],
    /// The concepts that are the lowest of their kind, and likewise the signed roles.
    pub lowest: u128,
    pub lowest_roles: u64,
}

/// ∃R for a signed role R.
#[inline(always)]
pub fn neighbour(role: usize) -> usize {
    64 | (role & 63)
}

pub fn all_roles(file: &File) -> u64 {
    low_bits(file.signed)
}

pub fn all_concepts(file: &File) -> u128 {
    u128::from(low_bits(file.names)) | u128::from(low_bits(file.signed)) << 64
}

fn low_bits(count: u8) -> u64 {
    match count {
        64 => u64::MAX,
        count => (1 << count) - 1,
    }
}

impl Orders {
    #[inline(never)]
    pub fn of(file: &File) -> Orders {
        let roles = closed_roles(file);
        let concepts = closed_concepts(file, &roles);
        let mut orders =
            Orders { roles, concepts, same: [0; 128], kin: [0; 128], lowest: 0, lowest_roles: 0 };
        for concept in Places(all_concepts(file)) {
            let equal = |other: &usize| orders.concepts[other & 127] >> concept & 1 == 1;
            let lowest = Places(orders.concepts[concept]).find(equal).expect("itself");
            orders.same[concept] = lowest as u8;
            orders.kin[lowest & 127] += 1;
            orders.lowest |= u128::from(lowest == concept) << concept;
        }
        for role in Places(all_roles(file)) {
            let equal = |other: &usize| orders.roles[other & 63] >> role & 1 == 1;
            let lowest = Places(orders.roles[role]).find(equal).expect("itself");
            orders.lowest_roles |= u64::from(lowest == role) << role;
        }
        orders
    }
}

#[inline(never)]
fn closed_roles(file: &File) -> [u64; 64] {
    let mut rows = file.role_rules;
    let count = usize::from(file.signed);
    for (role, row) in rows[..count].iter_mut().enumerate() {
        *row |= 1 << role;
    }
    for middle in 0..count {
        let through = rows[middle];
        if through == 1 << middle {
            continue;
        }
        for row in &mut rows[..count] {
            if *row >> middle & 1 == 1 {
                *row |= through;
            }
        }
    }
    rows
}

#[inline(never)]
fn closed_concepts(file: &File, roles: &[u64; 64]) -> [u128; 128] {
    let mut rows = file.concept_rules;
    let (names, signed) = (usize::from(file.names), usize::from(file.signed));
    for (name, row) in rows[..names].iter_mut().enumerate() {
        *row |= 1 << name;
    }
    for role in 0..signed {
        rows[neighbour(role)] |= u128::from(roles[role]) << 64;
    }
    for middle in (0..names).chain(64..64 + signed) {
        let through = rows[middle];
        if through == 1 << middle {
            continue;
        }
        let (of_names, others) = rows.split_at_mut(64);
        let rows = of_names[..names].iter_mut().chain(&mut others[..signed]);
        if middle < 64 {
            lead_on(rows, through, |row| row as u64 >> middle & 1 == 1);
        } else {
            lead_on(rows, through, |row| (row >> 64) as u64 >> (middle - 64) & 1 == 1);
        }
    }
    rows
}

#[inline(always)]
fn lead_on<'a>(rows: impl Iterator<Item = &'a mut u128>, through: u128, leads: impl Fn(u128) -> bool) {
    rows.for_each(|row| {
        if leads(*row) {
            *row |= through;
        }
    });
}
