//! Salvage: the facts in the order typed, each kept unless it clashes with those kept before it. A fact costs a few rows.

use crate::clash::Excluded;
use crate::order::{neighbour, Orders};
use crate::read::{Fact, File, Typed};

/// What the kept facts say of each individual and of each pair that they join: what it has, and what is excluded by that.
struct Kept<'a> {
    orders: &'a Orders,
    excluded: &'a Excluded,
    /// The signed roles that no row of the model may end in.
    doomed: u64,
    individuals: [(u128, u128); 256],
    /// By the smaller of the two individuals and the larger, with the roles as seen from the smaller.
    pairs: Vec<(u64, u64)>,
}

/// Keeps in the file what is kept, and gives the lines of all other facts.
#[inline(never)]
pub fn salvage(file: &mut File, facts: impl Iterator<Item = (u16, Typed)>) -> Vec<u16> {
    let orders = Orders::of(file);
    let excluded = Excluded::of(file, &orders);
    let doomed = doomed(file, &orders, &excluded);
    let pairs = vec![(0, 0); 1 << 16];
    let mut kept = Kept { orders: &orders, excluded: &excluded, doomed, individuals: [(0, 0); 256], pairs };
    file.without_facts();
    let mut dropped = Vec::new();
    for (line, fact) in facts {
        let stays = match fact {
            Typed::Name { name, who } => kept.takes_name(name, who),
            Typed::Role(fact) => kept.takes_role(fact),
        };
        if stays {
            file.put_fact(fact);
        } else {
            dropped.push(line);
        }
    }
    dropped
}

/// Those whose child has what is excluded, is joined so to its parent, or has such a child in turn.
fn doomed(file: &File, orders: &Orders, excluded: &Excluded) -> u64 {
    let mut doomed = 0u64;
    for role in 0..usize::from(file.signed) {
        let child = neighbour(role ^ 1);
        let alone = orders.concepts[child] & excluded.below(orders, child);
        let joined = orders.roles[role] & excluded.roles[role];
        doomed |= u64::from(alone != 0 || joined != 0) << role;
    }
    loop {
        let leads = |role: &usize| (orders.concepts[neighbour(role ^ 1)] >> 64) as u64 & doomed != 0;
        let more = (0..usize::from(file.signed)).filter(leads).fold(doomed, |all, role| all | 1 << role);
        if more == doomed {
            return doomed;
        }
        doomed = more;
    }
}

impl Kept<'_> {
    /// What an individual has by this concept, and what that excludes.
    #[inline(always)]
    fn by(&self, concept: usize) -> (u128, u128) {
        (self.orders.concepts[concept & 127], self.excluded.below(self.orders, concept))
    }

    /// Whether an individual may have so much; then it has.
    #[inline(always)]
    fn may_have(&self, (has, excludes): (u128, u128)) -> bool {
        has & excludes == 0 && (has >> 64) as u64 & self.doomed == 0
    }

    #[inline(always)]
    fn with(&self, who: u8, concept: usize) -> (u128, u128) {
        let (has, excludes) = self.individuals[usize::from(who)];
        let (more, also) = self.by(concept);
        (has | more, excludes | also)
    }

    fn takes_name(&mut self, name: u8, who: u8) -> bool {
        let with = self.with(who, usize::from(name));
        let stays = self.may_have(with);
        if stays {
            self.individuals[usize::from(who)] = with;
        }
        stays
    }

    fn takes_role(&mut self, Fact { role, first, second }: Fact) -> bool {
        let (there, back) = (usize::from(role & 63), usize::from((role ^ 1) & 63));
        let mut one = self.with(first, neighbour(there));
        let mut other = self.with(second, neighbour(back));
        if first == second {
            one = (one.0 | other.0, one.1 | other.1);
            other = one;
        }
        let (at, seen) = match first <= second {
            true => (usize::from(first) << 8 | usize::from(second), there),
            false => (usize::from(second) << 8 | usize::from(first), back),
        };
        let both = if first == second { [seen, seen ^ 1] } else { [seen; 2] };
        let (has, excludes) = both.iter().fold(self.pairs[at], |(has, excludes), role| {
            (has | self.orders.roles[*role], excludes | self.excluded.roles[*role])
        });
        let stays = has & excludes == 0 && self.may_have(one) && self.may_have(other);
        if stays {
            self.individuals[usize::from(first)] = one;
            self.individuals[usize::from(second)] = other;
            self.pairs[at] = (has, excludes);
        }
        stays
    }
}

impl Excluded {
    /// What is excluded by something above this concept.
    #[inline(always)]
    fn below(&self, orders: &Orders, concept: usize) -> u128 {
        self.concepts[usize::from(orders.same[concept & 127] & 127)]
    }
}

/// The facts of a sound input, with their lines, up to its list.
pub fn facts(input: &[u8], end: usize) -> impl Iterator<Item = (u16, Typed)> + '_ {
    let lines = input[..end].split(|byte| *byte == b'\n');
    let before_list = lines.take_while(|line| !line.starts_with(b"10"));
    (1..).zip(before_list).filter_map(|(line, typed)| Some((line, fact(typed)?)))
}

fn fact(line: &[u8]) -> Option<Typed> {
    let digit = |byte: u8| (byte & 15) + 9 * (byte >> 6);
    let byte = |at: usize| digit(line[2 * at]) << 4 | digit(line[2 * at + 1]);
    match line.get(..2)? {
        b"06" => Some(Typed::Name { name: byte(1), who: byte(2) }),
        b"07" => Some(Typed::Role(Fact { role: 2 * byte(1), first: byte(2), second: byte(3) })),
        _ => None,
    }
}
