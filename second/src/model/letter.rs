//! The loop sheet to the letter: a set of marks, and the three rules of docs/RULES.md, section 6, one after the other, for small collections.

use super::known::Known;
use super::Marks;
use crate::collection::Step;
use crate::listing::Entry;
use crate::numbers::{Concept, Role};
use crate::sheet::Mark;

pub fn round_zero(known: &Known) -> Marks {
    let counts = &known.collection.counts;
    let at = |state| counts.all_concepts().map(move |concept| Mark { from: state, to: state, concept });
    counts.all_states().flat_map(at).collect()
}

pub fn round(known: &Known, before: &Marks) -> Marks {
    let mut after = before.clone();
    for concept in known.collection.counts.all_concepts() {
        tests(known, concept, &mut after);
        for above in known.concepts_above(concept) {
            if let Some(role) = above.as_neighbour() {
                trips(known, concept, role, before, &mut after);
            }
        }
    }
    compositions(known, before, &mut after);
    after
}

/// (s, t, B) when there is a test step from s to t on A and B ≤ A.
fn tests(known: &Known, concept: Concept, after: &mut Marks) {
    for step in &known.collection.steps {
        if let Step::Test { from, name, to } = *step {
            if known.concepts_above(concept).contains(&name) {
                after.insert(Mark { from, to, concept });
            }
        }
    }
}

/// (s, u, B) when (s, t, B) and (t, u, B) stand.
fn compositions(known: &Known, before: &Marks, after: &mut Marks) {
    for first in before {
        for to in known.collection.counts.all_states() {
            if before.contains(&Mark { from: first.to, to, ..*first }) {
                after.insert(Mark { to, ..*first });
            }
        }
    }
}

/// (s, v, B) when B ≤ ∃R, a role step S leads s to t with R ≤ S, (t, u, ∃(inverse of R)) stands,
/// and a role step to v from u carries the inverse of some T with R ≤ T.
fn trips(known: &Known, concept: Concept, role: Role, before: &Marks, after: &mut Marks) {
    let above = known.roles_above(role);
    let below = role.inverse().neighbour();
    for down in &known.collection.steps {
        let Step::Role { from: s, role: carried, to: t } = *down else { continue };
        if !above.contains(&carried) {
            continue;
        }
        for up in &known.collection.steps {
            let Step::Role { from: u, role: carried, to: v } = *up else { continue };
            let stands = before.contains(&Mark { from: t, to: u, concept: below });
            if above.contains(&carried.inverse()) && stands {
                after.insert(Mark { from: s, to: v, concept });
            }
        }
    }
}

/// For each sheet after the first, how many marks stand in it and not in the one before.
pub fn added(sheets: &[Marks]) -> Vec<u32> {
    sheets.windows(2).map(|pair| pair[1].difference(&pair[0]).count() as u32).collect()
}

/// The list of the last of these sheets: each of its marks with the first sheet that has it.
pub fn listing(sheets: &[Marks]) -> Vec<Entry> {
    let first = |mark: &Mark| sheets.iter().position(|sheet| sheet.contains(mark));
    let entry = |mark: &Mark| first(mark).map(|round| Entry { round: round as u32, mark: *mark });
    let mut list: Vec<Entry> = sheets.last().into_iter().flatten().filter_map(entry).collect();
    list.sort_by_key(|entry| (entry.round, entry.mark.from.0, entry.mark.to.0, entry.mark.concept.0));
    list
}

/// The sheets of round 0, 1, 2 … up to the first that one more round leaves unchanged.
pub fn all_rounds(known: &Known) -> Vec<Marks> {
    let mut sheets = vec![round_zero(known)];
    loop {
        let last = sheets.last().expect("round 0 is there");
        let next = round(known, last);
        if next == *last {
            return sheets;
        }
        sheets.push(next);
    }
}
