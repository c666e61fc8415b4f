//! The walk of the individuals: by fact edges, by tests, and by the marks of a closed sheet.

use crate::collection::{Collection, Step};
use crate::numbers::{Concept, Individual};
use crate::order::marked;
use crate::people::People;
use crate::sheet::{join, Relation, Rules, Sheet, NOTHING};

/// From s to t at each individual, without leaving it but for the unnamed elements below it.
pub fn staying(collection: &Collection, people: &People, sheet: &Sheet) -> Vec<Relation> {
    let at_one = |has: &u128| {
        let mut relation = NOTHING;
        for concept in marked(*has) {
            join(&mut relation, sheet.loops(Concept(concept)));
        }
        for step in &collection.steps {
            if let Step::Test { from, name, to } = *step {
                if has >> name.0 & 1 == 1 {
                    relation[from.at()] |= 1 << to.0;
                }
            }
        }
        relation
    };
    people.concepts.iter().map(at_one).collect()
}

/// All states in which each individual is reached from the first individual in the start state.
pub fn reached(
    collection: &Collection,
    people: &People,
    rules: &Rules,
    staying: &[Relation],
    first: Individual,
) -> Vec<u32> {
    let start = collection.counts.start;
    let mut seen = vec![0u32; people.edges.len()];
    seen[first.at()] = 1 << start.0;
    let mut waiting = vec![(first, start.at())];
    while let Some((here, state)) = waiting.pop() {
        let stay = (here, staying[here.at()][state]);
        let moves = people.edges[here.at()].iter();
        let moves = moves.map(|&(there, role)| (there, rules.along[role.at()][state]));
        for (there, states) in moves.chain([stay]) {
            let new = states & !seen[there.at()];
            seen[there.at()] |= new;
            waiting.extend(marked(u128::from(new)).map(|next| (there, usize::from(next))));
        }
    }
    seen
}
