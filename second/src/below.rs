//! The search below the individuals: in which states a path comes to the unnamed elements. It goes down only, since whatever comes
//! back up is a mark of the closed sheet.

use crate::numbers::Role;
use crate::order::marked;
use crate::people::People;
use crate::sheet::{Rules, Sheet};

/// For each signed role, the states in which a path comes to some element whose row ends in it, from where a walk leads.
/// An element's concepts, its children and its loops depend on that role only, so one such element stands for all.
pub fn below(people: &People, rules: &Rules, sheet: &Sheet, walk: &[u32]) -> Vec<u32> {
    let mut search = Search { rules, sheet, seen: vec![0; 64], waiting: Vec::new() };
    for (has, states) in people.concepts.iter().zip(walk) {
        for role in marked(has >> 64).map(Role) {
            marked(u128::from(*states)).for_each(|state| search.down(role, state));
        }
    }
    while let Some((role, state)) = search.waiting.pop() {
        for child in rules.children(role.inverse().neighbour()) {
            search.down(*child, state);
        }
    }
    search.seen
}

struct Search<'a> {
    rules: &'a Rules,
    sheet: &'a Sheet,
    seen: Vec<u32>,
    waiting: Vec<(Role, u8)>,
}

impl Search<'_> {
    /// From the parent in that state down to its child by the role, and by the loops there.
    fn down(&mut self, role: Role, state: u8) {
        let loops = self.sheet.loops(role.inverse().neighbour());
        let steps = marked(self.rules.along[role.at()][usize::from(state)].into());
        let there = steps.fold(0, |all, next| all | loops[usize::from(next)]);
        let new = there & !self.seen[role.at()];
        self.seen[role.at()] |= new;
        self.waiting.extend(marked(u128::from(new)).map(|state| (role, state)));
    }
}
