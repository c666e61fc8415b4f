//! An element of the canonical model (docs/RULES.md, section 5): an individual followed by a row of signed roles.

use crate::numbers::{Individual, Role};

#[derive(Clone, Debug, PartialEq, Eq, PartialOrd, Ord)]
pub struct Element {
    pub who: Individual,
    pub row: Vec<Role>,
}

impl Element {
    pub fn named(who: Individual) -> Element {
        Element { who, row: Vec::new() }
    }

    pub fn child(&self, role: Role) -> Element {
        let mut row = self.row.clone();
        row.push(role);
        Element { who: self.who, row }
    }

    /// The parent and the last role; None for a bare individual.
    pub fn parent(&self) -> Option<(Element, Role)> {
        let (last, before) = self.row.split_last()?;
        Some((Element { who: self.who, row: before.to_vec() }, *last))
    }
}
