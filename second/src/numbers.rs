//! The four kinds of number (docs/RULES.md, section 2), each a type of its own, and their limits.

pub const MOST_NAMES: u16 = 64;
pub const MOST_ROLES: u16 = 32;
pub const MOST_INDIVIDUALS: u16 = 255;
pub const MOST_STATES: u16 = 32;

/// Up to so many declared states a written count has two bytes, and a stored area was shorter once (docs/RULES.md, sections 6 and 8).
pub const FEW_STATES: u16 = 16;

/// Basic concepts "has an R-neighbour" are numbered from here, whatever is declared.
pub const NEIGHBOUR_BASE: u8 = 64;

/// A signed role: 2×r is role name r forward, 2×r+1 is r backward.
#[derive(Clone, Copy, Debug, PartialEq, Eq, PartialOrd, Ord, Hash)]
pub struct Role(pub u8);

/// A basic concept: a name below 64, or 64 + R for "has an R-neighbour".
#[derive(Clone, Copy, Debug, PartialEq, Eq, PartialOrd, Ord, Hash)]
pub struct Concept(pub u8);

#[derive(Clone, Copy, Debug, PartialEq, Eq, PartialOrd, Ord, Hash)]
pub struct Individual(pub u8);

#[derive(Clone, Copy, Debug, PartialEq, Eq, PartialOrd, Ord, Hash)]
pub struct State(pub u8);

/// The number of the deed by which a fact is known. Each is allowed, and no answer depends on it.
#[derive(Clone, Copy, Debug, PartialEq, Eq, PartialOrd, Ord, Hash)]
pub struct Deed(pub u16);

impl Deed {
    pub const NONE_NOTED: Deed = Deed(0);
}

impl Role {
    pub fn forward(name: u8) -> Role {
        Role(2 * name)
    }

    pub fn inverse(self) -> Role {
        Role(self.0 ^ 1)
    }

    /// The concept "has an R-neighbour".
    pub fn neighbour(self) -> Concept {
        Concept(NEIGHBOUR_BASE + self.0)
    }

    pub fn at(self) -> usize {
        usize::from(self.0)
    }
}

impl Concept {
    /// The signed role R when this concept is "has an R-neighbour".
    pub fn as_neighbour(self) -> Option<Role> {
        self.0.checked_sub(NEIGHBOUR_BASE).map(Role)
    }

    pub fn at(self) -> usize {
        usize::from(self.0)
    }
}

impl Individual {
    pub fn at(self) -> usize {
        usize::from(self.0)
    }
}

impl State {
    pub fn at(self) -> usize {
        usize::from(self.0)
    }
}
