//! An ask (docs/RULES.md, section 5): whether a path leads from one individual to another, or from one to any element at all.

use crate::numbers::Individual;

#[derive(Clone, Copy, Debug, PartialEq, Eq, PartialOrd, Ord)]
pub enum Ask {
    /// Frame 0B: from the first individual to the second.
    Pair(Individual, Individual),
    /// Frame 0E: from this individual to any element at all, named or not.
    From(Individual),
}

impl Ask {
    /// Where its paths begin.
    pub fn first(self) -> Individual {
        match self {
            Ask::Pair(first, _) | Ask::From(first) => first,
        }
    }

    /// The bytes of its frame.
    pub fn frame(self) -> Vec<u8> {
        match self {
            Ask::Pair(first, second) => vec![0x0B, first.0, second.0],
            Ask::From(first) => vec![0x0E, first.0],
        }
    }
}
