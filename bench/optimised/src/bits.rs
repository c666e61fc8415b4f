//! Sets held as bits, and relations between states held as a row of bits for each state.

use std::ops::{BitAnd, BitAndAssign, BitOr, BitOrAssign, Not};

/// A number whose bits are a set of places.
pub trait Bits:
    Copy
    + Eq
    + Not<Output = Self>
    + BitAnd<Output = Self>
    + BitOr<Output = Self>
    + BitAndAssign
    + BitOrAssign
    + 'static
{
    const NONE: Self;
    const ALL: Self;

    fn one(place: usize) -> Self;
    fn has(self, place: usize) -> bool;
    fn size(self) -> u32;
    fn lowest(self) -> usize;
    fn without_lowest(self) -> Self;
}

/// The same for each width that is used.
macro_rules! bits {
    ($($width:ty),*) => {$(
        impl Bits for $width {
            const NONE: Self = 0;
            const ALL: Self = Self::MAX;

            #[inline(always)]
            fn one(place: usize) -> Self {
                1 << (place & (Self::BITS as usize - 1))
            }

            #[inline(always)]
            fn has(self, place: usize) -> bool {
                self & Self::one(place) != 0
            }

            #[inline(always)]
            fn size(self) -> u32 {
                self.count_ones()
            }

            #[inline(always)]
            fn lowest(self) -> usize {
                self.trailing_zeros() as usize
            }

            #[inline(always)]
            fn without_lowest(self) -> Self {
                self & (self - 1)
            }
        }
    )*};
}

bits!(u16, u32, u64, u128);

/// The places of the ones, lowest first.
pub struct Places<T>(pub T);

impl<T: Bits> Iterator for Places<T> {
    type Item = usize;

    #[inline(always)]
    fn next(&mut self) -> Option<usize> {
        if self.0 == T::NONE {
            return None;
        }
        let place = self.0.lowest();
        self.0 = self.0.without_lowest();
        Some(place)
    }
}

/// A set of states. Files of at most sixteen states are worked in sixteen bits, all others in thirty-two.
pub trait States: Bits {
    /// How many states there are at most.
    const MOST: usize;
    /// How many bytes a count has in a line that is written.
    const COUNT_BYTES: usize;
    /// A set for each state.
    type Rows: Copy + AsRef<[Self]> + AsMut<[Self]>;
    const NO_ROWS: Self::Rows;

    /// How many states stand in all rows together; as many rows at a time as a word of 64 bits holds.
    fn count(rows: &Self::Rows) -> u32;
    /// Of thirty-two states those that there are.
    fn from_wide(states: u32) -> Self;
}

macro_rules! states {
    ($($width:ty, $count_bytes:literal);*) => {$(
        impl States for $width {
            const MOST: usize = Self::BITS as usize;
            const COUNT_BYTES: usize = $count_bytes;
            type Rows = [Self; Self::BITS as usize];
            const NO_ROWS: Self::Rows = [0; Self::BITS as usize];

            #[inline(always)]
            fn count(rows: &Self::Rows) -> u32 {
                let words = rows.chunks_exact(64 / Self::MOST).map(|rows| {
                    rows.iter().rev().fold(0, |word: u64, row| word << Self::BITS | u64::from(*row))
                });
                words.map(u64::count_ones).sum()
            }

            #[inline(always)]
            fn from_wide(states: u32) -> Self {
                states as Self
            }
        }
    )*};
}

states!(u16, 2; u32, 4);

/// Bit t of row s: from state s to state t.
#[derive(Clone, Copy)]
#[repr(align(16))]
pub struct Relation<S: States>(pub S::Rows);

impl<S: States> Relation<S> {
    pub const EMPTY: Relation<S> = Relation(S::NO_ROWS);

    #[inline(always)]
    pub fn rows(&self) -> &[S] {
        self.0.as_ref()
    }

    #[inline(always)]
    pub fn rows_mut(&mut self) -> &mut [S] {
        self.0.as_mut()
    }

    /// The states that a state leads to.
    #[inline(always)]
    pub fn row(&self, state: usize) -> S {
        self.rows()[state & (S::MOST - 1)]
    }

    #[inline(always)]
    pub fn add(&mut self, from: u8, to: u8) {
        self.rows_mut()[usize::from(from) & (S::MOST - 1)] |= S::one(usize::from(to));
    }

    #[inline(always)]
    pub fn join(&mut self, other: &Relation<S>) {
        for (row, more) in self.rows_mut().iter_mut().zip(other.rows()) {
            *row |= *more;
        }
    }

    /// Takes away what stands in the other.
    #[inline(always)]
    pub fn without(&self, other: &Relation<S>) -> Relation<S> {
        let mut left = *self;
        for (row, less) in left.rows_mut().iter_mut().zip(other.rows()) {
            *row &= !*less;
        }
        left
    }

    /// How many pairs stand.
    #[inline(always)]
    pub fn count(&self) -> u32 {
        S::count(&self.0)
    }

    #[inline(always)]
    pub fn is_empty(&self) -> bool {
        self.ends() == S::NONE
    }

    /// All states that some row leads to.
    #[inline(always)]
    pub fn ends(&self) -> S {
        self.rows().iter().fold(S::NONE, |all, row| all | *row)
    }

    /// All states with a row that leads somewhere.
    #[inline(always)]
    pub fn starts(&self) -> S {
        self.leading_to(S::ALL)
    }

    /// All states that lead to one of these.
    #[inline(always)]
    pub fn leading_to(&self, ends: S) -> S {
        let mut starts = S::NONE;
        for (state, row) in self.rows().iter().enumerate() {
            starts |= if *row & ends != S::NONE { S::one(state) } else { S::NONE };
        }
        starts
    }

    /// For every state from which `first` leads to `middle`: also to all of `row`.
    /// All rows at once and no branch, so that it becomes a few vector instructions.
    #[inline(always)]
    pub fn lead_on(&mut self, first: &Relation<S>, middle: usize, row: S) {
        let bit = S::one(middle);
        for (into, from) in self.rows_mut().iter_mut().zip(first.rows()) {
            *into |= if *from & bit != S::NONE { row } else { S::NONE };
        }
    }

    /// Joins first-then-second.
    #[inline(always)]
    pub fn join_product(&mut self, first: &Relation<S>, second: &Relation<S>) {
        for middle in Places(first.ends() & second.starts()) {
            self.lead_on(first, middle, second.row(middle));
        }
    }
}
