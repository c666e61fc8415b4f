//! The loop sheet, round by round; a row of 32 bits holds the marks (s, ·, B).

use crate::collection::{Collection, Step};
use crate::numbers::{Concept, Role, State, MOST_STATES};
use crate::order::{marked, Orders};

/// One relation between states: bit t of entry s.
pub type Relation = [u32; STATES];

const STATES: usize = MOST_STATES as usize;

pub const NOTHING: Relation = [0; STATES];

/// (s, t, B): a path leads from an element that has B in state s back to it in state t.
#[derive(Clone, Copy, Debug, PartialEq, Eq, Hash, PartialOrd, Ord)]
pub struct Mark {
    pub from: State,
    pub to: State,
    pub concept: Concept,
}

#[derive(Clone, PartialEq, Eq)]
pub struct Sheet {
    loops: Vec<Relation>,
}

/// What the rounds read besides the sheet: it doesn't change from round to round.
pub struct Rules {
    concepts: Vec<Concept>,
    roles: Vec<Role>,
    /// For each concept, the tests that pass at an element which has it.
    tests: Vec<Relation>,
    /// For each signed role, the role steps that go along an edge which was made by it.
    pub along: Vec<Relation>,
    /// For each concept B, the signed roles R with B ≤ ∃R.
    children: Vec<Vec<Role>>,
    states: usize,
}

/// How the closing ended: the rounds that were worked and whether one more would have changed the sheet.
pub struct Closing {
    /// How many marks each worked round added, round 1 first.
    pub added: Vec<u32>,
    pub spent: bool,
    pub sheet: Sheet,
}

impl Closing {
    /// No more than the allowance, which is a 32-bit number.
    pub fn rounds(&self) -> u32 {
        self.added.len() as u32
    }
}

impl Rules {
    pub fn of(collection: &Collection, orders: &Orders) -> Rules {
        let mut tests = vec![NOTHING; 128];
        let mut along = vec![NOTHING; 64];
        let mut children = vec![Vec::new(); 128];
        for step in &collection.steps {
            match *step {
                Step::Test { from, name, to } => {
                    let below = |concept: &Concept| orders.concept_below(*concept, name);
                    for concept in collection.counts.all_concepts().filter(below) {
                        tests[concept.at()][from.at()] |= 1 << to.0;
                    }
                }
                Step::Role { from, role, to } => {
                    let below = |made: &Role| orders.role_below(*made, role);
                    for made in collection.counts.all_roles().filter(below) {
                        along[made.at()][from.at()] |= 1 << to.0;
                    }
                }
            }
        }
        for concept in collection.counts.all_concepts() {
            let promised = orders.concepts_above(concept) >> 64;
            children[concept.at()] = marked(promised).map(Role).collect();
        }
        Rules {
            concepts: collection.counts.all_concepts().collect(),
            roles: collection.counts.all_roles().collect(),
            tests,
            along,
            children,
            states: usize::from(collection.counts.states),
        }
    }

    /// The signed roles by which whoever has this concept has children.
    pub fn children(&self, concept: Concept) -> &[Role] {
        &self.children[concept.at()]
    }

    /// Round 0: (s, s, B) for every state and concept.
    pub fn round_zero(&self) -> Sheet {
        let mut loops = vec![NOTHING; 128];
        for concept in &self.concepts {
            for (state, row) in loops[concept.at()].iter_mut().enumerate().take(self.states) {
                *row = 1 << state;
            }
        }
        Sheet { loops }
    }

    /// One further round; it reads only the sheet of the round before.
    pub fn round(&self, before: &Sheet) -> Sheet {
        let mut excursions = vec![NOTHING; 64];
        for &role in &self.roles {
            // Down by a step S with R ≤ S, a loop below, and up by the inverse of some T with R ≤ T.
            // R ≤ T exactly when the inverses are so ordered: the way up is `along` the inverse of R.
            let inner = &before.loops[role.inverse().neighbour().at()];
            let to_bottom = then(&self.along[role.at()], inner);
            excursions[role.at()] = then(&to_bottom, &self.along[role.inverse().at()]);
        }
        let mut after = before.clone();
        for &concept in &self.concepts {
            let old = &before.loops[concept.at()];
            let new = &mut after.loops[concept.at()];
            join(new, &self.tests[concept.at()]);
            join(new, &then(old, old));
            for role in &self.children[concept.at()] {
                join(new, &excursions[role.at()]);
            }
        }
        after
    }

    /// Works rounds until the sheet stays as it is or the allowance is spent.
    pub fn close(&self, allowance: u32) -> Closing {
        let mut closing = Closing { added: Vec::new(), spent: false, sheet: self.round_zero() };
        let mut standing = closing.sheet.standing();
        loop {
            let next = self.round(&closing.sheet);
            // Finding that nothing changes isn't counted.
            closing.spent = next != closing.sheet;
            if !closing.spent || closing.rounds() == allowance {
                return closing;
            }
            // A round keeps all marks, so it added as many as stand now and didn't before.
            let then_standing = next.standing();
            closing.added.push(then_standing - standing);
            standing = then_standing;
            closing.sheet = next;
        }
    }
}

impl Sheet {
    pub fn loops(&self, concept: Concept) -> &Relation {
        &self.loops[concept.at()]
    }

    /// How many marks stand: 32 × 32 × 128 at most.
    fn standing(&self) -> u32 {
        let rows = self.loops.iter().flatten();
        rows.map(|row| row.count_ones()).sum()
    }

    pub fn marks(&self) -> impl Iterator<Item = Mark> + '_ {
        marks_of(|concept, from| self.loops(concept)[from.at()])
    }

    /// The marks that don't stand in another sheet.
    pub fn marks_beyond<'a>(&'a self, other: &'a Sheet) -> impl Iterator<Item = Mark> + 'a {
        marks_of(|concept, from| self.loops(concept)[from.at()] & !other.loops(concept)[from.at()])
    }
}

/// The marks (s, ·, B) that each row says, in the order of the rows.
fn marks_of(row: impl Fn(Concept, State) -> u32) -> impl Iterator<Item = Mark> {
    let concepts = (0..128).map(Concept);
    let places = concepts.flat_map(|concept| (0..MOST_STATES as u8).map(move |from| (concept, State(from))));
    places.flat_map(move |(concept, from)| {
        marked(row(concept, from).into()).map(move |to| Mark { from, to: State(to), concept })
    })
}

pub fn join(into: &mut Relation, more: &Relation) {
    for (row, add) in into.iter_mut().zip(more) {
        *row |= add;
    }
}

/// One relation followed by another.
pub fn then(first: &Relation, second: &Relation) -> Relation {
    let mut both = NOTHING;
    for (row, middles) in both.iter_mut().zip(first) {
        let mut left = *middles;
        while left != 0 {
            *row |= second[left.trailing_zeros() as usize];
            left &= left - 1;
        }
    }
    both
}
