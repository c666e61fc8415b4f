//! A sound collection prepared once, so that many asks can be put to it.

use crate::area;
use crate::ask::Ask;
use crate::below::below;
use crate::clash::contradiction;
use crate::collection::Collection;
use crate::order::Orders;
use crate::people::People;
use crate::sheet::{Closing, Relation, Rules, Sheet};
use crate::walk::{reached, staying};

pub const NO: u8 = 0;
pub const YES: u8 = 1;
pub const CONTRADICTION: u8 = 2;
pub const ALLOWANCE_SPENT: u8 = 3;

pub struct Prepared<'a> {
    collection: &'a Collection,
    people: People,
    rules: Rules,
    /// None after a contradiction: then no round is worked.
    closing: Option<Closing>,
    staying: Vec<Relation>,
    /// Where a walk from each individual leads, once it was asked for.
    walks: Vec<Option<Vec<u32>>>,
}

impl<'a> Prepared<'a> {
    pub fn of(collection: &'a Collection, allowance: u32) -> Prepared<'a> {
        let orders = Orders::of(collection);
        let people = People::of(collection, &orders);
        let rules = Rules::of(collection, &orders);
        let sound = !contradiction(collection, &orders, &people);
        let closing = sound.then(|| rules.close(allowance));
        let staying = match &closing {
            Some(done) if !done.spent => staying(collection, &people, &done.sheet),
            _ => Vec::new(),
        };
        let walks = vec![None; people.edges.len()];
        Prepared { collection, people, rules, closing, staying, walks }
    }

    /// The number and its count for one declared ask, in the order 2, 3, then 1 or 0.
    pub fn answer(&mut self, ask: Ask) -> (u8, u32) {
        let done = match &self.closing {
            None => return (CONTRADICTION, 0),
            Some(done) if done.spent => return (ALLOWANCE_SPENT, done.rounds()),
            Some(done) => done,
        };
        let (collection, people) = (self.collection, &self.people);
        let (rules, staying) = (&self.rules, &self.staying);
        let first = ask.first();
        let walk =
            self.walks[first.at()].get_or_insert_with(|| reached(collection, people, rules, staying, first));
        let there = match ask {
            Ask::Pair(_, second) => walk[second.at()],
            Ask::From(_) => {
                let unnamed = below(people, rules, &done.sheet, walk);
                walk.iter().chain(&unnamed).fold(0, |all, states| all | states)
            }
        };
        let arrived = collection.finals.iter().any(|last| there >> last.0 & 1 == 1);
        (if arrived { YES } else { NO }, done.rounds())
    }

    /// How many marks each worked round added, round 1 first; None after a contradiction: then no round is worked.
    pub fn added(&self) -> Option<&[u32]> {
        self.closing.as_ref().map(|done| &done.added[..])
    }

    /// One more round would add marks, and the allowance is spent.
    pub fn spent(&self) -> bool {
        self.closing.as_ref().is_some_and(|done| done.spent)
    }

    /// The sheet after the rounds worked; None after a contradiction.
    pub fn sheet(&self) -> Option<&Sheet> {
        self.closing.as_ref().map(|done| &done.sheet)
    }

    /// The first area after 0, 1 and 3; None where the areas stay untouched.
    pub fn area(&self) -> Option<Vec<u8>> {
        self.sheet().map(|sheet| area::holding(sheet.marks()))
    }
}
