//! What stands behind the desk's answers to a file, as data; module `print` makes text of it.

pub mod below;
pub mod chain;
pub mod clash;
pub mod fault;
pub mod noted;
pub mod path;
pub mod people;
pub mod rounds;
pub mod salvage;
pub mod walk;

use crate::ask::Ask;
use crate::desk::read::{read, File};
use crate::desk::{answer_line, round_line};
use crate::numbers::Individual;
use crate::prepared::Prepared;
use below::{spot, Below};
use chain::Chains;
use clash::{Clash, Places};
use fault::Faulty;
use path::{unfold, Path, Spot};
use people::People;
use rounds::Rounds;
use salvage::Salvage;
use std::collections::BTreeMap;
use walk::{Ground, Leg, Place, Walk};

/// A path is shown up to so many steps.
pub const MOST_STEPS: usize = 200;

pub struct Explanation {
    /// Without the facts that are dropped.
    pub file: File,
    /// Where the file chooses it.
    pub salvage: Option<Salvage>,
    pub chains: Chains,
    pub people: People,
    pub clash: Option<Clash>,
    pub rounds: Rounds,
    pub asks: Vec<Asked>,
}

pub struct Asked {
    pub line: usize,
    pub ask: Ask,
    pub number: u8,
    pub count: u32,
    pub behind: Behind,
}

pub enum Behind {
    Path(Path),
    /// Where the walk leads instead: individuals and states, in the order found.
    Reached(Vec<Place>),
    /// Of one individual: where any path leads, and below the individuals the first with each last signed role and state.
    Everywhere(Vec<Place>, Vec<Spot>),
    /// Contradiction or a spent allowance: the clash or the rounds explain it.
    Nothing,
}

impl Explanation {
    /// The line that the desk writes for a round; None without an ask, and for a round that it doesn't work.
    pub fn round_line(&self, round: usize) -> Option<String> {
        let worked = 1..=self.rounds.needed().min(self.file.allowance() as usize);
        let written = self.clash.is_none() && !self.asks.is_empty() && worked.contains(&round);
        written.then(|| {
            let added = self.rounds.added[round - 1].len() as u32;
            let line = round_line(self.file.collection.counts.states, round as u32, added);
            String::from_utf8_lossy(&line).trim_end().to_string()
        })
    }

    /// The line that the desk writes for an ask.
    pub fn answer_line(&self, asked: &Asked) -> String {
        let line = answer_line(self.file.collection.counts.states, asked.ask, asked.number, asked.count);
        String::from_utf8_lossy(&line).trim_end().to_string()
    }

    /// `1 (given)`, or `72 (none is given: 6 concepts × 4 states × 3)`.
    pub fn allowance(&self) -> String {
        let (allowance, counts) = (self.file.allowance(), &self.file.collection.counts);
        match self.file.allowance {
            Some(_) => format!("{allowance} (given)"),
            None => {
                let (concepts, states) = (counts.concepts(), counts.states);
                let most = format!("{concepts} concepts × {states} states × {}", states - 1);
                format!("{allowance} (none is given: {most})")
            }
        }
    }

    pub fn of(input: &[u8], most_steps: usize) -> Result<Explanation, Faulty> {
        let mut file = read(input).map_err(|fault| Faulty::of(input, fault))?;
        let chains = Chains::of(&file);
        let salvage = Salvage::of(&mut file, &chains);
        let people = people::people(&file, &chains);
        let clash = Places { file: &file, chains: &chains, people: &people }.clash();
        let rounds = Rounds::of(&file);
        let asks = asks(&file, &rounds, &people, most_steps);
        Ok(Explanation { file, salvage, chains, people, clash, rounds, asks })
    }
}

fn asks(file: &File, rounds: &Rounds, people: &People, most_steps: usize) -> Vec<Asked> {
    let mut prepared = Prepared::of(&file.collection, file.allowance());
    let ground = Ground::of(file, rounds);
    let mut walks: BTreeMap<Individual, Walk> = BTreeMap::new();
    let mut asked = Vec::new();
    for (&ask, &line) in file.asks.iter().zip(&file.lines.asks) {
        let (number, count) = prepared.answer(ask);
        let behind = if number < 2 {
            let walk = walks.entry(ask.first()).or_insert_with(|| ground.walk(ask.first()));
            match behind(&ground, walk, ask) {
                Ok(legs) => Behind::Path(unfold(rounds, people, spot(walk.start), &legs, most_steps)),
                Err(reached) => reached,
            }
        } else {
            Behind::Nothing
        };
        asked.push(Asked { line, ask, number, count, behind });
    }
    asked
}

/// The legs of a path, or where the walk leads instead. A path to an individual goes before one to an unnamed element.
fn behind(ground: &Ground, walk: &Walk, ask: Ask) -> Result<Vec<(Spot, Leg)>, Behind> {
    let finals = &ground.file.collection.finals;
    let named = match ask {
        Ask::Pair(_, second) => walk.legs_to(second, finals),
        Ask::From(_) => walk.legs_to_any(finals),
    };
    if let Some(legs) = named {
        return Ok(legs.into_iter().map(|(place, leg)| (spot(place), leg)).collect());
    }
    if let Ask::Pair(..) = ask {
        return Err(Behind::Reached(walk.reached.clone()));
    }
    let below = Below::of(ground, walk);
    let everywhere = || below.found.iter().map(|found| found.spot.clone()).collect();
    below.legs_to_any(finals).ok_or_else(|| Behind::Everywhere(walk.reached.clone(), everywhere()))
}
