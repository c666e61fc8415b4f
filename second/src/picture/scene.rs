//! What is drawn into the model: the steps of the path, the clash, and notes in the boxes.

use crate::element::Element;
use crate::explain::clash::What;
use crate::explain::path::Move;
use crate::explain::{Asked, Behind, Explanation};
use crate::numbers::{Concept, Individual, State};
use crate::order::{marked, Orders};
use crate::paper::clash::{concept_of, sides};
use crate::paper::words::{states, Words};
use crate::sheet::{then, Rules};

/// One step of the path, drawn as a numbered arrow.
pub struct Travel {
    pub number: usize,
    pub from: Element,
    pub to: Element,
    /// Along a role fact, whose ends may be one individual.
    pub by_fact: bool,
    /// What the step is and its states, a line each.
    pub lines: [String; 2],
}

pub struct Scene<'a> {
    pub explained: &'a Explanation,
    pub words: &'a Words,
    pub travels: Vec<Travel>,
}

impl<'a> Scene<'a> {
    pub fn of(explained: &'a Explanation, words: &'a Words) -> Scene<'a> {
        Scene { explained, words, travels: travels(explained, words) }
    }

    /// The steps between an element and its child, in one direction.
    pub fn between(&self, from: &Element, to: &Element) -> Vec<&Travel> {
        self.travels.iter().filter(|travel| travel.from == *from && travel.to == *to).collect()
    }

    /// The tests at an element: what stays there and isn't along a fact.
    pub fn tests(&self, element: &Element) -> Vec<&Travel> {
        self.between(element, element).into_iter().filter(|travel| !travel.by_fact).collect()
    }

    /// Whether the element, or a pair it is in, is where the clash is.
    pub fn in_clash(&self, element: &Element) -> bool {
        let clash = self.explained.clash.as_ref();
        clash.is_some_and(|clash| crate::paper::tree::elements(clash).contains(&element))
    }

    /// The two excluded concepts, where the clash is on this element.
    pub fn excluded(&self, element: &Element) -> Vec<Concept> {
        match self.explained.clash.as_ref().map(|clash| &clash.what) {
            Some(What::OnElement { element: at, sides }) if at == element => {
                sides.iter().map(concept_of).collect()
            }
            _ => Vec::new(),
        }
    }

    /// What the clash on a pair says, when it is this pair, in either order.
    pub fn clash_between(&self, one: &Element, other: &Element) -> Option<Vec<String>> {
        let clash = self.explained.clash.as_ref()?;
        let What::OnPair { first, second, .. } = &clash.what else { return None };
        ([first, second] == [one, other] || [second, first] == [one, other]).then(|| self.clash_lines())
    }

    /// The clash in a few short lines.
    fn clash_lines(&self) -> Vec<String> {
        let Some(clash) = &self.explained.clash else { return Vec::new() };
        let found = sides(clash, self.words);
        let [left, right] = &found.sides;
        let both = if left == right {
            format!("{left} excludes itself")
        } else {
            format!("{left} excludes {right}")
        };
        vec![format!("CLASH on {}", found.place), both, format!("(line {})", found.line)]
    }

    /// What else stands in an element's box: the clash, where the path starts and ends, where any path comes.
    pub fn notes(&self, element: &Element) -> Vec<String> {
        let mut notes = Vec::new();
        if !self.excluded(element).is_empty() {
            notes.extend(self.clash_lines());
        }
        if let Some(path) = self.explained.asks.iter().find_map(path_of) {
            let (start, end) = (&path[0], &path[path.len() - 1]);
            if start.0 == *element {
                notes.push(format!("path starts in state {}", start.1 .0));
            }
            if end.0 == *element {
                notes.push(format!("path ends in state {}", end.1 .0));
            }
        }
        notes.extend(self.comes_here(element));
        notes
    }

    /// The states in which a path of the first ask that is no comes to an element.
    fn comes_here(&self, element: &Element) -> Option<String> {
        let (first, places) = self.explained.asks.iter().find_map(reached_of)?;
        let here = self.states_at(element, places);
        let word = ["", "state "].get(here.count_ones() as usize).unwrap_or(&"states ");
        Some(format!("paths from {}: {word}{}", first.0, states(marked(here.into()).map(State))))
    }

    /// From the individual down the row: a step along each role, then whatever loops the closed sheet has there.
    fn states_at(&self, element: &Element, places: &[(Individual, State)]) -> u32 {
        let collection = &self.explained.file.collection;
        let rules = Rules::of(collection, &Orders::of(collection));
        let at_root = places.iter().filter(|place| place.0 == element.who);
        let mut here: u32 = at_root.map(|place| 1 << place.1 .0).sum();
        for role in &element.row {
            let loops = self.explained.rounds.closed.loops(role.inverse().neighbour());
            let down = then(&rules.along[role.at()], loops);
            here = marked(here.into()).fold(0, |all, state| all | down[usize::from(state)]);
        }
        here
    }
}

/// The first and all further places of a path, where the answer is yes.
fn path_of(asked: &Asked) -> Option<Vec<(Element, State)>> {
    let Behind::Path(path) = &asked.behind else { return None };
    Some(path.stands.iter().map(|stand| (stand.element.clone(), stand.state)).collect())
}

fn reached_of(asked: &Asked) -> Option<(Individual, &Vec<(Individual, State)>)> {
    let (Behind::Reached(places) | Behind::Everywhere(places, _)) = &asked.behind else { return None };
    Some((asked.ask.first(), places))
}

/// The steps of the first path among the answers.
fn travels(explained: &Explanation, words: &Words) -> Vec<Travel> {
    let path = explained.asks.iter().find_map(|asked| match &asked.behind {
        Behind::Path(path) => Some(path),
        _ => None,
    });
    let stands = path.map_or(&[][..], |path| &path.stands);
    let mut travels = Vec::new();
    for (before, pair) in stands.windows(2).enumerate() {
        let what = match &pair[1].by {
            Some(Move::Test { name, .. }) => format!("test {}", words.concept(*name)),
            Some(Move::Fact { step, .. } | Move::Down { step } | Move::Up { step }) => words.role(step.role),
            None => String::new(),
        };
        let moved = format!("state {} → {}", pair[0].state.0, pair[1].state.0);
        let (from, to) = (pair[0].element.clone(), pair[1].element.clone());
        let by_fact = matches!(pair[1].by, Some(Move::Fact { .. }));
        travels.push(Travel { number: before + 1, from, to, by_fact, lines: [what, moved] });
    }
    travels
}
