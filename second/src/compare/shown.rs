//! Whether what `explain` shows is so: its paths are paths of the canonical model, its clash is one, and each step and each side
//! holds by the one fact that is named for it.

use super::parts::{has_equal_ends, SELF_DEALING};
use crate::ask::Ask;
use crate::collection::{Collection, ConceptFact, RoleFact};
use crate::desk::read::{read, File};
use crate::element::Element;
use crate::explain::clash::{Clash, ConceptSide, What};
use crate::explain::noted::{concept_facts, role_facts, Noted};
use crate::explain::path::{Move, Path, Stand};
use crate::explain::salvage::{Dropped, Typed};
use crate::explain::{Asked, Behind, Explanation};
use crate::model::check::{belongs, concepts, is_path, roles};
use crate::model::{known::Known, Model};
use crate::numbers::{Concept, Deed};
use crate::salvage::{with_facts, Fact};
use std::collections::BTreeMap;

/// Enough for the paths of small collections; a longer one isn't looked at.
const MOST_STEPS: usize = 2_000;

/// What a case can show, beside its answers.
pub const MET: [&str; 6] = [
    SELF_DEALING,
    "a path by a self-dealing fact",
    "a clash by a self-dealing fact",
    "a path that ends more than 5 roles deep",
    "a step by a noted deed",
    "a clash by a noted deed",
];

/// Which of `MET` it shows; the error is what was expected and what was found.
pub fn agrees(input: &[u8], known: &Known) -> Result<Vec<&'static str>, (String, String)> {
    let fails = |what: &str| Err((what.to_string(), "explain shows something else".to_string()));
    let Ok(explained) = Explanation::of(input, MOST_STEPS) else { return fails("a sound file") };
    for asked in &explained.asks {
        if asked.number == 2 && explained.clash.is_none() {
            return fails("a clash for a contradiction");
        }
        match &asked.behind {
            Behind::Path(path) if asked.number != 1 || !leads(path, asked, known) => return fails("a path"),
            Behind::Reached(_) | Behind::Everywhere(..) if asked.number != 0 => {
                return fails("a path for a yes")
            }
            _ => {}
        }
    }
    if !rest_on_their_facts(&explained) {
        return fails("a step that holds by its fact alone");
    }
    match &explained.clash {
        Some(clash) if !clashes(clash, &explained, known) => fails("a clash that is one"),
        Some(clash) if !sides_rest_on_their_facts(clash, &explained.file) => {
            fails("a side that holds by its fact alone")
        }
        Some(_) if explained.asks.iter().any(|asked| asked.number != 2) => fails("no clash"),
        _ => Ok(met(&explained)),
    }
}

fn met(explained: &Explanation) -> Vec<&'static str> {
    let path = explained.asks.iter().any(|asked| match &asked.behind {
        Behind::Path(path) => path
            .stands
            .windows(2)
            .any(|pair| matches!(pair[1].by, Some(Move::Fact { .. })) && pair[0].element == pair[1].element),
        _ => false,
    });
    let clash = explained.clash.as_ref().is_some_and(|clash| match &clash.what {
        What::OnPair { first, second, .. } => first == second,
        What::OnElement { .. } => false,
    });
    let deep = explained.asks.iter().any(|asked| match &asked.behind {
        Behind::Path(path) if path.more == 0 => {
            path.stands.last().is_some_and(|last| last.element.row.len() > 5)
        }
        _ => false,
    });
    let is_noted = |fact: &Noted| fact.deed != Deed::NONE_NOTED;
    let step = steps(explained).any(|pair| pair[1].rests_on.as_ref().is_some_and(is_noted));
    let side = explained.clash.as_ref().is_some_and(|clash| clash.rests_on().iter().any(is_noted));
    let met = [has_equal_ends(&explained.file.collection), path, clash, deep, step, side];
    MET.into_iter().zip(met).filter(|(_, is_so)| *is_so).map(|(what, _)| what).collect()
}

/// Each step that is shown, as where it leads from and where it leads to.
fn steps(explained: &Explanation) -> impl Iterator<Item = &[Stand]> {
    let path = |asked| match asked {
        &Asked { behind: Behind::Path(ref path), .. } => Some(path),
        _ => None,
    };
    explained.asks.iter().filter_map(path).flat_map(|path| path.stands.windows(2))
}

/// What can be shown of a dropped fact.
pub const DROPPED: [&str; 2] =
    ["a fact shown to clash with the rules alone", "a fact shown to clash with another"];

/// Whether what is shown of each dropped fact is so: that it makes a contradiction with the facts that are named, but not without
/// any of them, and that the clash is one of these.
pub fn dropped_agree(input: &[u8]) -> Result<Vec<&'static str>, (String, String)> {
    let fails = |what: &str| Err((what.to_string(), "explain shows something else".to_string()));
    let (Ok(explained), Ok(file)) = (Explanation::of(input, 0), read(input)) else {
        return fails("a sound file");
    };
    let Some(salvage) = &explained.salvage else { return fails("a salvage") };
    let mut met = Vec::new();
    for Dropped { fact, with, clash } in &salvage.dropped {
        let named: Vec<Fact> = with.iter().chain([fact]).map(|(fact, _)| *fact).collect();
        let collection = with_facts(&file.collection, &named);
        let before = |(_, noted): &Typed| explained.file.facts().iter().any(|(_, line)| *line == noted.line);
        if !with.iter().all(|kept| before(kept) && kept.1.line < fact.1.line) {
            return fails("kept facts before it");
        }
        let is_clash = clashes(clash, &explained, &Known::of(&collection));
        if !is_clash || !sides_rest_on_their_facts(clash, &file) {
            return fails("a clash that is one, by facts that are named");
        }
        let lines: Vec<usize> = with.iter().chain([fact]).map(|(_, noted)| noted.line).collect();
        if !clash.rests_on().iter().all(|noted| lines.contains(&noted.line)) {
            return fails("a clash by the facts that are named");
        }
        for left_out in 0..with.len() {
            let fewer: Vec<Fact> =
                (0..named.len()).filter(|at| *at != left_out).map(|at| named[at]).collect();
            let collection = with_facts(&file.collection, &fewer);
            if Model::of(&Known::of(&collection)).is_ok_and(|model| model.is_contradiction()) {
                return fails("no fact that could be left out");
            }
        }
        met.push(DROPPED[usize::from(!with.is_empty())]);
    }
    met.sort();
    met.dedup();
    Ok(met)
}

/// The collection without any fact but the one that is noted there; None where there is none.
fn with_only(file: &File, noted: Noted) -> Option<Collection> {
    let concept_facts: Vec<ConceptFact> = noted_there(concept_facts(file), noted);
    let role_facts: Vec<RoleFact> = noted_there(role_facts(file), noted);
    let one = concept_facts.len() + role_facts.len() == 1;
    one.then(|| Collection { concept_facts, role_facts, ..file.collection.clone() })
}

fn noted_there<T>(facts: Vec<(T, Noted)>, noted: Noted) -> Vec<T> {
    facts.into_iter().filter(|(_, there)| *there == noted).map(|(fact, _)| fact).collect()
}

/// Each step is one of the model in which no other fact is typed than the one it rests on.
fn rest_on_their_facts(explained: &Explanation) -> bool {
    let mut by_fact: BTreeMap<Noted, Vec<&[Stand]>> = BTreeMap::new();
    for step in steps(explained) {
        let Some(noted) = step[1].rests_on else { return false };
        by_fact.entry(noted).or_default().push(step);
    }
    by_fact.into_iter().all(|(noted, steps)| {
        let Some(only) = with_only(&explained.file, noted) else { return false };
        let known = Known::of(&only);
        let spot = |stand: &Stand| (stand.element.clone(), stand.state);
        steps.into_iter().all(|step| is_path(&known, &[spot(&step[0]), spot(&step[1])]))
    })
}

/// Likewise each side of the clash.
fn sides_rest_on_their_facts(clash: &Clash, file: &File) -> bool {
    let holds = |side: usize, noted: Noted| {
        let Some(only) = with_only(file, noted) else { return false };
        let known = Known::of(&only);
        match &clash.what {
            What::OnElement { element, sides } => {
                belongs(&known, element) && concepts(&known, element).contains(&shown_concept(&sides[side]))
            }
            What::OnPair { first, second, sides } => {
                let belong = belongs(&known, first) && belongs(&known, second);
                belong && roles(&known, first, second).contains(&sides[side].to)
            }
        }
    };
    clash.rests_on().into_iter().enumerate().all(|(side, noted)| holds(side, noted))
}

fn leads(path: &Path, asked: &Asked, known: &Known) -> bool {
    if path.more > 0 {
        return true;
    }
    let stands: Vec<_> = path.stands.iter().map(|stand| (stand.element.clone(), stand.state)).collect();
    let (Some(first), Some(last)) = (stands.first(), stands.last()) else { return false };
    let begins = first.0 == Element::named(asked.ask.first());
    let ends = match asked.ask {
        Ask::Pair(_, second) => last.0 == Element::named(second),
        Ask::From(_) => true,
    };
    let states = first.1 == known.collection.counts.start && known.collection.finals.contains(&last.1);
    begins && ends && states && is_path(known, &stands)
}

fn clashes(clash: &Clash, explained: &Explanation, known: &Known) -> bool {
    let (collection, lines) = (&explained.file.collection, &explained.file.lines);
    match &clash.what {
        What::OnElement { element, sides } => {
            let at = lines.concept_exclusions.iter().position(|line| *line == clash.line);
            let excluded = at.map(|at| collection.concept_exclusions[at]);
            let [left, right] = [&sides[0], &sides[1]].map(shown_concept);
            let has = concepts(known, element);
            excluded == Some((left, right))
                && belongs(known, element)
                && has.contains(&left)
                && has.contains(&right)
        }
        What::OnPair { first, second, sides } => {
            let at = lines.role_exclusions.iter().position(|line| *line == clash.line);
            let excluded = at.map(|at| collection.role_exclusions[at]);
            let has = roles(known, first, second);
            excluded == Some((sides[0].to, sides[1].to))
                && belongs(known, first)
                && belongs(known, second)
                && has.contains(&sides[0].to)
                && has.contains(&sides[1].to)
        }
    }
}

fn shown_concept(side: &ConceptSide) -> Concept {
    match side {
        ConceptSide::Named(has) => has.concept,
        ConceptSide::Unnamed { to, .. } => *to,
    }
}
