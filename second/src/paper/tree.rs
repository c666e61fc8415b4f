//! The canonical model down to the depth that matters for a file's answers.

use super::table::Table;
use super::words::Words;
use crate::element::Element;
use crate::explain::below::spot;
use crate::explain::clash::{Clash, What};
use crate::explain::path::{unfold, Path};
use crate::explain::walk::{Ground, Leg};
use crate::explain::{Asked, Behind, Explanation, MOST_STEPS};
use crate::model::known::Known;
use crate::numbers::{Concept, Role};

/// More elements than this are not for paper.
pub const MOST_ELEMENTS: usize = 60;

#[derive(Debug)]
pub struct TooLarge;

/// An element of the model and all that is shown below it.
pub struct Node {
    pub element: Element,
    pub concepts: Vec<Concept>,
    /// The roles of the ordered pair (parent, element), the one it was made by first; none for an individual.
    pub roles: Vec<Role>,
    pub children: Vec<Node>,
    /// The roles of children that belong but stand deeper than is shown.
    pub further: Vec<Role>,
}

/// Every individual with what is shown below it.
pub fn trees(explained: &Explanation) -> Result<Vec<Node>, TooLarge> {
    let known = Known::of(&explained.file.collection);
    let depth = depth(explained);
    let mut room = MOST_ELEMENTS;
    let people = explained.file.collection.counts.all_individuals();
    people.map(|who| grow(&known, Element::named(who), depth, &mut room)).collect()
}

fn grow(known: &Known, element: Element, depth: usize, room: &mut usize) -> Result<Node, TooLarge> {
    *room = room.checked_sub(1).ok_or(TooLarge)?;
    let (concepts, roles) = match element.row.last() {
        None => (known.person(element.who), Vec::new()),
        Some(&role) => {
            let others = known.roles_above(role).iter().copied().filter(|other| *other != role);
            (known.concepts_above(role.inverse().neighbour()), std::iter::once(role).chain(others).collect())
        }
    };
    let below = concepts.iter().filter_map(|concept| concept.as_neighbour());
    let (children, further) = if element.row.len() < depth {
        let children = below.map(|role| grow(known, element.child(role), depth, room));
        (children.collect::<Result<Vec<Node>, TooLarge>>()?, Vec::new())
    } else {
        (Vec::new(), below.collect())
    };
    Ok(Node { element, concepts: concepts.iter().copied().collect(), roles, children, further })
}

/// The longest row in the clash or in any path; the children of individuals at least, where an answer isn't yes.
fn depth(explained: &Explanation) -> usize {
    match &explained.clash {
        Some(clash) => elements(clash).iter().map(|element| element.row.len()).max().unwrap_or(0),
        None => explained.asks.iter().map(|asked| depth_of_ask(explained, asked)).max().unwrap_or(1),
    }
}

/// The one element of a clash, or its two.
pub fn elements(clash: &Clash) -> Vec<&Element> {
    match &clash.what {
        What::OnElement { element, .. } => vec![element],
        What::OnPair { first, second, .. } => vec![first, second],
    }
}

fn depth_of_ask(explained: &Explanation, asked: &Asked) -> usize {
    match &asked.behind {
        Behind::Path(path) => return deepest(path),
        Behind::Everywhere(_, spots) => {
            return spots.iter().map(|(element, _)| element.row.len()).max().unwrap_or(0).max(1)
        }
        _ => {}
    }
    let walk = Ground::of(&explained.file, &explained.rounds).walk(asked.ask.first());
    let loops = walk.legs.iter().filter(|(_, (_, leg))| matches!(leg, Leg::Loop(_)));
    let paths = loops.map(|(to, (from, leg))| {
        let Explanation { rounds, people, .. } = explained;
        unfold(rounds, people, spot(*from), &[(spot(*to), *leg)], MOST_STEPS)
    });
    paths.map(|path| deepest(&path)).max().unwrap_or(0).max(1)
}

fn deepest(path: &Path) -> usize {
    path.stands.iter().map(|stand| stand.element.row.len()).max().unwrap_or(0)
}

const MODEL: [&str; 4] = ["Element", "Why it belongs", "Its concepts", "Signed roles from its parent"];

/// A row for each individual, and one for the elements that the pencil adds.
pub fn model_form(explained: &Explanation) -> String {
    let people = explained.file.collection.counts.all_individuals();
    let rows = people.map(|who| vec![who.0.to_string()]).chain([Vec::new()]);
    Table::form(&MODEL, rows).text()
}

/// The elements shown, each with the reason that it belongs, its concepts and its edge.
pub fn model(explained: &Explanation, words: &Words) -> String {
    let Ok(trees) = trees(explained) else {
        return format!("The model has more than {MOST_ELEMENTS} elements down to the depth that matters.\n");
    };
    let mut table = Table::new(&MODEL);
    let mut waiting: Vec<&Node> = trees.iter().rev().collect();
    let mut further = String::new();
    while let Some(node) = waiting.pop() {
        let name = words.element(&node.element);
        let why = match node.element.parent() {
            None => "an individual always belongs".to_string(),
            Some((parent, role)) => {
                format!("{} has {}", words.element(&parent), words.concept(role.neighbour()))
            }
        };
        if !node.further.is_empty() {
            further += &format!("- {name}: by {}\n", words.roles(&node.further));
        }
        let edge = if node.roles.is_empty() { String::new() } else { words.roles(&node.roles) };
        table.row([name, why, words.concepts(&node.concepts), edge]);
        waiting.extend(node.children.iter().rev());
    }
    if further.is_empty() {
        return table.text() + "\nThere are no other elements.\n";
    }
    table.text() + "\nThe model goes on below these elements, without end:\n\n" + &further
}
