//! The desk's reader: line after line into a collection with its asks, or the first faulty line.

use super::frame::{frame, Frame};
use super::question::{expression, question, Typed};
use crate::ask::Ask;
use crate::collection::{Collection, ConceptFact, Counts, RoleFact};
use crate::listing::{departure, listing, Entry};
use crate::numbers::Deed;
use crate::salvage::{kept, Fact};
use crate::sheet::Mark;
use std::collections::BTreeSet;

/// Of both kinds together.
const MOST_ASKS: usize = 256;

pub const MOST_LISTED: usize = 131_072;

/// A file read without fault. `lines` tells the line of every record, for those who explain.
pub struct File {
    pub collection: Collection,
    pub asks: Vec<Ask>,
    pub allowance: Option<u32>,
    /// Where the question is typed as an expression; its steps and finals are in the collection.
    pub expression: Option<Typed>,
    /// The line that chooses salvage.
    pub salvages: Option<usize>,
    /// The list that ends the file; where there is no frame 10 there is none.
    pub list: Vec<Entry>,
    pub lines: Lines,
}

/// The line number of each record, table by table.
#[derive(Default)]
pub struct Lines {
    pub concept_rules: Vec<usize>,
    pub concept_exclusions: Vec<usize>,
    pub role_rules: Vec<usize>,
    pub role_exclusions: Vec<usize>,
    pub concept_facts: Vec<usize>,
    pub role_facts: Vec<usize>,
    pub steps: Vec<usize>,
    pub finals: Vec<usize>,
    pub asks: Vec<usize>,
    pub list: Vec<usize>,
}

#[derive(Clone, Copy, Debug, PartialEq, Eq)]
pub struct Fault {
    /// Counted from 1.
    pub line: usize,
    pub number: u8,
}

impl File {
    /// Without a frame 0C as many rounds as can be needed.
    pub fn allowance(&self) -> u32 {
        self.allowance.unwrap_or(self.collection.counts.most_rounds())
    }

    /// The facts of both kinds in the order typed, each with its line.
    pub fn facts(&self) -> Vec<(Fact, usize)> {
        let concepts = self.collection.concept_facts.iter().map(|fact| Fact::Concept(*fact));
        let roles = self.collection.role_facts.iter().map(|fact| Fact::Role(*fact));
        let concepts = concepts.zip(self.lines.concept_facts.iter().copied());
        let roles = roles.zip(self.lines.role_facts.iter().copied());
        let mut facts: Vec<(Fact, usize)> = concepts.chain(roles).collect();
        facts.sort_by_key(|(_, line)| *line);
        facts
    }

    /// The lines of the facts that are dropped; none of a file that does not choose salvage.
    pub fn dropped(&self) -> BTreeSet<usize> {
        if self.salvages.is_none() {
            return BTreeSet::new();
        }
        let (facts, lines): (Vec<Fact>, Vec<usize>) = self.facts().into_iter().unzip();
        let marks = kept(&self.collection, &facts);
        lines.into_iter().zip(marks).filter(|(_, kept)| !kept).map(|(line, _)| line).collect()
    }

    /// Takes the dropped facts out of their tables, and says on which lines they stand. What remains is what is answered.
    pub fn salvage(&mut self) -> BTreeSet<usize> {
        let dropped = self.dropped();
        let (collection, lines) = (&mut self.collection, &mut self.lines);
        take_out(&mut collection.concept_facts, &mut lines.concept_facts, &dropped);
        take_out(&mut collection.role_facts, &mut lines.role_facts, &dropped);
        dropped
    }

    /// The list that the list of this file must be; None in a contradiction, which a file that chooses salvage never is.
    pub fn listing(&self) -> Option<Vec<Entry>> {
        if self.salvages.is_none() {
            return listing(&self.collection);
        }
        // Any facts that clash with nothing will do, since no mark depends on facts; these are the kept ones.
        let dropped = self.dropped();
        let mut collection = self.collection.clone();
        take_out(&mut collection.concept_facts, &mut self.lines.concept_facts.clone(), &dropped);
        take_out(&mut collection.role_facts, &mut self.lines.role_facts.clone(), &dropped);
        listing(&collection)
    }
}

/// Takes the records of these lines out of a table, and their lines with them.
fn take_out<T>(table: &mut Vec<T>, lines: &mut Vec<usize>, dropped: &BTreeSet<usize>) {
    let mut stays = lines.iter().map(|line| !dropped.contains(line));
    table.retain(|_| stays.next().expect("each record has its line"));
    lines.retain(|line| !dropped.contains(line));
}

/// A line ends at byte 0A; a last line of one character or more may lack it.
pub fn lines(input: &[u8]) -> impl Iterator<Item = &[u8]> {
    let ended = input.strip_suffix(b"\n").unwrap_or(input);
    // Nothing at all is no line, while a single 0A is one empty line.
    let any = (!input.is_empty()).then(|| ended.split(|&byte| byte == b'\n'));
    any.into_iter().flatten()
}

/// A file without fault. Its list, where it has one, is that of its sheet, or there is a contradiction and no salvage.
pub fn read(input: &[u8]) -> Result<File, Fault> {
    let file = read_lines(input)?;
    let Some(first) = file.lines.list.first() else { return Ok(file) };
    let departs = file.listing().and_then(|listing| departure(&file.list, &listing));
    match departs {
        Some(place) => Err(Fault { line: first + place, number: 15 }),
        None => Ok(file),
    }
}

/// A file without a faulty line; its list may be any.
pub fn read_lines(input: &[u8]) -> Result<File, Fault> {
    let mut file: Option<File> = None;
    for (before, line) in lines(input).enumerate() {
        let at = before + 1;
        let faulty = |number| Fault { line: at, number };
        let frame = frame(line).map_err(faulty)?;
        match (&mut file, frame) {
            (None, Frame::Counts(numbers)) => file = Some(begin(numbers).map_err(faulty)?),
            (None, _) | (Some(_), Frame::Counts(_)) => return Err(faulty(11)),
            (Some(file), frame) => take(file, frame, at).map_err(faulty)?,
        }
    }
    file.ok_or(Fault { line: 1, number: 11 })
}

fn begin(numbers: [u8; 5]) -> Result<File, u8> {
    let [names, roles, individuals, states, start] = numbers.map(u16::from);
    let counts = Counts::new(names, roles, individuals, states, start).ok_or(4)?;
    let collection = Collection::empty(counts);
    let (asks, list, lines) = (Vec::new(), Vec::new(), Lines::default());
    Ok(File { collection, asks, allowance: None, expression: None, salvages: None, list, lines })
}

/// One frame after the first: 11, then 5, 6, 8, 13, 12, 14 as its kind can have them.
fn take(file: &mut File, frame: Frame, at: usize) -> Result<(), u8> {
    match frame {
        Frame::Entry { round, from, to, concept } => {
            let counts = &file.collection.counts;
            let ends = counts.state(from.into()).zip(counts.state(to.into()));
            let mark = ends.zip(counts.basic_concept(concept.into()));
            let entry = mark.map(|((from, to), concept)| Entry { round, mark: Mark { from, to, concept } });
            put(&mut file.list, &mut file.lines.list, MOST_LISTED, at, entry)
        }
        // The list ends the file.
        _ if !file.list.is_empty() => Err(11),
        Frame::Counts(_) => Err(11),
        Frame::Allowance(_) if file.allowance.is_some() => Err(11),
        Frame::Allowance(rounds) => {
            file.allowance = Some(rounds);
            Ok(())
        }
        Frame::Salvage if file.salvages.is_some() => Err(11),
        Frame::Salvage => {
            file.salvages = Some(at);
            Ok(())
        }
        Frame::Ask(..) | Frame::AskFrom(_) => ask(file, frame, at),
        Frame::ConceptRule(..) | Frame::ConceptExclusion(..) => concept_pair(file, frame, at),
        Frame::RoleRule(..) | Frame::RoleExclusion(..) => role_pair(file, frame, at),
        Frame::ConceptFact { .. } | Frame::RoleFact { .. } => fact(file, frame, at),
        Frame::RoleStep { .. } | Frame::TestStep { .. } | Frame::Final(_) => question(file, frame, at),
        Frame::Expression(marks) => expression(file, marks, at),
    }
}

/// Puts a record into its table: 5 when there is no room for it, else 6 when a number in it isn't declared.
pub fn put<T>(
    table: &mut Vec<T>,
    lines: &mut Vec<usize>,
    most: usize,
    at: usize,
    record: Option<T>,
) -> Result<(), u8> {
    if table.len() == most {
        return Err(5);
    }
    table.push(record.ok_or(6)?);
    lines.push(at);
    Ok(())
}

fn ask(file: &mut File, frame: Frame, at: usize) -> Result<(), u8> {
    if file.asks.len() == MOST_ASKS {
        return Err(5);
    }
    let declared = |who: u8| file.collection.counts.individual(who.into()).ok_or(8);
    let ask = match frame {
        Frame::Ask(first, second) => Ask::Pair(declared(first)?, declared(second)?),
        Frame::AskFrom(first) => Ask::From(declared(first)?),
        _ => unreachable!("only asks come here"),
    };
    file.asks.push(ask);
    file.lines.asks.push(at);
    Ok(())
}

fn concept_pair(file: &mut File, frame: Frame, at: usize) -> Result<(), u8> {
    let (collection, lines) = (&mut file.collection, &mut file.lines);
    let (table, lines, left, right) = match frame {
        Frame::ConceptRule(left, right) => {
            (&mut collection.concept_rules, &mut lines.concept_rules, left, right)
        }
        Frame::ConceptExclusion(left, right) => {
            (&mut collection.concept_exclusions, &mut lines.concept_exclusions, left, right)
        }
        _ => unreachable!("only concept rules and exclusions come here"),
    };
    let counts = &collection.counts;
    let record = counts.basic_concept(left.into()).zip(counts.basic_concept(right.into()));
    put(table, lines, 512, at, record)
}

fn role_pair(file: &mut File, frame: Frame, at: usize) -> Result<(), u8> {
    let (collection, lines) = (&mut file.collection, &mut file.lines);
    let (table, lines, left, right) = match frame {
        Frame::RoleRule(left, right) => (&mut collection.role_rules, &mut lines.role_rules, left, right),
        Frame::RoleExclusion(left, right) => {
            (&mut collection.role_exclusions, &mut lines.role_exclusions, left, right)
        }
        _ => unreachable!("only role rules and exclusions come here"),
    };
    let counts = &collection.counts;
    let record = counts.signed_role(left.into()).zip(counts.signed_role(right.into()));
    put(table, lines, 128, at, record)
}

fn fact(file: &mut File, frame: Frame, at: usize) -> Result<(), u8> {
    let (collection, lines) = (&mut file.collection, &mut file.lines);
    let counts = &collection.counts;
    match frame {
        Frame::ConceptFact { name, who, deed } => {
            let declared = counts.name(name.into()).zip(counts.individual(who.into()));
            let record = declared.map(|(name, who)| ConceptFact { name, who, deed: Deed(deed) });
            put(&mut collection.concept_facts, &mut lines.concept_facts, 1_024, at, record)
        }
        Frame::RoleFact { role, first, second, deed } => {
            let ends = counts.individual(first.into()).zip(counts.individual(second.into()));
            let declared = counts.role_name(role.into()).zip(ends);
            let record =
                declared.map(|(role, (first, second))| RoleFact { role, first, second, deed: Deed(deed) });
            put(&mut collection.role_facts, &mut lines.role_facts, 4_096, at, record)
        }
        _ => unreachable!("only facts come here"),
    }
}
