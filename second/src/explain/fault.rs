//! A faulty file's line in words: which line, which number, and what about it.

use crate::desk::frame::{frame, most_characters, Frame};
use crate::desk::question::{MOST_FINALS, MOST_STEPS};
use crate::desk::read::{lines, read_lines, Fault, File, MOST_LISTED};
use crate::expression::{read, Letter};
use crate::listing::Entry;
use crate::numbers::MOST_STATES;

pub struct Faulty {
    pub fault: Fault,
    /// The line as it stands in the file; None when the input is empty, or the line is the one after a short list.
    pub line: Option<Vec<u8>>,
    pub reason: String,
}

impl Faulty {
    pub fn of(input: &[u8], fault: Fault) -> Faulty {
        let line = lines(input).nth(fault.line - 1).map(<[u8]>::to_vec);
        let reason = match &line {
            None if fault.number == 15 => departs(input, fault.line),
            None => "the input is empty, so frame 01 is missing from line 1".to_string(),
            Some(line) => reason(input, line, fault),
        };
        Faulty { fault, line, reason }
    }
}

fn reason(input: &[u8], line: &[u8], fault: Fault) -> String {
    match fault.number {
        9 => characters(line),
        10 => shape(line),
        11 => place(input, line, fault.line),
        4 => counts(line),
        5 => too_many(line),
        6 => undeclared(input, line),
        12 => no_expression(line),
        13 => too_deep(line),
        14 => other_states(input, line),
        15 => departs(input, fault.line),
        _ => undeclared(input, line),
    }
}

fn characters(line: &[u8]) -> String {
    let odd_one = |byte: &u8| !matches!(byte, b'0'..=b'9' | b'A'..=b'F');
    if line.is_empty() {
        "the line is empty".to_string()
    } else if line.len() > most_characters(line) {
        format!("the line has {} characters; {} is the most", line.len(), most_characters(line))
    } else if line.len() % 2 == 1 {
        format!("the line has {} characters, an odd number", line.len())
    } else {
        let place = line.iter().position(odd_one).unwrap_or(0);
        format!("character {} is byte {:02X}, other than 0–9 and A–F", place + 1, line[place])
    }
}

/// The kinds of frame from 01 to 0F: what they are called and how many bytes of fields they have.
const KINDS: [(&str, &str); 15] = [
    ("the counts", "5"),
    ("a concept rule", "2"),
    ("a concept exclusion", "2"),
    ("a role rule", "2"),
    ("a role exclusion", "2"),
    ("a concept fact", "2, or 4 with a deed number,"),
    ("a role fact", "3, or 5 with a deed number,"),
    ("a role step", "3"),
    ("a test step", "3"),
    ("a final", "1"),
    ("an ask", "2"),
    ("the allowance", "2 or 4"),
    // Any number of marks is right.
    ("an expression", "any number of"),
    ("an ask of one individual", "1"),
    ("the choice of salvage", "0"),
];

/// The frame's kind as it is called; None when it is unknown.
fn kind(line: &[u8]) -> Option<(&'static str, &'static str)> {
    let text = std::str::from_utf8(line.get(..2)?).ok()?;
    let number = usize::from_str_radix(text, 16).ok()?;
    match number {
        0x10 => Some(("an entry of the list", "7")),
        _ => KINDS.get(number.checked_sub(1)?).copied(),
    }
}

fn shape(line: &[u8]) -> String {
    match kind(line) {
        None => format!("no frame has the kind {}", String::from_utf8_lossy(&line[..2])),
        Some((name, fields)) => {
            let found = line.len() / 2 - 1;
            format!("{name} has {fields} bytes after its kind; here there are {found}")
        }
    }
}

fn place(input: &[u8], line: &[u8], at: usize) -> String {
    match (at, frame(line)) {
        (1, _) => "frame 01 is missing from line 1".to_string(),
        _ if lines(input).nth(at - 2).is_some_and(|before| before.starts_with(b"10")) => {
            "another frame after a frame 10; the list ends the file".to_string()
        }
        (_, Ok(Frame::Counts(_))) => "frame 01 is given again".to_string(),
        (_, Ok(Frame::Allowance(_))) => "a second frame 0C".to_string(),
        (_, Ok(Frame::Salvage)) => "a second frame 0F".to_string(),
        (_, Ok(Frame::Expression(_))) => "a second frame 0D, or one after a frame 08, 09 or 0A".to_string(),
        _ => "a frame 08, 09 or 0A after a frame 0D".to_string(),
    }
}

fn counts(line: &[u8]) -> String {
    let Ok(Frame::Counts([names, roles, _, states, start])) = frame(line) else { return String::new() };
    if names > 64 {
        format!("{names} names are declared; 64 is the most")
    } else if roles > 32 {
        format!("{roles} roles are declared; 32 is the most")
    } else if !(1..=MOST_STATES).contains(&states.into()) {
        format!("{states} states are declared; there are 1 to {MOST_STATES}")
    } else {
        format!("the start state {start} is not below the {states} states")
    }
}

fn too_many(line: &[u8]) -> String {
    let (table, most) = match frame(line) {
        Ok(Frame::ConceptRule(..)) => ("concept rules", 512),
        Ok(Frame::ConceptExclusion(..)) => ("concept exclusions", 512),
        Ok(Frame::RoleRule(..)) => ("role rules", 128),
        Ok(Frame::RoleExclusion(..)) => ("role exclusions", 128),
        Ok(Frame::ConceptFact { .. }) => ("concept facts", 1_024),
        Ok(Frame::RoleFact { .. }) => ("role facts", 4_096),
        Ok(Frame::Final(_)) => ("finals", MOST_FINALS),
        Ok(Frame::Ask(..) | Frame::AskFrom(_)) => ("asks", 256),
        Ok(Frame::Entry { .. }) => ("entries of the list", MOST_LISTED),
        _ => ("steps of both kinds", MOST_STEPS),
    };
    format!("one frame too many: there are already {most} {table}")
}

/// Numbers 6 and 8: the fields of the record that aren't declared.
fn undeclared(input: &[u8], line: &[u8]) -> String {
    let first = lines(input).next().map(frame);
    let Some(Ok(Frame::Counts([names, roles, individuals, states, _]))) = first else { return String::new() };
    let name = |n: u8| (n >= names).then(|| format!("name {n} ({names} are declared)"));
    let role = |n: u8| (n >= roles).then(|| format!("role {n} ({roles} are declared)"));
    let signed = |n: u8| (n >= 2 * roles).then(|| format!("signed role {n} ({roles} roles are declared)"));
    let state = |n: u8| (n >= states).then(|| format!("state {n} ({states} are declared)"));
    let person = |n: u8| (n >= individuals).then(|| format!("individual {n} ({individuals} are declared)"));
    let concept = |n: u8| match n.checked_sub(64) {
        None => name(n),
        Some(role) => signed(role).map(|what| format!("basic concept {n}: {what}")),
    };
    let wrong = match frame(line) {
        Ok(Frame::ConceptRule(a, b) | Frame::ConceptExclusion(a, b)) => vec![concept(a), concept(b)],
        Ok(Frame::RoleRule(a, b) | Frame::RoleExclusion(a, b)) => vec![signed(a), signed(b)],
        Ok(Frame::ConceptFact { name: a, who, .. }) => vec![name(a), person(who)],
        Ok(Frame::RoleFact { role: r, first, second, .. }) => vec![role(r), person(first), person(second)],
        Ok(Frame::RoleStep { from, role, to }) => vec![state(from), signed(role), state(to)],
        Ok(Frame::TestStep { from, name: a, to }) => vec![state(from), name(a), state(to)],
        Ok(Frame::Final(a)) => vec![state(a)],
        Ok(Frame::Ask(first, second)) => vec![person(first), person(second)],
        Ok(Frame::AskFrom(first)) => vec![person(first)],
        Ok(Frame::Entry { from, to, concept: a, .. }) => vec![state(from), state(to), concept(a)],
        Ok(Frame::Expression(marks)) => {
            let letters = marks.iter().filter_map(|mark| Letter::of(*mark));
            letters
                .map(|letter| match letter {
                    Letter::Role(role) => signed(role.0),
                    Letter::Test(tested) => name(tested.0),
                })
                .collect()
        }
        _ => Vec::new(),
    };
    let wrong: Vec<String> = wrong.into_iter().flatten().collect();
    format!("not declared: {}", wrong.join(", "))
}

fn marks_of(line: &[u8]) -> Vec<u8> {
    match frame(line) {
        Ok(Frame::Expression(marks)) => marks,
        _ => Vec::new(),
    }
}

fn no_expression(line: &[u8]) -> String {
    match read::expression(&marks_of(line)) {
        Err(misplaced) if misplaced.mark == 0 => format!("no expression: {}", misplaced.why),
        Err(misplaced) => format!("no expression, at mark {}: {}", misplaced.mark, misplaced.why),
        Ok(_) => String::new(),
    }
}

fn too_deep(line: &[u8]) -> String {
    let mark = read::too_deep(&marks_of(line)).unwrap_or(0);
    format!("at mark {mark} opened less closed brackets pass {}", read::MOST_OPEN)
}

fn other_states(input: &[u8], line: &[u8]) -> String {
    let first = lines(input).next().map(frame);
    let Some(Ok(Frame::Counts([.., states, start]))) = first else { return String::new() };
    let marks = marks_of(line).into_iter().filter(|mark| Letter::of(*mark).is_some()).count();
    let needed = marks + 1;
    format!("of {marks} role and test marks there are {needed} states and the start is 0; line 1 has states {states}, start {start}")
}

/// What stands in the list of the sheet where the list of the file departs from it.
fn departs(input: &[u8], at: usize) -> String {
    let listed = |file: File| file.listing()?.get(at - file.lines.list.first()?).copied();
    match read_lines(input).ok().and_then(listed) {
        Some(Entry { round, mark }) => {
            format!("the list is not the sheet: next is {mark}, which first stands in round {round}")
        }
        None => "the list is not the sheet, which has no further mark".to_string(),
    }
}
