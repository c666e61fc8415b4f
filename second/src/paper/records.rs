//! The file line by line in words, and in what lines it differs from another file.

use super::table::Table;
use super::words::{ask, Words};
use crate::ask::Ask;
use crate::desk::frame::{frame, Frame};
use crate::desk::read::lines;
use crate::numbers::{Concept, Deed, Individual, Role};

const RECORDS: [&str; 3] = ["Line", "As typed", "In words"];

/// Every line of a sound file: as typed, and in words.
pub fn records(input: &[u8], words: &Words) -> String {
    let mut table = Table::new(&RECORDS);
    for (before, line) in lines(input).enumerate() {
        table.row([(before + 1).to_string(), typed(line), in_words(line, words)]);
    }
    table.text()
}

pub fn records_form(input: &[u8]) -> String {
    let rows = lines(input).enumerate().map(|(before, line)| vec![(before + 1).to_string(), typed(line)]);
    Table::form(&RECORDS, rows).text()
}

const COPY: [&str; 3] = ["Written", "In words", "From line"];

/// The fair copy of a sound file: each line with its words, and the lines of the file that it comes from.
pub fn copy(input: &[u8], words: &Words) -> String {
    let mut table = Table::new(&COPY);
    for line in lines(&crate::copy::copy(input)) {
        table.row([typed(line), in_words(line, words), from(line, input)]);
    }
    table.text()
}

pub fn copy_form(input: &[u8]) -> String {
    let copied = crate::copy::copy(input);
    Table::form(&COPY, lines(&copied).map(|_| Vec::new())).text()
}

const LIST: [&str; 2] = ["Written", "In words"];

/// The list of a sound file's closed sheet: each entry with its words.
pub fn list(input: &[u8], words: &Words) -> String {
    let mut table = Table::new(&LIST);
    for line in lines(&crate::listing::list(input)).filter(|line| is_entry(line)) {
        table.row([typed(line), in_words(line, words)]);
    }
    table.text()
}

pub fn list_form(input: &[u8]) -> String {
    let listed = crate::listing::list(input);
    Table::form(&LIST, lines(&listed).filter(|line| is_entry(line)).map(|_| Vec::new())).text()
}

fn is_entry(line: &[u8]) -> bool {
    line.starts_with(b"10")
}

/// The lines of the file that say the same frame; those of an expression's automaton come from the line of the expression.
fn from(written: &[u8], input: &[u8]) -> String {
    let places = |is: &dyn Fn(&[u8]) -> bool| -> Vec<String> {
        let found = lines(input).enumerate().filter(|(_, line)| is(line));
        found.map(|(before, _)| (before + 1).to_string()).collect()
    };
    let typed = places(&|line| long(line) == written);
    let found = if typed.is_empty() { places(&|line| line.starts_with(b"0D")) } else { typed };
    found.join(", ")
}

/// A line with what may be left out of it: the deed number of a fact, and the upper half of an allowance.
fn long(line: &[u8]) -> Vec<u8> {
    match (line.get(..2), line.len()) {
        (Some(b"06"), 6) | (Some(b"07"), 8) => [line, &b"0000"[..]].concat(),
        (Some(b"0C"), 6) => [&b"0C0000"[..], &line[2..]].concat(),
        _ => line.to_vec(),
    }
}

/// The lines that this file has and the other hasn't, and the other way round.
pub fn changes(input: &[u8], other: &[u8], words: &Words) -> String {
    let mut left: Vec<&[u8]> = lines(other).collect();
    let mut text = String::new();
    for (before, line) in lines(input).enumerate() {
        match left.iter().position(|known| *known == line) {
            Some(place) => drop(left.remove(place)),
            None => {
                text +=
                    &format!("- new on line {}: {}, {}\n", before + 1, typed(line), in_words(line, words));
            }
        }
    }
    for line in left {
        text += &format!("- left out: {}, {}\n", typed(line), in_words(line, words));
    }
    if text.is_empty() {
        text = "No line differs.\n".to_string();
    }
    text
}

fn typed(line: &[u8]) -> String {
    format!("`{}`", String::from_utf8_lossy(line))
}

fn in_words(line: &[u8], words: &Words) -> String {
    let concept = |number| words.concept(Concept(number));
    let role = |number| words.role(Role(number));
    match frame(line) {
        Ok(Frame::Counts([names, roles, individuals, states, start])) => {
            format!("names {names}, roles {roles}, individuals {individuals}, states {states}, start state {start}")
        }
        Ok(Frame::ConceptRule(left, right)) => format!("rule {} ≤ {}", concept(left), concept(right)),
        Ok(Frame::ConceptExclusion(left, right)) => format!("{} excludes {}", concept(left), concept(right)),
        Ok(Frame::RoleRule(left, right)) => format!("rule {} ≤ {}", role(left), role(right)),
        Ok(Frame::RoleExclusion(left, right)) => format!("{} excludes {}", role(left), role(right)),
        Ok(Frame::ConceptFact { name, who, deed }) => format!("fact {}({who}){}", concept(name), by(deed)),
        Ok(Frame::RoleFact { role: name, first, second, deed }) => {
            format!("fact {}({first}, {second}){}", words.role(Role::forward(name)), by(deed))
        }
        Ok(Frame::RoleStep { from, role: walked, to }) => {
            format!("step {} from state {from} to state {to}", role(walked))
        }
        Ok(Frame::TestStep { from, name, to }) => {
            format!("test {} from state {from} to state {to}", concept(name))
        }
        Ok(Frame::Final(state)) => format!("state {state} is final"),
        Ok(Frame::Ask(first, second)) => {
            format!("ask {}", ask(Ask::Pair(Individual(first), Individual(second))))
        }
        Ok(Frame::AskFrom(first)) => format!("ask {}", ask(Ask::From(Individual(first)))),
        Ok(Frame::Allowance(rounds)) => format!("allowance of rounds {rounds}"),
        Ok(Frame::Expression(marks)) => format!("expression {}", words.expression(&marks)),
        Ok(Frame::Salvage) => "salvage is chosen".to_string(),
        Ok(Frame::Entry { round, from, to, concept: has }) => {
            format!("mark ({from}, {to}, {}) of round {round}", concept(has))
        }
        Err(number) => format!("faulty, number {number}"),
    }
}

/// `, deed 4,711`; nothing where none is noted.
fn by(deed: u16) -> String {
    match Deed(deed) {
        Deed::NONE_NOTED => String::new(),
        deed => format!(", deed {deed}"),
    }
}

#[cfg(test)]
mod tests {
    use super::*;

    #[test]
    fn a_copy_says_where_its_lines_come_from() {
        let words = Words::read("Owner,Deed/signs");
        let text = copy(b"010201010400\n0600000000\n060000\n0C0007\n", &words);
        assert!(text.contains("| `0600000000` | fact Owner(0) | 2, 3 |"), "{text}");
        assert!(text.contains("| `0C00000007` | allowance of rounds 7 | 4 |"), "{text}");
        let text = copy(b"010201010300\n0D0041\n", &words);
        assert!(text.contains("| `0A02` | state 2 is final | 2 |"), "{text}");
    }

    #[test]
    fn a_list_has_its_marks_in_words() {
        let words = Words::read("Owner,Deed/signs");
        let text = list(b"010101010200\n09000001\n0A01\n", &words);
        assert!(text.contains("| `1000000000000000` | mark (0, 0, Owner) of round 0 |"), "{text}");
        assert!(text.contains("| `1000000001000100` | mark (0, 1, Owner) of round 1 |"), "{text}");
    }

    #[test]
    fn a_line_more_and_a_line_less() {
        let words = Words::read("Owner,Deed/signs");
        let text = changes(b"010201010400\n030141\n", b"010201010400\n060000\n", &words);
        let more = "- new on line 2: `030141`, Deed excludes ∃(signs backward)\n";
        assert_eq!(text, format!("{more}- left out: `060000`, fact Owner(0)\n"));
        assert_eq!(changes(b"010201010400", b"010201010400\n", &words), "No line differs.\n");
    }
}
