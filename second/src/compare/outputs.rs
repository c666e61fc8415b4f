//! What an output of the desk has: the numbers of its answers, its lines of rounds.

use super::tally::Tally;
use std::collections::BTreeSet;

/// What an answer of one individual can be, by its number.
pub const FROM: [&str; 4] = [
    "no of one individual",
    "yes of one individual",
    "contradiction of one individual",
    "allowance spent of one individual",
];

/// What an output can be, beside the numbers in it.
pub const MET: [&str; 15] = [
    "answers after no round",
    "answers after one round",
    "answers after 2 to 1,000 rounds",
    "answers after more rounds",
    "rounds up to the allowance, and more needed",
    "a round of a thousand marks or more",
    "a round of over 65,535 marks",
    "counts of two bytes",
    "counts of four bytes",
    "rounds of two bytes",
    "rounds of four bytes",
    FROM[0],
    FROM[1],
    FROM[2],
    FROM[3],
];

/// A round from this many marks on is met for itself.
const MANY_MARKS: usize = 1_000;

/// How many lines of rounds there are.
pub fn rounds(output: &[u8]) -> usize {
    output.split(|byte| *byte == b'\n').filter(|line| line.starts_with(b"8A")).count()
}

/// Whether the allowance was below the rounds needed; the answers of one file then all say so.
pub fn is_spent(output: &[u8]) -> bool {
    let text = String::from_utf8_lossy(output);
    text.lines().any(|line| is_answer(line) && !line.starts_with("8F") && number(line) == 3)
}

/// Whether a line is neither that of a round nor that of a dropped fact.
fn is_answer(line: &str) -> bool {
    !line.starts_with("8A") && !line.starts_with("92")
}

/// The line that an output calls faulty.
pub fn faulty_line(output: &[u8]) -> Option<usize> {
    let text = String::from_utf8_lossy(output);
    text.starts_with("8F").then(|| field(&text, 2, number_at(text.trim_end())))
}

/// The numbers in an output's answers, or in its refusal.
pub fn numbers(output: &[u8]) -> BTreeSet<u8> {
    let text = String::from_utf8_lossy(output);
    text.lines().filter(|line| is_answer(line)).map(|line| number(line) as u8).collect()
}

/// Counts what was met in an output, once for a case.
pub fn count(output: &[u8], tally: &mut Tally) {
    let text = String::from_utf8_lossy(output);
    let lines = text.lines().filter(|line| !line.starts_with("92"));
    let (rounds, others): (Vec<&str>, Vec<&str>) = lines.partition(|line| line.starts_with("8A"));
    let numbers: BTreeSet<usize> = others.iter().map(|line| number(line)).collect();
    numbers.iter().for_each(|number| tally.number(*number as u8));
    let Some(first) = others.first() else { return };
    if let Some(line) = faulty_line(output) {
        return tally.faulty_line(line);
    }
    // Answers 0 and 1 of one file all have the same count.
    if number(first) < 2 {
        tally.rounds(field(first, number_at(first) + 2, first.len()) as u32);
    }
    tally.met(match rounds.len() {
        0 => MET[0],
        1 => MET[1],
        2..=1_000 => MET[2],
        _ => MET[3],
    });
    if number(first) == 3 && !rounds.is_empty() {
        tally.met(MET[4]);
    }
    if rounds.iter().any(|line| added(line) >= MANY_MARKS) {
        tally.met(MET[5]);
    }
    if rounds.iter().any(|line| added(line) > 65_535) {
        tally.met(MET[6]);
    }
    // An answer's count is as wide as the line is longer than its other fields.
    let digits = first.len() - number_at(first) - 2;
    tally.met(MET[if digits == 4 { 7 } else { 8 }]);
    if !rounds.is_empty() {
        tally.met(MET[if digits == 4 { 9 } else { 10 }]);
    }
    let of_one: BTreeSet<usize> =
        others.iter().filter(|line| line.starts_with("8E")).map(|line| number(line)).collect();
    of_one.iter().for_each(|number| tally.met(FROM[*number]));
}

/// The number stands behind two bytes, but in 8E behind one, and at the end of 8F.
fn number(line: &str) -> usize {
    let at = number_at(line);
    field(line, at, at + 2)
}

fn number_at(line: &str) -> usize {
    match &line[..2] {
        "8E" => 4,
        "8F" => line.len() - 2,
        _ => 6,
    }
}

/// How many marks the round of such a line added: its two numbers are equally wide.
fn added(line: &str) -> usize {
    field(line, 1 + line.len() / 2, line.len())
}

fn field(line: &str, from: usize, to: usize) -> usize {
    usize::from_str_radix(&line[from..to], 16).expect("hexadecimal")
}
