//! Part (o) of the comparison: files whose facts clash, that choose salvage or don't. The desk, the copyist and the lister on each, on the
//! same file with its facts turned round or typed again, with a list, and with a faulty line.

use super::child::Words;
use super::clashing::clashing;
use super::copies::itself;
use super::damage::spoilt;
use super::deeds::{renoted, CHANGED, LEFT_OUT, MIXED};
use super::departures::{departing, Departing};
use super::dice::Dice;
use super::generate::Asked;
use super::outputs;
use super::parts::{writes, Outcome};
use super::tally::Tally;
use super::text;
use super::wide::is_wide;
use crate::collection::Collection;
use crate::copy::copy;
use crate::desk::read::{read, Fault, File};
use crate::desk::{desk, dropped_line, fault_line};
use crate::explain::clash::{Clash, What};
use crate::explain::salvage::Dropped;
use crate::explain::Explanation;
use crate::listing::{list, listing, Entry};
use crate::salvage::{clashing as clashes, Fact};
use std::collections::BTreeSet;

/// The programs of this part.
pub struct Programs {
    pub desk: Words,
    pub copyist: Words,
    pub lister: Words,
}

/// What the programs can answer with, where salvage is chosen.
pub const NUMBERS: [u8; 7] = [0, 1, 3, 9, 10, 11, 15];

/// What a file can be.
const FILES: [&str; 12] = [
    "no fact",
    "facts, and none dropped",
    "facts dropped, and others kept",
    "every fact dropped",
    "facts of both kinds dropped",
    "facts dropped, and no ask",
    "facts dropped, and more rounds than allowed",
    "a contradiction without salvage",
    "facts turned round, and others dropped",
    "a kept fact again",
    "a dropped fact again",
    "kept, though it clashes with a dropped one",
];

/// How a dropped fact can clash.
const CLASHES: [&str; 7] = [
    "a clash of names",
    "a clash of roles",
    "a clash by a self-dealing fact",
    "a clash on an unnamed element",
    "a clash of parent and child",
    "a clash with the rules alone",
    "a clash with a kept fact",
];

/// What a list can be, and a faulty line.
const LISTS: [&str; 2] =
    ["the list of the sheet, and facts dropped", "a list that departs, and facts dropped"];
const FAULTS: [&str; 6] = [
    "0F twice",
    "0F behind a list",
    "0F with a field",
    "0F on line 1",
    "0F misspelt",
    "another faulty line, and facts dropped",
];

/// What must be met.
pub fn salvages_met() -> Vec<&'static str> {
    [&FILES[..], &CLASHES, &LISTS, &FAULTS, &[CHANGED, LEFT_OUT, MIXED]].concat()
}

/// A file's lines without 0F and with it.
struct Lines {
    plain: Vec<Vec<u8>>,
    chosen: Vec<Vec<u8>>,
}

pub fn salvages_part(programs: &Programs, mut dice: Dice, tally: &mut Tally) -> Outcome {
    let (kind, asked) = clashing(&mut dice);
    tally.kind(kind);
    let plain = text::lines(&mut dice, &asked);
    let chosen = with_choice(&mut dice, &plain);
    let lines = Lines { plain, chosen };
    let file =
        read(&text::input(&mut dice, &lines.chosen)).unwrap_or_else(|_| unreachable!("it has no fault"));
    let dropped = file.dropped();
    met(&file, &dropped).into_iter().for_each(|what| tally.met(what));
    sound(programs, &mut dice, tally, (&lines, &dropped))?;
    // What follows takes as many whole salvages again, so that it is not done with full tables.
    if kind != "full" {
        turned_round(programs, &mut dice, tally, (&lines, &dropped))?;
        typed_again(programs, &mut dice, tally, (&lines, &file, &dropped))?;
    }
    if kind != "medium" && kind != "full" {
        explained(&text::input(&mut dice, &lines.chosen)).into_iter().for_each(|what| tally.met(what));
        with_list(programs, &mut dice, tally, (&asked, &lines, &dropped))?;
    }
    faulty(programs, &mut dice, tally, (&asked, &lines, &dropped))
}

/// The lines with an 0F anywhere behind line 1.
pub fn with_choice(dice: &mut Dice, plain: &[Vec<u8>]) -> Vec<Vec<u8>> {
    let mut chosen = plain.to_vec();
    chosen.insert(dice.between(1, plain.len()), b"0F".to_vec());
    chosen
}

fn met(file: &File, dropped: &BTreeSet<usize>) -> Vec<&'static str> {
    let is_gone = |(_, line): &(Fact, usize)| dropped.contains(line);
    let facts = file.facts();
    let gone: Vec<(Fact, usize)> = facts.iter().filter(|fact| is_gone(fact)).copied().collect();
    let kept: Vec<(Fact, usize)> = facts.iter().filter(|fact| !is_gone(fact)).copied().collect();
    let names = gone.iter().filter(|(fact, _)| matches!(fact, Fact::Concept(_))).count();
    let all: Vec<Fact> = facts.iter().map(|(fact, _)| *fact).collect();
    let met = [
        (FILES[0], facts.is_empty()),
        (FILES[1], !facts.is_empty() && gone.is_empty()),
        (FILES[2], !gone.is_empty() && !kept.is_empty()),
        (FILES[3], !gone.is_empty() && kept.is_empty()),
        (FILES[4], names > 0 && names < gone.len()),
        (FILES[5], !gone.is_empty() && file.asks.is_empty()),
        (FILES[7], clashes(&file.collection, &all)),
        (FILES[11], is_passed_over(file, &gone, &kept)),
    ];
    met.into_iter().filter(|(_, is_so)| *is_so).map(|(what, _)| what).collect()
}

/// Whether some kept fact clashes with a dropped one before it, which could be so by itself. Only the first few are looked at.
fn is_passed_over(file: &File, gone: &[(Fact, usize)], kept: &[(Fact, usize)]) -> bool {
    let clash = |facts: &[Fact]| clashes(&file.collection, facts);
    gone.iter().take(4).any(|(gone, at)| {
        let mut later = kept.iter().filter(|(_, line)| line > at).take(6);
        !clash(&[*gone]) && later.any(|(kept, _)| clash(&[*gone, *kept]))
    })
}

/// The three programs on a file, and on the same without salvage; and the second program on what it is to say.
fn sound(
    programs: &Programs,
    dice: &mut Dice,
    tally: &mut Tally,
    (lines, dropped): (&Lines, &BTreeSet<usize>),
) -> Outcome {
    let [plain, chosen] = [&lines.plain, &lines.chosen].map(|lines| text::input(dice, lines));
    let (answers, copied, listed) = (desk(&chosen), copy(&plain), list(&plain));
    outputs::count(&answers, tally);
    if is_wide(super::inputs::states(&plain).unwrap_or(0)) {
        outputs::numbers(&answers).into_iter().for_each(|number| tally.wide(number));
    }
    if outputs::is_spent(&answers) && !dropped.is_empty() {
        tally.met(FILES[6]);
    }
    let kept = without(&lines.chosen, dropped);
    let told: Vec<u8> = dropped.iter().flat_map(|line| dropped_line(*line)).collect();
    itself(&chosen, &[told, desk(&text::input(dice, &kept))].concat(), &answers)?;
    itself(&chosen, &copied, &copy(&chosen))?;
    itself(&chosen, &listed, &list(&chosen))?;
    each_writes(programs, &chosen, [&answers, &copied, &listed])?;
    writes(&programs.desk, &plain, &desk(&plain))?;
    writes(&programs.lister, &plain, &listed)?;
    let Some((what, other)) = renoted(dice, &chosen).filter(|_| chosen.len() < 100_000) else {
        return Ok(());
    };
    tally.met(what);
    itself(&other, &answers, &desk(&other))?;
    writes(&programs.desk, &other, &answers)
}

/// The lines without the dropped facts, and without 0F.
fn without(chosen: &[Vec<u8>], dropped: &BTreeSet<usize>) -> Vec<Vec<u8>> {
    let numbered = (1..).zip(chosen);
    let kept = numbered.filter(|(line, typed)| !dropped.contains(line) && !typed.starts_with(b"0F"));
    kept.map(|(_, typed)| typed.clone()).collect()
}

fn each_writes(programs: &Programs, input: &[u8], [answers, copied, listed]: [&[u8]; 3]) -> Outcome {
    writes(&programs.desk, input, answers)?;
    writes(&programs.copyist, input, copied)?;
    writes(&programs.lister, input, listed)
}

fn is_fact(line: &[u8]) -> bool {
    line.starts_with(b"06") || line.starts_with(b"07")
}

/// The facts in the places of each other, the last in that of the first.
fn turned_round(
    programs: &Programs,
    dice: &mut Dice,
    tally: &mut Tally,
    (lines, dropped): (&Lines, &BTreeSet<usize>),
) -> Outcome {
    let mut other = lines.chosen.clone();
    let facts: Vec<Vec<u8>> = other.iter().filter(|line| is_fact(line)).cloned().collect();
    let places = other.iter_mut().filter(|line| is_fact(line));
    places.zip(facts.into_iter().rev()).for_each(|(place, fact)| *place = fact);
    let input = text::input(dice, &other);
    let answers = desk(&input);
    let gone = |lines: &[Vec<u8>], dropped: &BTreeSet<usize>| -> BTreeSet<Vec<u8>> {
        dropped.iter().map(|line| lines[line - 1].clone()).collect()
    };
    let file = read(&input).unwrap_or_else(|_| unreachable!("it has no fault"));
    if gone(&other, &file.dropped()) != gone(&lines.chosen, dropped) {
        tally.met(FILES[8]);
    }
    itself(&input, &copy(&text::input(dice, &lines.plain)), &copy(&input))?;
    writes(&programs.desk, &input, &answers)
}

/// One fact once more, behind all others: kept where it was kept, and dropped where it was dropped.
fn typed_again(
    programs: &Programs,
    dice: &mut Dice,
    tally: &mut Tally,
    (lines, file, dropped): (&Lines, &File, &BTreeSet<usize>),
) -> Outcome {
    let facts = file.facts();
    if facts.is_empty() {
        return Ok(());
    }
    let gone: Vec<(Fact, usize)> = facts.iter().filter(|(_, line)| dropped.contains(line)).copied().collect();
    let again = if gone.is_empty() || dice.percent(50) { dice.pick(&facts).1 } else { dice.pick(&gone).1 };
    let mut other = lines.chosen.clone();
    other.push(lines.chosen[again - 1].clone());
    let mut expected = dropped.clone();
    if dropped.contains(&again) {
        expected.insert(other.len());
    }
    tally.met(FILES[if dropped.contains(&again) { 10 } else { 9 }]);
    let input = text::input(dice, &other);
    let told: Vec<u8> = expected.iter().flat_map(|line| dropped_line(*line)).collect();
    let answered = desk(&text::input(dice, &without(&lines.chosen, dropped)));
    let expected = [told, answered].concat();
    itself(&input, &expected, &desk(&input))?;
    writes(&programs.desk, &input, &expected)
}

/// How the dropped facts clash, of those of `CLASHES`.
fn explained(input: &[u8]) -> BTreeSet<&'static str> {
    let explained = Explanation::of(input, 0).unwrap_or_else(|_| unreachable!("it has no fault"));
    let dropped = explained.salvage.map_or(Vec::new(), |salvage| salvage.dropped);
    let how = |Dropped { with, clash, .. }: &Dropped| {
        [CLASHES[if with.is_empty() { 5 } else { 6 }], kind_of(clash)]
    };
    dropped.iter().flat_map(how).collect()
}

fn kind_of(clash: &Clash) -> &'static str {
    match &clash.what {
        What::OnElement { element, .. } if element.row.is_empty() => CLASHES[0],
        What::OnElement { .. } => CLASHES[3],
        What::OnPair { first, second, .. } if first == second => CLASHES[2],
        What::OnPair { first, second, .. } if first.row.is_empty() && second.row.is_empty() => CLASHES[1],
        What::OnPair { .. } => CLASHES[4],
    }
}

/// The list of the sheet, which no fact and no exclusion changes.
fn list_of(asked: &Asked) -> Vec<Entry> {
    let (concept_exclusions, role_exclusions) = (Vec::new(), Vec::new());
    let without = Collection { concept_exclusions, role_exclusions, ..asked.collection.clone() };
    listing(&without).expect("without exclusions there is no contradiction")
}

fn list_lines(entries: &[Entry]) -> Vec<Vec<u8>> {
    entries.iter().map(|entry| text::line(&entry.frame())).collect()
}

/// A list at the end: that of the sheet changes nothing that is written, and one that departs is told alone.
fn with_list(
    programs: &Programs,
    dice: &mut Dice,
    tally: &mut Tally,
    (asked, lines, dropped): (&Asked, &Lines, &BTreeSet<usize>),
) -> Outcome {
    let right = list_of(asked);
    if right.is_empty() || dice.percent(40) {
        return Ok(());
    }
    let changed = dice.percent(50);
    let departing = if changed { departing(dice, &asked.collection.counts, &right, 0) } else { None };
    let Some(Departing { list: entries, place, .. }) = departing else {
        let input = text::input(dice, &[&lines.chosen[..], &list_lines(&right)].concat());
        let before = text::input(dice, &lines.chosen);
        tally.met(if dropped.is_empty() { FILES[1] } else { LISTS[0] });
        let [answers, copied, listed] = [desk, copy, list].map(|program| program(&before));
        itself(&input, &answers, &desk(&input))?;
        return each_writes(programs, &input, [&answers, &copied, &listed]);
    };
    let input = text::input(dice, &[&lines.chosen[..], &list_lines(&entries)].concat());
    let fault = Fault { line: lines.chosen.len() + place + 1, number: 15 };
    if !dropped.is_empty() {
        tally.met(LISTS[1]);
    }
    refused(programs, tally, &input, fault)
}

/// All three programs write the one line.
fn refused(programs: &Programs, tally: &mut Tally, input: &[u8], fault: Fault) -> Outcome {
    tally.number(fault.number);
    tally.faulty_line(fault.line);
    if is_wide(super::inputs::states(input).unwrap_or(0)) {
        tally.wide(fault.number);
    }
    let expected = fault_line(fault);
    itself(input, &expected, &desk(input))?;
    itself(input, &expected, &copy(input))?;
    itself(input, &expected, &list(input))?;
    each_writes(programs, input, [&expected; 3])
}

/// The file with a faulty line.
fn faulty(
    programs: &Programs,
    dice: &mut Dice,
    tally: &mut Tally,
    (asked, lines, dropped): (&Asked, &Lines, &BTreeSet<usize>),
) -> Outcome {
    if dice.percent(15) {
        let input = text::input(dice, &lines.chosen);
        let (input, line, number) = spoilt(dice, &input);
        if !dropped.is_empty() {
            tally.met(FAULTS[5]);
        }
        return refused(programs, tally, &input, Fault { line, number });
    }
    let Some((what, lines, fault)) = misplaced(dice, asked, lines) else { return Ok(()) };
    tally.met(what);
    let input = text::input(dice, &lines);
    refused(programs, tally, &input, fault)
}

/// What is faulty of a frame 0F, the file and where; None where there is no list to put it behind.
fn misplaced(
    dice: &mut Dice,
    asked: &Asked,
    Lines { plain, chosen }: &Lines,
) -> Option<(&'static str, Vec<Vec<u8>>, Fault)> {
    let which = dice.below(5);
    let (lines, before, bad, number) = match which {
        0 => {
            let first = chosen.iter().position(|line| line == b"0F")?;
            (chosen.clone(), dice.between(first + 1, chosen.len()), b"0F".to_vec(), 11)
        }
        1 => {
            let entries = list_lines(&list_of(asked));
            let many = entries.len();
            let behind = (many > 0).then(|| dice.between(1, many))?;
            ([&plain[..], &entries].concat(), plain.len() + behind, b"0F".to_vec(), 11)
        }
        2 => {
            let mut frame = vec![0x0F];
            frame.resize_with(1 + dice.pick(&[1, 1, 2, 4, 31]), || dice.below(256) as u8);
            let lines = if dice.percent(50) { plain } else { chosen };
            (lines.clone(), dice.between(1, lines.len()), text::line(&frame), 10)
        }
        3 => (plain.clone(), 0, b"0F".to_vec(), 11),
        _ => {
            let bad = dice.pick(&[&b"0f"[..], b"0F0", b"F", b"0F ", b"0F\r", b"OF"]);
            (plain.clone(), dice.between(1, plain.len()), bad.to_vec(), 9)
        }
    };
    let faulty = [&lines[..before], &[bad], &lines[before..]].concat();
    Some((FAULTS[which], faulty, Fault { line: before + 1, number }))
}
