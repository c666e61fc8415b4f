//! Part (l) of the comparison: files that end with a list, or have none. The desk, the copyist and the lister on each; and what the lister
//! writes, which all three read again.

use super::calls::some_many_rounds;
use super::child::Words;
use super::copies::{itself, said};
use super::damage::{damaged, Damaged};
use super::departures::{departing, faulty, overfull, Departing, Faulty, DEPARTURES, FAULTS};
use super::dice::Dice;
use super::expressions::{expressed, MOST_MARKS};
use super::generate::{broad, full, medium, small, Asked};
use super::inputs;
use super::outputs;
use super::parts::{writes, Difference, Outcome};
use super::tally::Tally;
use super::text::{self, line};
use super::throw::throw_exclusions;
use super::wide::{is_wide, joined, widened};
use crate::collection::{Collection, Counts};
use crate::copy::copy;
use crate::desk::read::{lines, read, Fault, File};
use crate::desk::{desk, fault_line, written};
use crate::listing::{list, listing, Entry};

/// The programs of this part.
pub struct Programs {
    pub desk: Words,
    pub copyist: Words,
    pub lister: Words,
}

/// What the programs can answer with.
pub const NUMBERS: [u8; 10] = [0, 1, 2, 3, 5, 6, 9, 10, 11, 15];

/// What can be with a list beside what it departs by, or what is faulty.
const LISTS: [&str; 12] = [
    "no list",
    "the list of the sheet",
    "a list on line 1",
    "a faulty line before a list",
    "a faulty line behind a departure",
    "a list of one round",
    "a list of 2 rounds",
    "a list of 3 rounds or more",
    "a list of over 65,535 entries",
    "a list, and an expression",
    "a departure on line 65,536 or later",
    "another fault on line 65,536 or later",
];

/// The list of a sheet, a list that departs, and a faulty line: each in such files.
const FILES: [[&str; 3]; 3] = [
    [
        "the list of the sheet, and no ask",
        "the list of the sheet, and a contradiction",
        "the list of the sheet, and more rounds than allowed",
    ],
    [
        "a departure, and no ask",
        "a departure, and a contradiction",
        "a departure, and more rounds than allowed",
    ],
    [
        "a faulty line, and no ask",
        "a faulty line, and a contradiction",
        "a faulty line, and more rounds than allowed",
    ],
];

/// What must be met.
pub fn lists_met() -> Vec<&'static str> {
    [&LISTS[..], &DEPARTURES, &FAULTS, FILES.as_flattened()].concat()
}

/// A file, and what it was made for.
struct Made {
    lines: Vec<Vec<u8>>,
    /// Those without its list.
    before: Vec<Vec<u8>>,
    fault: Option<Fault>,
}

pub fn lists_part(programs: &Programs, mut dice: Dice, tally: &mut Tally) -> Outcome {
    let made = made(&mut dice, tally);
    let input = text::input(&mut dice, &made.lines);
    let wide = is_wide(inputs::states(&input).unwrap_or(0));
    match made.fault {
        None => {
            let before = text::input(&mut dice, &made.before);
            sound(programs, tally, (&input, &before), wide)
        }
        Some(fault) => {
            tally.number(fault.number);
            tally.faulty_line(fault.line);
            if wide {
                tally.wide(fault.number);
            }
            let found = read(&input).map_or_else(fault_line, |_| Vec::new());
            itself(&input, &fault_line(fault), &found)?;
            each_writes(programs, &input, &[&found; 3])
        }
    }
}

/// The desk, the copyist and the lister write just that.
fn each_writes(programs: &Programs, input: &[u8], [answers, copied, listed]: &[&[u8]; 3]) -> Outcome {
    writes(&programs.desk, input, answers)?;
    writes(&programs.copyist, input, copied)?;
    writes(&programs.lister, input, listed)
}

/// Neither the list of the sheet nor, in a contradiction, any list changes what is written.
fn sound(programs: &Programs, tally: &mut Tally, (input, before): (&[u8], &[u8]), wide: bool) -> Outcome {
    let (answers, copied, listed) = (desk(before), copy(before), list(before));
    outputs::count(&answers, tally);
    if wide {
        outputs::numbers(&answers).into_iter().for_each(|number| tally.wide(number));
    }
    itself(input, &answers, &desk(input))?;
    itself(input, &copied, &copy(input))?;
    itself(input, &listed, &list(input))?;
    each_writes(programs, input, &[&answers, &copied, &listed])?;
    let Ok(file) = read(before) else { unreachable!("it has no faulty line") };
    again(programs, &file, &[&answers, &copied, &listed])
}

/// What the lister writes has the same copy, and lists itself; with the asks before its list it has the same answers.
fn again(programs: &Programs, file: &File, [answers, copied, listed]: &[&[u8]; 3]) -> Outcome {
    let fails = |what: &str| {
        let (expected, found) = (what.to_string(), String::from_utf8_lossy(listed).into_owned());
        Err(Difference { input: listed.to_vec(), expected, found })
    };
    // All lines of a kind have one length, so the order is that of the lines as text.
    if !lines(listed).collect::<Vec<_>>().windows(2).all(|pair| pair[0] < pair[1]) {
        return fails("lines that rise, each once");
    }
    match read(listed) {
        Ok(again) if again.asks.is_empty() && said(&again) == said(file) => {}
        _ => return fails("the same line 1, the same records and the same allowance, or none, and no ask"),
    }
    let Some(entries) = listed.strip_prefix(*copied) else {
        return fails("the fair copy, and then the list");
    };
    let asks: Vec<u8> = file.asks.iter().flat_map(|ask| written(&ask.frame())).collect();
    let with_asks = [copied, &asks[..], entries].concat();
    itself(&with_asks, answers, &desk(&with_asks))?;
    each_writes(programs, &with_asks, &[answers, copied, listed])
}

/// What is thrown: a collection, and then what becomes of its list.
fn made(dice: &mut Dice, tally: &mut Tally) -> Made {
    let (kind, asked) = thrown(dice);
    tally.kind(kind);
    let before = text::lines(dice, &asked);
    let sheet = Sheet::of(&asked);
    let long = kind == "broad";
    if sheet.right.is_empty() || !long && dice.percent(12) {
        tally.met(LISTS[0]);
        return Made { lines: before.clone(), before, fault: None };
    }
    let counts = &asked.collection.counts;
    let (list, departs) = changed(dice, tally, (counts, &sheet.right), if long { 85 } else { 60 });
    let list: Vec<Vec<u8>> = list.iter().map(|entry| line(&entry.frame())).collect();
    let spoilt = dice.percent(if long { 10 } else { 52 }).then(|| spoilt(dice, counts, &before, &list));
    let departs = departs.map(|place| Fault { line: before.len() + place + 1, number: 15 });
    sheet.tell(tally, departs, spoilt.as_ref().map(|spoilt| spoilt.fault));
    match spoilt {
        Some(Faulty { what, lines, fault }) => {
            tally.met(what);
            Made { lines, before, fault: Some(fault) }
        }
        // In a contradiction the list is not looked at.
        None => {
            let fault = departs.filter(|_| !sheet.contradiction);
            Made { lines: [&before[..], &list].concat(), before, fault }
        }
    }
}

/// So often in a hundred a list that departs from this one, and the place where it does; else this one.
fn changed(
    dice: &mut Dice,
    tally: &mut Tally,
    (counts, right): (&Counts, &[Entry]),
    often: usize,
) -> (Vec<Entry>, Option<usize>) {
    // In a long list most changes come late.
    let least = if right.len() > 65_536 && dice.percent(90) { 65_536 } else { 0 };
    let departing = if dice.percent(often) { departing(dice, counts, right, least) } else { None };
    match departing {
        Some(Departing { what, list, place }) => {
            tally.met(what);
            (list, Some(place))
        }
        None => (right.to_vec(), None),
    }
}

fn spoilt(dice: &mut Dice, counts: &Counts, before: &[Vec<u8>], list: &[Vec<u8>]) -> Faulty {
    match dice.below(100) {
        0..=9 => Faulty { what: LISTS[2], lines: list.to_vec(), fault: Fault { line: 1, number: 11 } },
        10..=20 => {
            let Damaged { lines, at, number, .. } = damaged(dice);
            let lines = [&lines[..], list].concat();
            Faulty { what: LISTS[3], lines, fault: Fault { line: at, number } }
        }
        21..=34 => overfull(dice, counts, before, list),
        _ => faulty(dice, counts, before, list),
    }
}

fn thrown(dice: &mut Dice) -> (&'static str, Asked) {
    match dice.below(1_000) {
        0..=84 => return ("broad", broad(dice)),
        85..=99 => return ("many rounds", some_many_rounds(dice)),
        _ => {}
    }
    let (kind, mut asked) = match dice.below(100) {
        0..=1 => ("full", full(dice)),
        2..=9 => ("medium", medium(dice)),
        _ => ("small", small(dice)),
    };
    if kind == "small" && dice.percent(15) {
        throw_exclusions(dice, &mut asked.collection, 3, 2);
    }
    let asked = expressed(dice, asked, if kind == "small" { 6 } else { MOST_MARKS });
    let asked = widened(dice, asked, 75);
    let mut asked = joined(dice, asked);
    if dice.percent(20) {
        asked.asks.clear();
    }
    if dice.percent(15) {
        asked.allowance = Some(dice.below(2) as u32);
    }
    (kind, asked)
}

/// The list that a file is to have, and what the file is.
struct Sheet {
    /// In a contradiction that of the same collection without exclusions.
    right: Vec<Entry>,
    rounds: u32,
    contradiction: bool,
    asked: bool,
    spent: bool,
    expression: bool,
}

impl Sheet {
    fn of(asked: &Asked) -> Sheet {
        let known = listing(&asked.collection);
        let contradiction = known.is_none();
        let without = || Collection {
            concept_exclusions: Vec::new(),
            role_exclusions: Vec::new(),
            ..asked.collection.clone()
        };
        let right = known.or_else(|| listing(&without())).expect("without exclusions there is none");
        let rounds = right.last().map_or(0, |last| last.round);
        Sheet {
            right,
            rounds,
            contradiction,
            asked: !asked.asks.is_empty(),
            spent: !contradiction && asked.allowance.is_some_and(|allowance| allowance < rounds),
            expression: asked.expression.is_some(),
        }
    }

    /// What is met with its list, where it departs or a line is faulty.
    fn tell(&self, tally: &mut Tally, departs: Option<Fault>, faulty: Option<Fault>) {
        let of = match (departs, faulty) {
            (_, Some(_)) => FILES[2],
            (Some(_), None) => FILES[1],
            (None, None) => FILES[0],
        };
        let behind = departs.zip(faulty).is_some_and(|(departs, faulty)| departs.line < faulty.line);
        let late = |fault: Option<Fault>| fault.is_some_and(|fault| fault.line >= 65_536);
        let told = [
            (of[0], !self.asked),
            (of[1], self.contradiction),
            (of[2], self.spent),
            (LISTS[1], departs.is_none() && faulty.is_none()),
            (LISTS[4], behind),
            (LISTS[5], self.rounds == 1),
            (LISTS[6], self.rounds == 2),
            (LISTS[7], self.rounds > 2),
            (LISTS[8], self.right.len() > 65_535),
            (LISTS[9], self.expression),
            (LISTS[10], faulty.is_none() && late(departs)),
            (LISTS[11], late(faulty)),
        ];
        told.into_iter().filter(|(_, is_so)| *is_so).for_each(|(what, _)| tally.met(what));
    }
}
