//! Faulty files for the desk: each refusal, and lines on which several refusals stand at once.

use super::deeds::{throw_deed, written};
use super::dice::Dice;
use super::expressions::expressed;
use super::generate::small;
use super::marks::damaged_expression;
use super::text::{self, allowance, line};
use super::wide::{wide_states, widened};
use crate::collection::Counts;
use crate::desk::question::{MOST_FINALS, MOST_STEPS};
use crate::desk::read::lines;
use crate::numbers::{FEW_STATES, MOST_STATES};

/// A faulty file, with the line and number it was made for and the refusals that must give way to that number.
pub struct Damaged {
    pub lines: Vec<Vec<u8>>,
    pub at: usize,
    pub number: u8,
    pub also: Vec<u8>,
}

pub fn damaged(dice: &mut Dice) -> Damaged {
    if dice.percent(4) {
        return tiny(dice);
    }
    let mut damaged = match dice.pick(&[4, 4, 4, 5, 5, 6, 6, 8, 8, 8, 9, 9, 10, 11, 11]) {
        _ if dice.percent(42) => damaged_expression(dice),
        4 => bad_counts(dice),
        5 => one_too_many(dice),
        11 => bad_place(dice),
        number => one_bad_line(dice, number),
    };
    // A later faulty line changes nothing: the first one is told.
    if !damaged.lines.is_empty() && dice.percent(30) {
        let later = dice.between(damaged.at, damaged.lines.len());
        let (bad, _) = pick_bad_line(dice);
        damaged.lines.insert(later, bad);
    }
    damaged
}

/// Inputs of a few bytes, down to none; a single 0A is one empty line.
fn tiny(dice: &mut Dice) -> Damaged {
    let (lines, number): (&[&[u8]], u8) = match dice.below(6) {
        0 => (&[], 11),
        1 => (&[b""], 9),
        2 => (&[b"0"], 9),
        3 => (&[b"01"], 10),
        4 => (&[b"0A00"], 11),
        _ => (&[b"", b""], 9),
    };
    let lines = lines.iter().map(|line| line.to_vec()).collect();
    Damaged { lines, at: 1, number, also: Vec::new() }
}

fn sound_lines(dice: &mut Dice) -> (Counts, Vec<Vec<u8>>) {
    let asked = small(dice);
    let asked = expressed(dice, asked, 5);
    let asked = widened(dice, asked, 75);
    (asked.collection.counts, text::lines(dice, &asked))
}

/// The same without an expression, so that any other frame may follow.
fn plain_lines(dice: &mut Dice) -> (Counts, Vec<Vec<u8>>) {
    let asked = small(dice);
    let asked = widened(dice, asked, 75);
    (asked.collection.counts, text::lines(dice, &asked))
}

fn pick_bad_line(dice: &mut Dice) -> (Vec<u8>, Vec<u8>) {
    if dice.percent(50) {
        bad_characters(dice)
    } else {
        bad_frame(dice)
    }
}

/// 9, 10, 6 and 8 need one line only.
fn one_bad_line(dice: &mut Dice, number: u8) -> Damaged {
    let (counts, mut lines) = if number == 6 { plain_lines(dice) } else { sound_lines(dice) };
    let (bad, mut also) = match number {
        9 => bad_characters(dice),
        10 => bad_frame(dice),
        6 => (undeclared(dice, &counts), Vec::new()),
        _ => (bad_ask(dice, &counts), Vec::new()),
    };
    let at = if number >= 9 && dice.percent(20) { 1 } else { dice.between(2, lines.len() + 1) };
    if at == 1 {
        also.push(11);
        // Sometimes there is nothing else.
        lines.truncate(if dice.percent(50) { 0 } else { usize::MAX });
    }
    lines.insert(at - 1, bad);
    Damaged { lines, at, number, also }
}

fn bad_characters(dice: &mut Dice) -> (Vec<u8>, Vec<u8>) {
    let sound: &[u8] =
        dice.pick(&[&b"0A00"[..], b"0B0000", b"0C0040", b"010101010100", b"07000001", b"0600001267"]);
    match dice.below(6) {
        0 => (Vec::new(), Vec::new()),
        1 => (too_long(dice), vec![10]),
        2 => (sound[..dice.pick(&[1, sound.len() - 1])].to_vec(), vec![10]),
        3 => (b"010101010100F".to_vec(), vec![10, 11]),
        // Line ends and spaces that a lenient reader would take away, and one that would be added to an odd line.
        4 => {
            let around = dice.pick(&[
                ("", "\r"),
                ("", " "),
                (" ", ""),
                ("", "\0"),
                ("", "  "),
                ("", "\r\r"),
                ("0x", ""),
            ]);
            ([around.0.as_bytes(), sound, around.1.as_bytes()].concat(), Vec::new())
        }
        _ => {
            let mut bad = sound.to_vec();
            let place = dice.below(bad.len());
            // The neighbours of the ranges 0–9 and A–F, small letters, and bytes that are no letters at all.
            bad[place] = dice.pick(b"abcdefgG/:@` \r\t\0\x7F\xFF\xB0-");
            (bad, Vec::new())
        }
    }
}

/// More characters than a line may have: 64, or 130 of an expression.
fn too_long(dice: &mut Dice) -> Vec<u8> {
    let (characters, kind) = match dice.percent(50) {
        true => {
            (dice.pick(&[65, 66, 66, 67, 68, 128, 130, 132, 200]), dice.pick(&[b"02", b"0C", b"0E", b"1D"]))
        }
        false => (dice.pick(&[131, 132, 132, 132, 132, 134, 260]), b"0D"),
    };
    let others = (2..characters).map(|_| dice.pick(b"0123456789ABCDEF"));
    kind.iter().copied().chain(others).collect()
}

/// A sound input with a line more that is too long, or an allowance of a wrong length; and its line and number.
pub fn spoilt(dice: &mut Dice, input: &[u8]) -> (Vec<u8>, usize, u8) {
    let mut all: Vec<Vec<u8>> = lines(input).map(<[u8]>::to_vec).collect();
    let before = dice.between(1, all.len());
    let number = if dice.percent(30) { 9 } else { 10 };
    let bytes = dice.pick(&[1, 3, 5]);
    all.insert(before, if number == 9 { too_long(dice) } else { line(&vec![0x0C; bytes + 1]) });
    (text::input(dice, &all), before + 1, number)
}

/// The kinds of frames that have one length.
const KINDS: [usize; 15] = [1, 2, 3, 4, 5, 6, 7, 8, 9, 10, 11, 12, 14, 15, 16];

/// How many bytes a frame of each kind has, its kind included; 06, 07 and 0C may have two more, and 0D any number.
const LENGTHS: [usize; 17] = [0, 6, 3, 3, 3, 3, 3, 4, 4, 4, 2, 3, 3, 0, 2, 1, 8];

fn bad_frame(dice: &mut Dice) -> (Vec<u8>, Vec<u8>) {
    let unknown = dice.percent(40);
    let kind = if unknown {
        dice.pick(&[0, 0x11, 0x11, 0x1A, 0x81, 0x8B, 0x8E, 0x92, 0xFF])
    } else {
        dice.pick(&KINDS)
    };
    let length = loop {
        let length = dice.pick(&[1, 2, 3, 4, 5, 6, 7, 8, 31, 32]);
        let longer = !unknown && matches!(kind, 6 | 7 | 12) && length == LENGTHS[kind] + 2;
        if unknown || length != LENGTHS[kind] && !longer {
            break length;
        }
    };
    let mut bytes = vec![kind as u8];
    bytes.resize_with(length, || dice.below(256) as u8);
    (line(&bytes), if kind == 1 { vec![11] } else { Vec::new() })
}

/// A number from the first that isn't declared upwards; none below the declared count.
fn over(dice: &mut Dice, declared: usize) -> u8 {
    if dice.percent(50) {
        declared as u8
    } else {
        dice.between(declared, 255) as u8
    }
}

fn bad_concept(dice: &mut Dice, counts: &Counts) -> u8 {
    if counts.names < 64 && dice.percent(50) {
        dice.between(usize::from(counts.names), 63) as u8
    } else {
        over(dice, 64 + 2 * usize::from(counts.roles))
    }
}

/// One record with a number that isn't declared, or with several.
fn undeclared(dice: &mut Dice, counts: &Counts) -> Vec<u8> {
    let [names, roles, people, states] =
        [counts.names, counts.roles, counts.individuals, counts.states].map(usize::from);
    let any = dice.below(4) as u8;
    let alone = dice.percent(50);
    // A second wrong number, or a zero, which is declared more often than not.
    let also = |dice: &mut Dice, declared| if alone { 0 } else { over(dice, declared) };
    let mut bytes = match dice.between(2, 13) {
        kind @ (2 | 3) => vec![kind as u8, bad_concept(dice, counts), any],
        kind @ (4 | 5) => vec![kind as u8, over(dice, 2 * roles), any],
        6 => {
            let [name, who] = match dice.percent(50) {
                true => [over(dice, names), also(dice, people)],
                false => [also(dice, names), over(dice, people)],
            };
            return fact(dice, &[6, name, who]);
        }
        7 | 11..=13 => return undeclared_role_fact(dice, counts),
        8 if dice.percent(50) => vec![8, also(dice, states), over(dice, 2 * roles), also(dice, states)],
        8 => vec![8, over(dice, states), also(dice, 2 * roles), any],
        9 if dice.percent(50) => vec![9, also(dice, states), over(dice, names), also(dice, states)],
        9 => vec![9, over(dice, states), also(dice, names), any],
        _ => vec![10, over(dice, states)],
    };
    // The ends of a rule and of a step are of one kind each: the wrong one may be the second.
    let last = bytes.len() - 1;
    if matches!(bytes[0], 2..=5 | 8 | 9) && dice.percent(50) {
        bytes.swap(1, last);
    }
    line(&bytes)
}

fn undeclared_role_fact(dice: &mut Dice, counts: &Counts) -> Vec<u8> {
    let stranger = over(dice, usize::from(counts.individuals));
    let role = over(dice, usize::from(counts.roles));
    let fields = match dice.below(4) {
        0 => [7, 0, stranger, stranger],
        1 => [7, role, 0, 0],
        2 => [7, 0, 0, stranger.max(1)],
        _ => [7, role, 0, 1],
    };
    fact(dice, &fields)
}

/// A fact's frame, by any deed or none.
fn fact(dice: &mut Dice, fields: &[u8]) -> Vec<u8> {
    let deed = throw_deed(dice).0;
    line(&[fields, &written(dice, deed)].concat())
}

fn bad_ask(dice: &mut Dice, counts: &Counts) -> Vec<u8> {
    let stranger = over(dice, usize::from(counts.individuals));
    let other = if dice.percent(30) { stranger } else { 0 };
    match dice.below(3) {
        0 => line(&[0x0B, stranger, other]),
        1 => line(&[0x0B, other, stranger]),
        _ => line(&[0x0E, stranger]),
    }
}

fn bad_counts(dice: &mut Dice) -> Damaged {
    let (_, mut lines) = sound_lines(dice);
    lines[0] = line(&bad_counts_frame(dice));
    Damaged { lines, at: 1, number: 4, also: Vec::new() }
}

fn bad_counts_frame(dice: &mut Dice) -> [u8; 6] {
    let states = if dice.percent(75) { wide_states(dice) } else { dice.between(1, FEW_STATES.into()) };
    let mut frame = [1, dice.below(65) as u8, dice.below(33) as u8, dice.below(256) as u8, states as u8, 0];
    match dice.below(6) {
        0 => frame[1] = over(dice, 65),
        1 => frame[2] = over(dice, 33),
        2 => frame[4] = 0,
        3 => frame[4] = over(dice, usize::from(MOST_STATES) + 1),
        _ => frame[5] = over(dice, states),
    }
    frame
}

fn bad_place(dice: &mut Dice) -> Damaged {
    let (_, mut lines) = sound_lines(dice);
    let at = dice.between(2, lines.len() + 1);
    match dice.below(7) {
        0 => Damaged { lines: Vec::new(), at: 1, number: 11, also: Vec::new() },
        6 => {
            let later = dice.between(at, lines.len() + 1);
            lines.insert(at - 1, b"0F".to_vec());
            lines.insert(later, b"0F".to_vec());
            Damaged { lines, at: later + 1, number: 11, also: Vec::new() }
        }
        1 => {
            let again = lines[0].clone();
            lines.insert(at - 1, again);
            Damaged { lines, at, number: 11, also: Vec::new() }
        }
        2 => {
            lines.insert(at - 1, line(&bad_counts_frame(dice)));
            Damaged { lines, at, number: 11, also: vec![4] }
        }
        3 => {
            let given = dice.next() as u32 >> dice.pick(&[0, 8, 16, 24]);
            let (rounds, again) = (allowance(dice, given), allowance(dice, given));
            lines.retain(|sound| !sound.starts_with(b"0C"));
            let at = dice.between(2, lines.len() + 1);
            lines.insert(at - 1, line(&rounds));
            let later = dice.between(at, lines.len());
            lines.insert(later, line(&again));
            Damaged { lines, at: later + 1, number: 11, also: Vec::new() }
        }
        4 => {
            let first: &[u8] = dice.pick(&[
                &b"02FFFF"[..],
                b"07000000",
                b"0BFFFF",
                b"0EFF",
                b"0A20",
                b"1000000000200000",
                b"0F",
            ]);
            let also = if matches!(first[1], b'B' | b'E') { 8 } else { 6 };
            lines.insert(0, first.to_vec());
            Damaged { lines, at: 1, number: 11, also: vec![also] }
        }
        _ => {
            lines[0] = line(&[0x0C, 0, 9]);
            Damaged { lines, at: 1, number: 11, also: Vec::new() }
        }
    }
}

/// Fills one table to its most with records of two names, roles, individuals and states, then gives one more.
fn one_too_many(dice: &mut Dice) -> Damaged {
    let kind = dice.pick(&[2, 3, 4, 5, 6, 7, 7, 7, 8, 8, 0x0A, 0x0A, 0x0B, 0x0B]);
    let most = match kind {
        2 | 3 => 512,
        8 => MOST_STEPS,
        4 | 5 => 128,
        6 => 1_024,
        7 => 4_096,
        0x0A => MOST_FINALS,
        _ => 256,
    };
    let states = if dice.percent(30) { 2 } else { wide_states(dice) as u8 };
    let mut lines = vec![line(&[1, 2, 2, 2, states, 0])];
    // Asks of both kinds share their room.
    let pairs = dice.pick(&[0, 50, 100]);
    for _ in 0..most {
        let [one, two, three] = [0; 3].map(|_| dice.below(2) as u8);
        lines.push(match kind {
            2..=5 => line(&[kind, one, two]),
            6 => fact(dice, &[6, one, two]),
            0x0B if dice.percent(pairs) => line(&[kind, one, two]),
            0x0B => line(&[0x0E, one]),
            7 => fact(dice, &[7, one, two, three]),
            8 => line(&[dice.pick(&[8, 9]), one, two, three]),
            _ => line(&[kind, one]),
        });
    }
    let (extra, also) = match (kind, dice.below(3)) {
        (2..=5, 0) => (line(&[kind, 0xFF, 0xFF]), vec![6]),
        (6, 0) => (fact(dice, &[6, 0xFF, 0xFF]), vec![6]),
        (7, 0) => (fact(dice, &[7, 2, 2, 2]), vec![6]),
        // One that means what is there already, by any deed.
        (6, 1) => (fact(dice, &[6, 0, 0]), Vec::new()),
        (7, 1) => (fact(dice, &[7, 0, 0, 1]), Vec::new()),
        (8, 0) => (line(&[9, 0, 2, 0]), vec![6]),
        (0x0A, 0) => (line(&[0x0A, states]), vec![6]),
        (0x0B, 0) => (line(&[0x0B, 0, 2]), vec![8]),
        (0x0B, 1) => (line(&[0x0E, dice.pick(&[2, 0xFF])]), vec![8]),
        _ => (lines[1].clone(), Vec::new()),
    };
    let at = lines.len() + 1;
    lines.push(extra);
    Damaged { lines, at, number: 5, also }
}
