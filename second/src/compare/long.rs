//! Long inputs for the desk: beyond the 501,540 bytes that 7,716 lines of 64 characters have.

use super::damage::Damaged;
use super::dice::Dice;
use super::generate::{full, Asked};
use super::salvages::with_choice;
use super::text;
use super::throw::throw_exclusions;
use crate::numbers::Role;

/// 7,716 lines of 64 characters and their ends; a sound file has at most 7,715 lines, and one with an expression far fewer.
pub const MOST_READ: usize = 65 * (MOST_SOUND_LINES + 1);

const MOST_SOUND_LINES: usize = 7_715;

pub fn long(dice: &mut Dice) -> Damaged {
    match dice.below(6) {
        0 => one_long_line(dice),
        1 => all_lines_of_64(dice),
        2 => empty_lines(dice),
        _ => fault_after_the_fullest_file(dice),
    }
}

fn one_long_line(dice: &mut Dice) -> Damaged {
    let length = MOST_READ - 1 + dice.below(3) + dice.pick(&[0, 0, 100_000, 600_000]);
    Damaged { lines: vec![vec![b'0'; length]], at: 1, number: 9, also: vec![10, 11] }
}

fn all_lines_of_64(dice: &mut Dice) -> Damaged {
    let mut lines = vec![vec![b'0'; 64]; MOST_SOUND_LINES + dice.below(4)];
    if dice.percent(50) {
        lines[0] = b"010101010100".to_vec();
        return Damaged { lines, at: 2, number: 10, also: Vec::new() };
    }
    Damaged { lines, at: 1, number: 10, also: vec![11] }
}

fn empty_lines(dice: &mut Dice) -> Damaged {
    let mut lines = vec![Vec::new(); MOST_READ + dice.below(70_000)];
    lines[0] = b"010101010100".to_vec();
    Damaged { lines, at: 2, number: 9, also: Vec::new() }
}

/// All tables full, 256 asks, an allowance and salvage: whatever comes next is a fault, on line 7,716.
fn fault_after_the_fullest_file(dice: &mut Dice) -> Damaged {
    let mut asked = full(dice);
    asked.allowance = Some(dice.below(65_536) as u32);
    fill_exclusions(dice, &mut asked);
    let plain = text::lines(dice, &asked);
    let mut lines = with_choice(dice, &plain);
    assert_eq!(lines.len(), MOST_SOUND_LINES, "the fullest file");
    let mut next = |bytes: &[u8], number, also| {
        lines.push(bytes.to_vec());
        (number, also)
    };
    let (number, also) = match dice.below(8) {
        0 => next(b"0C0001", 11, vec![]),
        1 => next(b"01FFFFFFFFFF", 11, vec![4]),
        2 => next(b"07000000", 5, vec![]),
        3 => next(&[b'A'; 700_000], 9, vec![10]),
        4 => next(&[b'A'; 64], 10, vec![]),
        5 => next(b"0EFF", 5, vec![8]),
        6 => next(b"0F", 11, vec![]),
        _ => next(b"0BFFFF", 5, vec![8]),
    };
    // What follows the faulty line is never looked at.
    let tail = dice.pick(&[&b"0A00"[..], b"", b"not hexadecimal", &[b'F'; 64]]);
    let short: usize = MOST_READ.saturating_sub(lines.iter().map(|line| line.len() + 1).sum());
    lines.resize(lines.len() + short / (tail.len() + 1) + dice.below(3), tail.to_vec());
    Damaged { lines, at: MOST_SOUND_LINES + 1, number, also }
}

fn fill_exclusions(dice: &mut Dice, asked: &mut Asked) {
    let collection = &mut asked.collection;
    let concepts = 512 - collection.concept_exclusions.len();
    let roles = 128 - collection.role_exclusions.len();
    throw_exclusions(dice, collection, concepts, roles);
    let rules = &mut collection.role_rules;
    rules.resize(128, (Role(0), Role(0)));
}
