//! Rows of marks for the library: expressions, damaged ones, long ones, and too little room for the tables.

use super::dice::Dice;
use super::expressions::{depth, throw_marks, MOST_MARKS};
use super::marks::{bad_row, deep_row};
use crate::expression::read::{expression, too_deep};
use crate::expression::{CLOSE, OPEN, OR, TIMES};
use crate::library::{role_and_test_marks, Made, ROOM};

/// What the library can answer a row of marks with: its tables are made, or why none are.
pub const NUMBERS: [u8; 5] = [0, 5, 12, 13, 14];

/// What it can answer where there are 16 to 31 role and test marks.
pub const WIDE: [u8; 4] = [0, 5, 12, 13];

/// What such a row can be, beside the number it is answered with.
pub const MET: [&str; 12] = [
    "no mark",
    "one mark",
    "2 to 64 marks",
    "65 to 255 marks",
    "over 255 marks",
    "the empty word",
    "brackets 8 deep",
    "31 role and test marks",
    "32 role and test marks",
    "too few numbers for steps",
    "too few numbers for finals",
    "numbers to spare",
];

/// The most marks of a row that isn't meant to be long.
const MOST: usize = 90;

pub struct Typed {
    pub kind: &'static str,
    pub marks: Vec<u8>,
    /// How many numbers are lent for steps and for finals, and the byte they are filled with beforehand.
    pub rows: [usize; 2],
    pub fill: u8,
    /// The number the marks and rows were made for, where there is one.
    pub planted: Option<u8>,
}

pub fn typed(dice: &mut Dice) -> Typed {
    let letters = letters(dice);
    let (kind, marks, planted) = match dice.below(100) {
        0..=34 => ("sound", sound(dice, &letters), Some(0)),
        35..=46 => ("damaged", damaged(dice, &letters), Some(12)),
        47..=51 => ("deep", deep_row(dice, &letters, &mut Vec::new()), Some(13)),
        52..=59 => ("nested", nested(dice, &letters), Some(13)),
        60..=68 => ("many marks", many_marks(dice, &letters), Some(14)),
        69..=89 => ("wild", wild(dice, &letters), None),
        _ => {
            let (marks, number) = long(dice, &letters);
            ("long", marks, Some(number))
        }
    };
    let mut typed = Typed { kind, marks, rows: ROOM, fill: dice.below(256) as u8, planted };
    match dice.below(100) {
        0..=19 => make_short(dice, &mut typed),
        20..=39 => typed.rows = ROOM.map(|least| least + dice.below(4_000) / dice.pick(&[1, 100, 2_000])),
        _ => {}
    }
    typed
}

/// A few marks, or any; the first and the last of the roles and of the tests more often than others.
fn letters(dice: &mut Dice) -> Vec<u8> {
    let any = |dice: &mut Dice| dice.below(OPEN.into()) as u8;
    let one = |dice: &mut Dice| {
        let other = any(dice);
        dice.pick(&[0x00, 0x3F, 0x40, 0x7F, other, other, other, other])
    };
    (0..dice.pick(&[1, 2, 3, 6, 100])).map(|_| one(dice)).collect()
}

fn sound(dice: &mut Dice, letters: &[u8]) -> Vec<u8> {
    let (few, any) = (dice.between(1, 6), dice.between(1, MOST_MARKS));
    let marks = dice.pick(&[1, few, any, any, MOST_MARKS]);
    let deep = dice.pick(&[0, 1, 2, 3, 8, 8]);
    throw_marks(dice, letters, [marks, deep], MOST)
}

/// No expression, often since there is no mark.
fn damaged(dice: &mut Dice, letters: &[u8]) -> Vec<u8> {
    if dice.percent(35) {
        Vec::new()
    } else {
        bad_row(dice, letters)
    }
}

/// An expression but for its depth, 9 or 10; and sometimes for its count of role and test marks.
fn nested(dice: &mut Dice, letters: &[u8]) -> Vec<u8> {
    let (few, deep) = (dice.between(1, 6), dice.between(9, 10));
    let many = dice.between(16, MOST_MARKS);
    let marks = dice.pick(&[few, many, many, MOST_MARKS + 1]);
    loop {
        let row = throw_marks(dice, letters, [marks, deep], MOST);
        if depth(&row) > 8 {
            return row;
        }
    }
}

/// An expression but for the count of its role and test marks.
fn many_marks(dice: &mut Dice, letters: &[u8]) -> Vec<u8> {
    let more = dice.between(MOST_MARKS + 1, 45);
    let marks = dice.pick(&[MOST_MARKS + 1, MOST_MARKS + 1, more]);
    let deep = dice.below(4);
    throw_marks(dice, letters, [marks, deep], MOST)
}

/// Any mark in any place, a few at a time, so that not every row is refused at once.
fn wild(dice: &mut Dice, letters: &[u8]) -> Vec<u8> {
    let make = dice.pick(&[sound, sound, sound, nested, many_marks]);
    let mut row = make(dice, letters);
    for _ in 0..dice.between(1, 4) {
        let place = dice.below(row.len() + 1);
        let (letter, any) = (dice.pick(letters), dice.below(256) as u8);
        let mark = dice.pick(&[OPEN, CLOSE, OR, TIMES, letter, any]);
        match dice.below(3) {
            0 => row.insert(place, mark),
            1 if place < row.len() => row[place] = mark,
            _ if place < row.len() => drop(row.remove(place)),
            _ => {}
        }
    }
    row
}

/// Longer than any file can hold, with counts about which a narrow counter would be wrong; and the number it has.
fn long(dice: &mut Dice, letters: &[u8]) -> (Vec<u8>, u8) {
    let letter = dice.pick(letters);
    match dice.below(6) {
        // So many that a byte, or two, would hold a count that can be declared.
        0 => (vec![letter; 256 + dice.below(33)], 14),
        1 => (vec![letter; 65_535], 14),
        // Brackets closed, and then not so many more opened that it is too deep; or one more.
        2 => {
            let closed = dice.pick(&[120, 127, 128, 129, 255, 256, 257, 32_000]);
            let deep = dice.below(2);
            ([vec![CLOSE; closed], vec![OPEN; closed + 8 + deep]].concat(), [12, 13][deep])
        }
        // Below the least number of two bytes.
        3 => (vec![CLOSE; dice.pick(&[32_769, 32_900, 65_535])], 12),
        4 => (vec![OPEN; dice.pick(&[256, 264, 65_535])], 13),
        // An expression, often repeated.
        _ => {
            let (deep, times) = (dice.below(9), dice.between(200, 600));
            let one = throw_marks(dice, letters, [3, deep], MOST);
            (vec![one; times].join(&OR), 14)
        }
    }
}

/// One row or both are too short, by one number or by more.
fn make_short(dice: &mut Dice, typed: &mut Typed) {
    let rows = dice.pick(&[[true, false], [false, true], [true, true]]);
    for (row, _) in typed.rows.iter_mut().zip(rows).filter(|(_, short)| *short) {
        let any = dice.below(*row);
        *row = dice.pick(&[0, 1, *row / 2, *row - 1, any]);
    }
    typed.planted = Some(5);
}

/// The refusals that stand, each by itself.
pub fn stand(typed: &Typed) -> Vec<u8> {
    let faults = [
        (5, typed.rows[0] < ROOM[0] || typed.rows[1] < ROOM[1]),
        (13, too_deep(&typed.marks).is_some()),
        (12, expression(&typed.marks).is_err()),
        (14, role_and_test_marks(&typed.marks) > MOST_MARKS),
    ];
    faults.into_iter().filter(|(_, stands)| *stands).map(|(number, _)| number).collect()
}

/// What a row of marks is, of those of `MET`.
pub fn met(typed: &Typed, made: Option<&Made>) -> Vec<&'static str> {
    let length = match typed.marks.len() {
        0 => "no mark",
        1 => "one mark",
        2..=64 => "2 to 64 marks",
        65..=255 => "65 to 255 marks",
        _ => "over 255 marks",
    };
    let ([steps, finals], states) = (typed.rows, made.map_or(0, |made| made.states));
    let one_more = role_and_test_marks(&typed.marks) == MOST_MARKS + 1;
    let parts = [
        ("the empty word", made.is_some_and(|made| made.tables[1].first() == Some(&0))),
        ("brackets 8 deep", made.is_some() && depth(&typed.marks) == 8),
        ("31 role and test marks", usize::from(states) == MOST_MARKS + 1),
        ("32 role and test marks", one_more && stand(typed) == [14]),
        ("too few numbers for steps", steps < ROOM[0] && finals >= ROOM[1]),
        ("too few numbers for finals", finals < ROOM[1] && steps >= ROOM[0]),
        ("numbers to spare", made.is_some() && (steps > ROOM[0] || finals > ROOM[1])),
    ];
    let met = parts.into_iter().filter(|(_, is_so)| *is_so).map(|(what, _)| what);
    std::iter::once(length).chain(met).collect()
}
