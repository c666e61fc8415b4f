//! What lines an input of the desk has, up to the first that is faulty: long ones, and allowances of every length.

use super::wide::is_wide;
use crate::desk::read::lines;
use std::collections::BTreeSet;

/// What an input can have.
pub const MET: [&str; 14] = [
    "0D of 66 to 130 characters",
    "0D of 130 characters",
    "0D of 131 or 132 characters",
    "66 to 132 characters, and no 0D",
    "0C of two bytes, at most 16 states",
    "0C of four bytes, at most 16 states",
    "0C of two bytes, over 16 states",
    "0C of four bytes, over 16 states",
    "0C of one byte, at most 16 states",
    "0C of three bytes, at most 16 states",
    "0C of five bytes, at most 16 states",
    "0C of one byte, over 16 states",
    "0C of three bytes, over 16 states",
    "0C of five bytes, over 16 states",
];

/// How many states line 1 declares, where it is as long as a frame 01.
pub fn states(input: &[u8]) -> Option<u16> {
    let first = lines(input).next().filter(|line| line.len() == 12 && line.starts_with(b"01"))?;
    let byte = std::str::from_utf8(&first[8..10]).ok()?;
    u16::from_str_radix(byte, 16).ok()
}

/// What stands in so many of its lines.
pub fn met(input: &[u8], read: usize) -> BTreeSet<&'static str> {
    let wide = states(input).is_some_and(is_wide);
    lines(input).take(read).filter_map(|line| line_met(line, wide)).flatten().collect()
}

fn line_met(line: &[u8], wide: bool) -> Option<Vec<&'static str>> {
    let expression = line.starts_with(b"0D");
    let of_allowance = |bytes: usize| {
        let [two, four, one, three, five] = if wide { [6, 7, 11, 12, 13] } else { [4, 5, 8, 9, 10] };
        [one, two, three, four, five].get(bytes.wrapping_sub(1)).map(|at| vec![MET[*at]])
    };
    match line.len() {
        66..=129 if expression => Some(vec![MET[0]]),
        130 if expression => Some(vec![MET[0], MET[1]]),
        131 | 132 if expression => Some(vec![MET[2]]),
        66..=132 => Some(vec![MET[3]]),
        length if line.starts_with(b"0C") && length % 2 == 0 => of_allowance(length / 2 - 1),
        _ => None,
    }
}
