//! The desk: whole input to whole output, as docs/RULES.md says in section 8.

pub mod frame;
pub mod question;
pub mod read;

use crate::ask::Ask;
use crate::numbers::FEW_STATES;
use crate::prepared::Prepared;
use read::{Fault, File};

pub fn desk(input: &[u8]) -> Vec<u8> {
    match read::read(input) {
        Ok(mut file) => {
            let dropped = file.salvage().into_iter().flat_map(dropped_line);
            dropped.chain(answers(&file)).collect()
        }
        Err(fault) => fault_line(fault),
    }
}

/// 8F, line number (two bytes, or four where two can't hold it), number. No faulty line stands beyond 138,787: by then some
/// table is over-full, or the list.
pub fn fault_line(fault: Fault) -> Vec<u8> {
    let line = (fault.line as u32).to_be_bytes();
    let two = fault.line <= u16::MAX.into();
    written(&[&[0x8F], &line[if two { 2 } else { 0 }..], &[fault.number]].concat())
}

/// 92 and the line number of a dropped fact. No fact of a sound file stands beyond line 7,715.
pub fn dropped_line(line: usize) -> Vec<u8> {
    written(&[&[0x92], &(line as u16).to_be_bytes()[..]].concat())
}

/// A count as it is written, and a round's number: two bytes where at most 16 states are declared, else four.
fn count(states: u8, count: u32) -> Vec<u8> {
    let bytes = count.to_be_bytes();
    // Of at most 16 states no count is above 30,720.
    let few = u16::from(states) <= FEW_STATES;
    bytes[if few { 2 } else { 0 }..].to_vec()
}

/// 8A, round, marks added, each as wide as a count of so many states.
pub fn round_line(states: u8, round: u32, added: u32) -> Vec<u8> {
    written(&[vec![0x8A], count(states, round), count(states, added)].concat())
}

/// 8B, first, second, or 8E, individual; and the number and the count of so many states.
pub fn answer_line(states: u8, ask: Ask, number: u8, rounds: u32) -> Vec<u8> {
    let mut bytes = ask.frame();
    bytes[0] |= 0x80;
    bytes.push(number);
    written(&[bytes, count(states, rounds)].concat())
}

/// A line for each worked round, once; then one for each ask, in the order asked.
fn answers(file: &File) -> Vec<u8> {
    // Every ask reads the whole file, so the collection is prepared once; without an ask there is no need.
    if file.asks.is_empty() {
        return Vec::new();
    }
    let mut prepared = Prepared::of(&file.collection, file.allowance());
    let rounds = (1..).zip(prepared.added().unwrap_or_default());
    let states = file.collection.counts.states;
    let mut output: Vec<u8> = rounds.flat_map(|(round, added)| round_line(states, round, *added)).collect();
    for &ask in &file.asks {
        let (number, rounds) = prepared.answer(ask);
        output.extend(answer_line(states, ask, number, rounds));
    }
    output
}

/// Bytes as capital hexadecimal and the end of the line.
pub fn written(bytes: &[u8]) -> Vec<u8> {
    let digit = |value: u8| b"0123456789ABCDEF"[usize::from(value)];
    let digits = bytes.iter().flat_map(|byte| [digit(byte >> 4), digit(byte & 15)]);
    digits.chain([b'\n']).collect()
}
