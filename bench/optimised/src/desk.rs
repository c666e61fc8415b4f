//! The desk: whole input to whole output.

use crate::answer::answers;
use crate::bits::{Places, States};
use crate::clash::{individuals, Excluded};
use crate::leave::leaving;
use crate::list::Held;
use crate::order::Orders;
use crate::read::{begin, go_on, read, Fault, File, Question, ANY, NARROW};
use crate::salvage::{facts, salvage};
use crate::sheet::{along, close, marks as marks_of};
use crate::walk::Map;

const NO: u8 = 0;
const YES: u8 = 1;
const CONTRADICTION: u8 = 2;
const SPENT: u8 = 3;

/// Room for the lines of so many rounds is made at once.
const ROUNDS: usize = 64;

/// The list is not the sheet, or the answer is the same for all asks, or is to be looked up in the walk.
enum Outcome<S: States> {
    Departs(Fault),
    Same(u8, u32),
    Walked(Box<Walked<S>>),
}

/// Who is joined to whom, in which states a path leaves each individual (where that is asked), and the rounds needed.
struct Walked<S: States> {
    map: Map<S>,
    leaving: [S; 256],
    rounds: u32,
}

pub fn desk(mut input: Vec<u8>) -> Vec<u8> {
    let mut file = File::empty();
    match begin(&mut input, &mut file) {
        Err(fault) => refused(fault),
        Ok(end) if file.states > NARROW => worked::<u32>(input, end, &mut file),
        Ok(end) => worked::<u16>(input, end, &mut file),
    }
}

fn refused(Fault { line, number }: Fault) -> Vec<u8> {
    let [first, second, high, low] = line.to_be_bytes();
    let mut output = Vec::new();
    // A fault has no count; its own line's number has two bytes where they can hold it.
    if first == 0 && second == 0 {
        put_line::<u16, 4, 0>(&mut output, [0x8F, high, low, number], []);
    } else {
        put_line::<u16, 6, 0>(&mut output, [0x8F, first, second, high, low, number], []);
    }
    output
}

/// What is written for a file whose line 1 was read.
fn worked<S: States>(input: Vec<u8>, end: usize, file: &mut File) -> Vec<u8> {
    let mut question = Question::empty();
    if let Err(fault) = go_on(&input, end, file, &mut question) {
        return refused(fault);
    }
    let dropped = if file.salvages { salvage(file, facts(&input, end)) } else { Vec::new() };
    drop(input);
    let lines = dropped.len() + file.asks.len();
    if lines == 0 && file.list.is_empty() {
        return Vec::new();
    }
    let mut output = Vec::with_capacity(LONGEST * (lines + ROUNDS));
    for line in dropped {
        let [high, low] = line.to_be_bytes();
        put_line::<S, 3, 0>(&mut output, [0x92, high, low], []);
    }
    if file.asks.is_empty() && file.list.is_empty() {
        return output;
    }
    match outcome::<S>(file, &question, &mut output) {
        Outcome::Departs(fault) => return refused(fault),
        Outcome::Same(number, count) => {
            for &ask in &file.asks {
                answer::<S>(&mut output, ask, number, count);
            }
        }
        Outcome::Walked(walked) => {
            let Walked { map, leaving, rounds } = *walked;
            for (&ask, yes) in file.asks.iter().zip(answers(file, &question, &map, &leaving)) {
                answer::<S>(&mut output, ask, if yes { YES } else { NO }, rounds);
            }
        }
    }
    output
}

/// What the asks are answered with; the lines of the rounds are written as these are worked.
fn outcome<S: States>(file: &File, question: &Question<S>, output: &mut Vec<u8>) -> Outcome<S> {
    let orders = Orders::of(file);
    let excluded = Excluded::of(file, &orders);
    if individuals(file, &orders, &excluded).is_none() {
        return Outcome::Same(CONTRADICTION, 0);
    }
    let along = along(file, question, &orders);
    let Some(mut map) = Map::of(file, &orders, &excluded, &along) else {
        return Outcome::Same(CONTRADICTION, 0);
    };
    let allowance = file.allowance();
    // A list is held against the whole sheet, whatever the allowance; without one no more rounds are worked than it allows.
    let mut held = (!file.list.is_empty()).then(|| Held::of(file, &orders));
    let most = if held.is_some() { u32::MAX } else { allowance };
    let told = |round: u32, changed: u128, added: &[_; 128]| {
        if round <= allowance && !file.asks.is_empty() {
            put_line::<S, 1, 2>(output, [0x8A], [round, marks_of(&orders, changed, added)]);
        }
        if let Some(held) = &mut held {
            held.round(round, changed, added);
        }
    };
    let sheet = close(file, question, &orders, &along, most, told);
    if let Some(place) = held.and_then(|held| held.departure()) {
        return Outcome::Departs(Fault { line: file.listed_from + place as u32, number: 15 });
    }
    if sheet.spent || sheet.rounds > allowance {
        return Outcome::Same(SPENT, allowance);
    }
    map.put_staying(file, &orders, &sheet);
    let asks_of_one = file.asks.iter().any(|ask| ask.1 == ANY);
    let leaving = if asks_of_one { leaving(file, question, &orders, &along, &sheet) } else { [S::NONE; 256] };
    Outcome::Walked(Box::new(Walked { map, leaving, rounds: sheet.rounds }))
}

#[inline(always)]
fn answer<S: States>(output: &mut Vec<u8>, (first, second): (u8, u8), number: u8, count: u32) {
    match second {
        ANY => put_line::<S, 3, 1>(output, [0x8E, first, number], [count]),
        _ => put_line::<S, 4, 1>(output, [0x8B, first, second, number], [count]),
    }
}

/// The characters of the longest line, with its end.
const LONGEST: usize = 19;

/// Bytes and then counts as capital hexadecimal, and the end of the line.
#[inline(always)]
fn put_line<S: States, const BYTES: usize, const COUNTS: usize>(
    output: &mut Vec<u8>,
    bytes: [u8; BYTES],
    counts: [u32; COUNTS],
) {
    let mut line = [b'\n'; LONGEST];
    let mut length = 0;
    let mut put = |byte: u8| {
        line[length] = DIGITS[usize::from(byte >> 4)];
        line[length + 1] = DIGITS[usize::from(byte & 15)];
        length += 2;
    };
    bytes.into_iter().for_each(&mut put);
    for count in counts {
        count.to_be_bytes()[4 - S::COUNT_BYTES..].iter().copied().for_each(&mut put);
    }
    output.extend_from_slice(&line[..length + 1]);
}

const DIGITS: [u8; 16] = *b"0123456789ABCDEF";

/// How many marks the sheet has that answers rest on; None after a fault or a contradiction. For the tests.
pub fn marks(input: Vec<u8>) -> Option<u32> {
    let (file, question) = read(input).ok()?;
    let orders = Orders::of(&file);
    individuals(&file, &orders, &Excluded::of(&file, &orders))?;
    let along = along(&file, &question, &orders);
    let sheet = close(&file, &question, &orders, &along, file.allowance(), |_, _, _| ());
    let concepts = Places(crate::order::all_concepts(&file));
    Some(concepts.map(|concept| sheet.of_concept(&orders, concept).count()).sum())
}
