//! A question typed as an expression: its fixed automaton, from one pass over the marks.

use crate::bits::States;
use crate::read::{File, Question};
use std::iter::{Copied, Peekable};
use std::slice::Iter;

const OPEN: u8 = 0x80;
const CLOSE: u8 = 0x81;
const OR: u8 = 0x82;
const TIMES: u8 = 0x83;
const MOST_OPEN: i8 = 8;

/// Puts the steps and finals of the expression into the question; 6, 13, 12 or 14 where the marks are refused.
pub fn put<S: States>(marks: &[u8], file: &File, question: &mut Question<S>) -> Result<(), u8> {
    let letters = || marks.iter().copied().filter(|mark| *mark < OPEN);
    let declared = |mark| if mark < 0x40 { mark < file.signed } else { mark - 0x40 < file.names };
    if !letters().all(declared) {
        return Err(6);
    }
    if is_too_deep(marks) {
        return Err(13);
    }
    let mut reader = Reader { marks: marks.iter().copied().peekable(), places: 0, next: [0; 32] };
    let whole = reader.expression().filter(|_| reader.marks.peek().is_none()).ok_or(12)?;
    if u32::from(file.states) != reader.places + 1 || file.start != 0 {
        return Err(14);
    }
    reader.next[0] = whole.first;
    for (to, mark) in (1..).zip(letters()) {
        for (from, next) in (0..file.states).zip(reader.next) {
            match (next >> to & 1, mark) {
                (0, _) => {}
                (_, 0..0x40) => question.role_steps[usize::from(mark)].add(from, to),
                _ => question.test_steps[usize::from(mark - 0x40)].add(from, to),
            }
        }
    }
    question.finals = S::from_wide(whole.last | u32::from(whole.empty));
    Ok(())
}

/// Whether opened less closed brackets pass eight, whatever else the row is.
fn is_too_deep(marks: &[u8]) -> bool {
    let mut open = 0;
    marks.iter().any(|mark| {
        open += i8::from(*mark == OPEN) - i8::from(*mark == CLOSE);
        open > MOST_OPEN
    })
}

/// The places that can be first and those that can be last, as bits, and whether the empty word is a word.
struct Part {
    first: u32,
    last: u32,
    empty: bool,
}

struct Reader<'a> {
    marks: Peekable<Copied<Iter<'a, u8>>>,
    /// How many role and test marks were read; the k-th stands at place k. Those past the 31st have no bit: no file
    /// declares a state for them.
    places: u32,
    /// For each place, those that may come right after it.
    next: [u32; 32],
}

impl Reader<'_> {
    fn expression(&mut self) -> Option<Part> {
        let mut all = self.sequence()?;
        while self.marks.next_if_eq(&OR).is_some() {
            let other = self.sequence()?;
            all.first |= other.first;
            all.last |= other.last;
            all.empty |= other.empty;
        }
        Some(all)
    }

    fn sequence(&mut self) -> Option<Part> {
        let mut all = self.item()?;
        while self.marks.peek().is_some_and(|mark| *mark <= OPEN) {
            let item = self.item()?;
            self.lead(all.last, item.first);
            all.first |= if all.empty { item.first } else { 0 };
            all.last = item.last | if item.empty { all.last } else { 0 };
            all.empty &= item.empty;
        }
        Some(all)
    }

    fn item(&mut self) -> Option<Part> {
        let mut item = match self.marks.next()? {
            OPEN => {
                let inside = self.expression()?;
                self.marks.next_if_eq(&CLOSE).map(|_| inside)?
            }
            0..OPEN => {
                self.places += 1;
                let place = 1u32.checked_shl(self.places).unwrap_or(0);
                Part { first: place, last: place, empty: false }
            }
            _ => return None,
        };
        if self.marks.next_if_eq(&TIMES).is_some() {
            self.lead(item.last, item.first);
            item.empty = true;
        }
        Some(item)
    }

    fn lead(&mut self, from: u32, to: u32) {
        for (place, next) in self.next.iter_mut().enumerate() {
            *next |= if from >> place & 1 == 1 { to } else { 0 };
        }
    }
}
