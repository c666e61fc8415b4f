//! The words of an expression by its derivatives, and no automaton: what must still follow once a letter has been read.

use super::{Expression, Letter};
use std::collections::{BTreeMap, BTreeSet};

impl Expression {
    pub fn allows_the_empty_word(&self) -> bool {
        match self {
            Expression::Mark(_) => false,
            Expression::Row(items) => items.iter().all(Expression::allows_the_empty_word),
            Expression::Either(sequences) => sequences.iter().any(Expression::allows_the_empty_word),
            Expression::AnyTimes(_) => true,
        }
    }

    /// The words that make a word of this expression when they follow the letter.
    pub fn after(&self, letter: Letter) -> Expression {
        match self {
            Expression::Mark(own) if *own == letter => row(Vec::new()),
            Expression::Mark(_) => either(Vec::new()),
            Expression::Row(items) => row_after(items, letter),
            Expression::Either(sequences) => either(sequences.iter().map(|one| one.after(letter)).collect()),
            Expression::AnyTimes(item) => row(vec![item.after(letter), self.clone()]),
        }
    }

    pub fn has(&self, word: &[Letter]) -> bool {
        let rest = word.iter().fold(self.clone(), |rest, letter| rest.after(*letter));
        rest.allows_the_empty_word()
    }

    /// Every letter that stands in it.
    pub fn letters(&self) -> BTreeSet<Letter> {
        match self {
            Expression::Mark(letter) => BTreeSet::from([*letter]),
            Expression::Row(parts) | Expression::Either(parts) => {
                parts.iter().flat_map(Expression::letters).collect()
            }
            Expression::AnyTimes(item) => item.letters(),
        }
    }
}

/// The letter is read by the first item, or by a later one when all before it allow the empty word.
fn row_after(items: &[Expression], letter: Letter) -> Expression {
    let mut ways = Vec::new();
    for (place, item) in items.iter().enumerate() {
        let rest = items[place + 1..].iter().cloned();
        ways.push(row(std::iter::once(item.after(letter)).chain(rest).collect()));
        if !item.allows_the_empty_word() {
            break;
        }
    }
    either(ways)
}

/// A row without rows in it; it has no word when a part has none.
fn row(parts: Vec<Expression>) -> Expression {
    if parts.contains(&either(Vec::new())) {
        return either(Vec::new());
    }
    let flat = |part| match part {
        Expression::Row(inner) => inner,
        other => vec![other],
    };
    let mut items: Vec<Expression> = parts.into_iter().flat_map(flat).collect();
    if items.len() == 1 {
        items.remove(0)
    } else {
        Expression::Row(items)
    }
}

/// Each part once and in a fixed order, so that an expression has finitely many derivatives.
fn either(parts: Vec<Expression>) -> Expression {
    let flat = |part| match part {
        Expression::Either(inner) => inner,
        other => vec![other],
    };
    let parts: BTreeSet<Expression> = parts.into_iter().flat_map(flat).collect();
    let mut parts: Vec<Expression> = parts.into_iter().collect();
    if parts.len() == 1 {
        parts.remove(0)
    } else {
        Expression::Either(parts)
    }
}

/// Another automaton for the same words: its states are the derivatives, and no two steps from one read the same letter.
pub struct Derived {
    pub steps: Vec<(usize, Letter, usize)>,
    pub finals: Vec<usize>,
    pub states: usize,
}

impl Derived {
    /// State 0 is the expression itself; None where more states are needed than these.
    pub fn of(expression: &Expression, most: usize) -> Option<Derived> {
        let letters = expression.letters();
        let mut numbers = BTreeMap::from([(expression.clone(), 0)]);
        let mut waiting = vec![expression.clone()];
        let mut derived = Derived { steps: Vec::new(), finals: Vec::new(), states: 1 };
        while let Some(at) = waiting.pop() {
            let from = numbers[&at];
            derived.finals.extend(at.allows_the_empty_word().then_some(from));
            for &letter in &letters {
                let next = at.after(letter);
                if next == either(Vec::new()) {
                    continue;
                }
                let to = *numbers.entry(next.clone()).or_insert_with(|| {
                    waiting.push(next);
                    derived.states += 1;
                    derived.states - 1
                });
                if derived.states > most {
                    return None;
                }
                derived.steps.push((from, letter, to));
            }
        }
        Some(derived)
    }
}

/// All words over some letters, the shortest first, up to a length.
pub fn all_words(letters: &[Letter], length: usize) -> Vec<Vec<Letter>> {
    let mut words = vec![Vec::new()];
    let mut shorter = 0;
    for _ in 0..length {
        let end = words.len();
        for word in shorter..end {
            for &letter in letters {
                let mut longer = words[word].clone();
                longer.push(letter);
                words.push(longer);
            }
        }
        shorter = end;
    }
    words
}
