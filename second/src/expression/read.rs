//! A row of marks read in one pass, with the brackets that are open in a stack.

use super::{Expression, Letter, CLOSE, OPEN, OR, TIMES};

/// Brackets stand within brackets at most so deep.
pub const MOST_OPEN: i32 = 8;

/// Why a row is no expression, and at which mark, counted from 1.
#[derive(Clone, Copy, Debug, PartialEq, Eq)]
pub struct Misplaced {
    pub mark: usize,
    pub why: &'static str,
}

/// The mark, counted from 1, at which opened less closed brackets first pass 8. A closed bracket counts down below zero
/// too, and a byte above 83 counts nothing.
pub fn too_deep(marks: &[u8]) -> Option<usize> {
    let mut open = 0;
    let passes = |mark: &u8| {
        open += match *mark {
            OPEN => 1,
            CLOSE => -1,
            _ => 0,
        };
        open > MOST_OPEN
    };
    marks.iter().position(passes).map(|before| before + 1)
}

/// A bracket that is open, or the whole row: its sequences, the last of them still being read.
struct Opened {
    sequences: Vec<Vec<Expression>>,
}

impl Opened {
    fn new() -> Opened {
        Opened { sequences: vec![Vec::new()] }
    }

    fn last(&mut self) -> &mut Vec<Expression> {
        self.sequences.last_mut().expect("there is always one")
    }

    /// None where the last sequence has no item.
    fn or(&mut self) -> Option<()> {
        let any = !self.last().is_empty();
        self.sequences.push(Vec::new());
        any.then_some(())
    }

    /// None where the last sequence has no item; those before it were looked at when they ended.
    fn close(mut self) -> Option<Expression> {
        let any = !self.last().is_empty();
        let rows = self.sequences.into_iter().map(|items| only(items, Expression::Row));
        any.then(|| only(rows.collect(), Expression::Either))
    }

    /// The last item any number of times.
    fn repeat(&mut self) {
        let item = self.last().pop().expect("the mark before was an item");
        self.last().push(Expression::AnyTimes(Box::new(item)));
    }
}

/// The one part itself, or what they are together.
fn only(mut parts: Vec<Expression>, together: impl Fn(Vec<Expression>) -> Expression) -> Expression {
    if parts.len() == 1 {
        parts.remove(0)
    } else {
        together(parts)
    }
}

/// The expression that these marks are, however deep.
pub fn expression(marks: &[u8]) -> Result<Expression, Misplaced> {
    let mut open = vec![Opened::new()];
    // Whether the mark before was a role mark, a test mark or a closed bracket.
    let mut after_item = false;
    for (before, &mark) in marks.iter().enumerate() {
        let misplaced = |why| Misplaced { mark: before + 1, why };
        let brackets = open.len() - 1;
        let inner = open.last_mut().expect("the whole row is open to its end");
        match (Letter::of(mark), mark) {
            (Some(letter), _) => inner.last().push(Expression::Mark(letter)),
            (None, OPEN) => open.push(Opened::new()),
            (None, CLOSE) if brackets == 0 => {
                return Err(misplaced("no bracket is open that 81 could close"))
            }
            (None, CLOSE) => {
                let bracket = open.pop().expect("one is open").close();
                let bracket = bracket.ok_or(misplaced("nothing stands before this 81"))?;
                open.last_mut().expect("the row").last().push(bracket);
            }
            (None, OR) => inner.or().ok_or(misplaced("nothing stands before this 82"))?,
            (None, TIMES) if !after_item => {
                return Err(misplaced("83 stands only directly after a role mark, a test mark or 81"));
            }
            (None, TIMES) => inner.repeat(),
            _ => return Err(misplaced("no mark is above 83")),
        }
        after_item = mark < OPEN || mark == CLOSE;
    }
    ended(open, marks.len())
}

fn ended(mut open: Vec<Opened>, marks: usize) -> Result<Expression, Misplaced> {
    let misplaced = |why| Misplaced { mark: marks, why };
    match (open.pop(), open.len()) {
        (Some(whole), 0) if marks > 0 => whole.close().ok_or(misplaced("nothing stands after this 82")),
        (_, 0) => Err(misplaced("there are no marks")),
        _ => Err(misplaced("a bracket is not closed")),
    }
}
