//! One line of the desk's input: its characters (number 9) and its frame (number 10).

use crate::numbers::Deed;

/// A frame with its own numbers, as written; nothing is tested against the declared counts yet.
#[derive(Clone, Debug, PartialEq, Eq)]
pub enum Frame {
    Counts([u8; 5]),
    ConceptRule(u8, u8),
    ConceptExclusion(u8, u8),
    RoleRule(u8, u8),
    RoleExclusion(u8, u8),
    ConceptFact {
        name: u8,
        who: u8,
        deed: u16,
    },
    RoleFact {
        role: u8,
        first: u8,
        second: u8,
        deed: u16,
    },
    RoleStep {
        from: u8,
        role: u8,
        to: u8,
    },
    TestStep {
        from: u8,
        name: u8,
        to: u8,
    },
    Final(u8),
    Ask(u8, u8),
    /// Of one individual.
    AskFrom(u8),
    Allowance(u32),
    /// The marks of an expression; no number of them is the wrong length.
    Expression(Vec<u8>),
    /// The file chooses salvage.
    Salvage,
    /// An entry of the list: a mark of the sheet, and the round in which it first stands.
    Entry {
        round: u32,
        from: u8,
        to: u8,
        concept: u8,
    },
}

/// The most characters of a line, and of one that begins with the two characters 0D.
pub const MOST_CHARACTERS: usize = 64;
pub const MOST_OF_EXPRESSION: usize = 130;

/// The most characters that a line may have which begins so.
pub fn most_characters(line: &[u8]) -> usize {
    if line.starts_with(b"0D") {
        MOST_OF_EXPRESSION
    } else {
        MOST_CHARACTERS
    }
}

/// Number 9, then number 10.
pub fn frame(line: &[u8]) -> Result<Frame, u8> {
    let bytes = digits(line).ok_or(9)?;
    shaped(&bytes).ok_or(10)
}

/// The bytes that a line's characters say; None is number 9.
pub fn digits(line: &[u8]) -> Option<Vec<u8>> {
    if line.is_empty() || line.len() > most_characters(line) || line.len() % 2 == 1 {
        return None;
    }
    line.chunks(2).map(|pair| Some(digit(pair[0])? * 16 + digit(pair[1])?)).collect()
}

fn digit(character: u8) -> Option<u8> {
    match character {
        b'0'..=b'9' => Some(character - b'0'),
        b'A'..=b'F' => Some(character - b'A' + 10),
        _ => None,
    }
}

fn shaped(bytes: &[u8]) -> Option<Frame> {
    Some(match *bytes {
        [0x01, names, roles, individuals, states, start] => {
            Frame::Counts([names, roles, individuals, states, start])
        }
        [0x02, left, right] => Frame::ConceptRule(left, right),
        [0x03, left, right] => Frame::ConceptExclusion(left, right),
        [0x04, left, right] => Frame::RoleRule(left, right),
        [0x05, left, right] => Frame::RoleExclusion(left, right),
        [0x06, name, who, ref deed @ ..] => Frame::ConceptFact { name, who, deed: deed_number(deed)? },
        [0x07, role, first, second, ref deed @ ..] => {
            Frame::RoleFact { role, first, second, deed: deed_number(deed)? }
        }
        [0x08, from, role, to] => Frame::RoleStep { from, role, to },
        [0x09, from, name, to] => Frame::TestStep { from, name, to },
        [0x0A, state] => Frame::Final(state),
        [0x0B, first, second] => Frame::Ask(first, second),
        [0x0C, high, low] => Frame::Allowance(u16::from_be_bytes([high, low]).into()),
        [0x0C, a, b, c, d] => Frame::Allowance(u32::from_be_bytes([a, b, c, d])),
        [0x0E, first] => Frame::AskFrom(first),
        [0x0D, ref marks @ ..] => Frame::Expression(marks.to_vec()),
        [0x0F] => Frame::Salvage,
        [0x10, a, b, c, d, from, to, concept] => {
            Frame::Entry { round: u32::from_be_bytes([a, b, c, d]), from, to, concept }
        }
        _ => return None,
    })
}

/// What ends a fact: two bytes, or nothing where none is noted.
fn deed_number(bytes: &[u8]) -> Option<u16> {
    match *bytes {
        [] => Some(Deed::NONE_NOTED.0),
        [high, low] => Some(u16::from_be_bytes([high, low])),
        _ => None,
    }
}
