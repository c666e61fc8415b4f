//! Files for the copyist: 4,096 role facts in several orders, and the expression whose automaton has the most steps.

use crate::draft::Draft;

/// What stands in such a file.
pub const KINDS: [&str; 6] =
    ["random", "in-order", "from-the-highest", "of-one-meaning", "of-one-record", "expression"];

const SEED: u64 = 1;
const FACTS: usize = 4_096;

/// None where there is no such kind.
pub fn make(kind: &str) -> Option<Vec<u8>> {
    Some(match kind {
        "random" => thrown(32, 255),
        "in-order" => ordered(|_, facts| facts.sort()),
        "from-the-highest" => ordered(|_, facts| {
            facts.sort();
            facts.reverse();
        }),
        // One fact by so many deeds: all fields but the last are the same.
        "of-one-meaning" => thrown(1, 1),
        "of-one-record" => ordered(|first, facts| facts.iter_mut().for_each(|fact| *fact = first.to_vec())),
        "expression" => expression(),
        _ => return None,
    })
}

/// Different role facts, each by a deed, in any order.
fn thrown(roles: usize, individuals: usize) -> Vec<u8> {
    let mut draft = Draft::new(SEED, [0, roles, individuals, 1, 0]);
    draft.throw(7, FACTS, |dice| {
        let [role, first, second] = [roles, individuals, individuals].map(|end| dice.below(end) as u8);
        let [high, low] = (dice.below(65_536) as u16).to_be_bytes();
        Some(vec![7, role, first, second, high, low])
    });
    draft.text()
}

/// The same facts put in an order, of which the first in the file is told.
fn ordered(order: impl Fn(&[u8], &mut [Vec<u8>])) -> Vec<u8> {
    let text = thrown(32, 255);
    let mut lines: Vec<Vec<u8>> = text.split_inclusive(|byte| *byte == b'\n').map(<[u8]>::to_vec).collect();
    let first = lines[1].clone();
    order(&first, &mut lines[1..]);
    lines.concat()
}

/// One of 31 signed roles, any number of times: from each of 32 states a step to each but the first.
fn expression() -> Vec<u8> {
    const MARKS: u8 = 31;
    let roles: Vec<String> = (0..MARKS).map(|mark| format!("{mark:02X}")).collect();
    format!("010010002000\n0D80{}8183\n", roles.join("82")).into_bytes()
}
