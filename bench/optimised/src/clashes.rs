//! Files of 5,120 facts, the most that there can be, of which each clashes with another: of each two the one that is typed first is kept.

use crate::draft::Draft;

/// Without salvage such a file is a contradiction, and one where no exclusion is typed is none.
pub const KINDS: [&str; 4] = ["contradiction", "salvage", "harmless", "harmless-salvage"];

const SEED: u64 = 1;
const NAMES: usize = 64;
const ROLES: usize = 32;
const INDIVIDUALS: usize = 255;

/// How many pairs of facts of names clash, and how many of roles.
const PAIRS: [usize; 2] = [512, 2_048];

/// None where there is no such kind.
pub fn make(kind: &str) -> Option<Vec<u8>> {
    let [excludes, salvages] = match kind {
        "contradiction" => [true, false],
        "salvage" => [true, true],
        "harmless" => [false, false],
        "harmless-salvage" => [false, true],
        _ => return None,
    };
    let mut draft = Draft::new(SEED, [NAMES, ROLES, INDIVIDUALS, 1, 0]);
    if excludes {
        (0..NAMES as u8).step_by(2).for_each(|name| draft.put(3, vec![3, name, name + 1]));
        (0..ROLES as u8).step_by(2).for_each(|role| draft.put(5, vec![5, 2 * role, 2 * role + 2]));
    }
    // A name and the one it excludes, of the same individual; a role and the one it excludes, of the same pair.
    draft.throw(106, PAIRS[0], |dice| {
        Some([NAMES / 2, INDIVIDUALS].map(|end| dice.below(end) as u8).to_vec())
    });
    draft.throw(107, PAIRS[1], |dice| {
        let ends = [INDIVIDUALS; 2].map(|end| dice.below(end) as u8);
        // No pair twice, so that just one of its two facts is dropped.
        Some([&ends[..], &[(ends[0] ^ ends[1]) % (ROLES / 2) as u8]].concat())
    });
    for frame in draft.take(106) {
        let [half, who] = frame[..] else { unreachable!("a name and an individual") };
        draft.put(6, vec![6, 2 * half, who]);
        draft.put(6, vec![6, 2 * half + 1, who]);
    }
    for frame in draft.take(107) {
        let [first, second, half] = frame[..] else { unreachable!("a pair and a role") };
        draft.put(7, vec![7, 2 * half, first, second]);
        draft.put(7, vec![7, 2 * half + 1, first, second]);
    }
    draft.put(8, vec![8, 0, 0, 0]);
    draft.put(10, vec![10, 0]);
    draft.put(11, vec![11, 0, 1]);
    if salvages {
        draft.put(15, vec![15]);
    }
    Some(draft.text())
}
