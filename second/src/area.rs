//! An area: a bit for each mark that there can be (docs/RULES.md, section 6). Nothing else knows where a mark stands.

use crate::numbers::{Concept, State, FEW_STATES, MOST_STATES};
use crate::sheet::Mark;

/// The bytes of one area: eight marks in each, of 32 × 32 pairs of states with 128 concepts.
pub const AREA: usize = bytes_for(MOST_STATES as usize);

/// The bytes of an area that was stored while there were at most 16 states.
pub const STORED: usize = bytes_for(FEW_STATES as usize);

const CONCEPTS: usize = 128;

const fn bytes_for(states: usize) -> usize {
    states * states * CONCEPTS / 8
}

/// The byte in which a mark stands, and its bit there, where there are at most so many states.
fn stands(states: u16, mark: Mark) -> (usize, u8) {
    let place = (mark.from.at() * usize::from(states) + mark.to.at()) * CONCEPTS + mark.concept.at();
    (place / 8, 1 << (place % 8))
}

fn with(states: u16, marks: impl IntoIterator<Item = Mark>) -> Vec<u8> {
    let mut area = vec![0; bytes_for(states.into())];
    for mark in marks {
        let (byte, bit) = stands(states, mark);
        area[byte] |= bit;
    }
    area
}

/// The area in which these marks stand and no others.
pub fn holding(marks: impl IntoIterator<Item = Mark>) -> Vec<u8> {
    with(MOST_STATES, marks)
}

/// The same as it was stored while there were at most 16 states.
pub fn stored(marks: impl IntoIterator<Item = Mark>) -> Vec<u8> {
    with(FEW_STATES, marks)
}

/// The marks that stand in an area of at most so many states.
fn marks_in(states: u16, area: &[u8]) -> Vec<Mark> {
    let all = (0..states as u8).map(State);
    let pairs = all.clone().flat_map(|from| all.clone().map(move |to| (from, to)));
    let concepts = (0..CONCEPTS as u8).map(Concept);
    let marks = pairs.flat_map(|(from, to)| concepts.clone().map(move |concept| Mark { from, to, concept }));
    let there = |mark: &Mark| {
        let (byte, bit) = stands(states, *mark);
        area[byte] & bit != 0
    };
    marks.filter(there).collect()
}

/// Moves a stored area to the places of today; 5 where a length is another, and then nothing is written.
pub fn from_16(before: &[u8], area: &mut [u8]) -> u8 {
    if before.len() != STORED || area.len() != AREA {
        return 5;
    }
    area.copy_from_slice(&holding(marks_in(FEW_STATES, before)));
    0
}

/// Moves an area of today to the stored places; 5 where a length is another, then 6 where a state above 15 is marked, and
/// then nothing is written.
pub fn to_16(area: &[u8], after: &mut [u8]) -> u8 {
    if after.len() != STORED || area.len() != AREA {
        return 5;
    }
    if is_past_16(area) {
        return 6;
    }
    after.copy_from_slice(&stored(marks_in(MOST_STATES, area)));
    0
}

/// Whether a state above 15 is marked in an area of today.
pub fn is_past_16(area: &[u8]) -> bool {
    marks_in(MOST_STATES, area).iter().any(|mark| u16::from(mark.from.0.max(mark.to.0)) >= FEW_STATES)
}

/// How many marks stand in an area.
pub fn standing(area: &[u8]) -> usize {
    area.iter().map(|byte| byte.count_ones() as usize).sum()
}

#[cfg(test)]
mod tests {
    use super::*;

    fn mark(from: u8, to: u8, concept: u8) -> Mark {
        Mark { from: State(from), to: State(to), concept: Concept(concept) }
    }

    /// In the order of their places.
    fn all_marks() -> impl Iterator<Item = Mark> {
        let states = 0..MOST_STATES as u8;
        let pairs = states.clone().flat_map(|from| (0..MOST_STATES as u8).map(move |to| (from, to)));
        pairs.flat_map(|(from, to)| (0..128).map(move |concept| mark(from, to, concept)))
    }

    /// The bytes of an area that are not 0.
    fn bytes(area: &[u8]) -> Vec<(usize, u8)> {
        area.iter().copied().enumerate().filter(|(_, byte)| *byte != 0).collect()
    }

    #[test]
    fn places_worked_by_hand() {
        let places = [
            (mark(0, 0, 0), 0, 0b0000_0001),
            (mark(0, 0, 1), 0, 0b0000_0010),
            (mark(0, 0, 7), 0, 0b1000_0000),
            (mark(0, 0, 8), 1, 0b0000_0001),
            (mark(0, 0, 127), 15, 0b1000_0000),
            (mark(0, 1, 0), 16, 0b0000_0001),
            (mark(0, 31, 127), 511, 0b1000_0000),
            (mark(1, 0, 0), 512, 0b0000_0001),
            // 2 × 4,096 + 3 × 128 + 69 = 8,645, which is 1,080 × 8 + 5
            (mark(2, 3, 69), 1_080, 0b0010_0000),
            (mark(31, 0, 0), 15_872, 0b0000_0001),
            (mark(31, 31, 127), 16_383, 0b1000_0000),
        ];
        for (mark, byte, bit) in places {
            assert_eq!(bytes(&holding([mark])), [(byte, bit)], "{mark:?}");
        }
        let before = [
            (mark(0, 0, 0), 0, 0b0000_0001),
            (mark(0, 15, 127), 255, 0b1000_0000),
            (mark(1, 0, 0), 256, 0b0000_0001),
            // 2 × 2,048 + 3 × 128 + 69 = 4,549, which is 568 × 8 + 5
            (mark(2, 3, 69), 568, 0b0010_0000),
            (mark(15, 15, 127), 4_095, 0b1000_0000),
        ];
        for (mark, byte, bit) in before {
            assert_eq!(bytes(&stored([mark])), [(byte, bit)], "{mark:?}");
        }
    }

    #[test]
    fn a_mark_is_moved_and_moved_back() {
        // So many apart that each state and each concept is met.
        for mark in all_marks().step_by(97) {
            let (mut area, mut back) = (vec![0xAA; AREA], vec![0xAA; STORED]);
            let few = mark.from.0 < 16 && mark.to.0 < 16;
            assert_eq!(to_16(&holding([mark]), &mut back), if few { 0 } else { 6 });
            if few {
                assert_eq!(back, stored([mark]), "{mark:?}");
                assert_eq!(from_16(&back, &mut area), 0);
                assert_eq!(area, holding([mark]), "{mark:?}");
            } else {
                assert_eq!(back, [0xAA; STORED]);
            }
        }
    }

    #[test]
    fn whole_areas_are_moved() {
        let (mut area, mut back) = (vec![0; AREA], vec![0; STORED]);
        assert_eq!(from_16(&[0xFF; STORED], &mut area), 0);
        assert_eq!(standing(&area), 8 * STORED);
        assert_eq!(to_16(&area, &mut back), 0);
        assert_eq!(back, [0xFF; STORED]);
        assert_eq!(from_16(&[0; STORED], &mut area), 0);
        assert_eq!(area, [0; AREA]);
    }

    #[test]
    fn areas_of_another_length_are_not_moved() {
        for (before, today) in
            [(STORED - 1, AREA), (STORED + 1, AREA), (STORED, AREA - 1), (STORED, AREA + 1), (0, 0)]
                .into_iter()
                .chain([(STORED, STORED), (AREA, AREA), (AREA, STORED)])
        {
            // A state above 15 is marked too: the lengths come first.
            let (mut area, mut back) = (vec![0xFF; today], vec![0xAA; before]);
            assert_eq!(to_16(&area, &mut back), 5);
            assert_eq!(from_16(&back, &mut area), 5);
            assert!(area == vec![0xFF; today] && back == vec![0xAA; before]);
        }
    }

    #[test]
    fn each_bit_is_one_marks() {
        for (place, mark) in all_marks().enumerate() {
            let area = holding([mark]);
            assert_eq!(area.len(), AREA);
            assert_eq!(bytes(&area), [(place / 8, 1 << (place % 8))], "{mark:?}");
        }
        assert_eq!(holding(all_marks()), [0xFF; AREA]);
        assert_eq!(holding([]), [0; AREA]);
    }

    #[test]
    fn a_mark_more_leaves_its_neighbours() {
        // Every third mark, thrice: each time the marks that stand are those, and the three are all there are.
        let thirds = [0, 1, 2].map(|first| holding(all_marks().skip(first).step_by(3)));
        assert_eq!(thirds.each_ref().map(|area| standing(area)), [43_691, 43_691, 43_690]);
        let [first, second, third] = thirds;
        let all =
            first.iter().zip(&second).zip(&third).map(|((first, second), third)| first | second | third);
        assert!(all.eq([0xFF; AREA]));
    }
}
