//! The areas after a call: every bit is settled, whatever stood there before, and none stands past what is declared.

use second::area::AREA;
use second::compare::sample::sample;
use second::desk::read::read;
use second::library::{ask, Call};
use std::collections::BTreeSet;

/// The areas after the pair (0, 0) is asked, filled so beforehand.
fn areas(call: &Call, fills: [u8; 2]) -> (u8, [Vec<u8>; 2]) {
    let [mut area, mut spare] = fills.map(|fill| vec![fill; AREA]);
    let (number, _) = ask(call, [0, 0], &mut area, &mut spare);
    (number, [area, spare])
}

#[test]
fn whatever_stood_there_before() {
    let kinds = (0..60).flat_map(|seed| ["small", "medium"].map(|kind| sample(kind, seed).expect("a kind")));
    let mut met = BTreeSet::new();
    for input in kinds {
        let file = read(&input).expect("a sound file");
        let call = Call::of(&file.collection, file.allowance());
        let fills = [[0x00, 0x00], [0xFF, 0xFF], [0x5A, 0xA5]];
        let [(number, first), second, third] = fills.map(|fills| areas(&call, fills));
        met.insert(number);
        if matches!(number, 0 | 1 | 3) {
            assert!(second == (number, first.clone()) && third == (number, first.clone()));
            assert_eq!(first[1], [0; AREA]);
        } else {
            for (kept, fills) in [first, second.1, third.1].iter().zip(fills) {
                assert_eq!(*kept, fills.map(|fill| vec![fill; AREA]));
            }
        }
    }
    assert!(met.is_superset(&BTreeSet::from([0, 1, 2, 3])), "{met:?}");
}

/// Every mark of so many names, roles and states: all concepts are name 0, by which a test step leads from each state to each.
fn every_mark(names: u16, roles: u16, states: u16) -> Vec<u8> {
    let concepts = (1..names).chain(64..64 + 2 * roles);
    let steps = (0..states).flat_map(|from| (0..states).flat_map(move |to| [1, from, 0, to]));
    let mut tables: [Vec<u16>; 8] = Default::default();
    tables[0] = concepts.flat_map(|concept| [concept, 0]).collect();
    tables[6] = steps.collect();
    let call = Call { counts: [names, roles, 1, states, 0], tables, allowance: 1 };
    let (number, [area, _]) = areas(&call, [0xFF, 0xFF]);
    assert_eq!(number, 0);
    area
}

#[test]
fn the_most_that_can_be_declared() {
    assert_eq!(every_mark(64, 32, 32), [0xFF; AREA]);
}

#[test]
fn no_bit_past_what_is_declared() {
    // The 128 concepts of a pair of states take 16 bytes: names from byte 0 on, and those of roles from byte 8 on.
    let rows = |first: u8, ninth: u8| {
        let mut row = [0; 16];
        (row[0], row[8]) = (first, ninth);
        row
    };
    for (names, roles, states, row) in [
        (1, 0, 1, rows(0b0000_0001, 0)),
        (3, 1, 3, rows(0b0000_0111, 0b0000_0011)),
        (7, 3, 15, rows(0b0111_1111, 0b0011_1111)),
        (8, 4, 16, rows(0b1111_1111, 0b1111_1111)),
        (8, 4, 31, rows(0b1111_1111, 0b1111_1111)),
    ] {
        for (pair, found) in every_mark(names, roles, states).chunks(16).enumerate() {
            let declared = pair / 32 < states.into() && pair % 32 < states.into();
            assert_eq!(found, if declared { row } else { [0; 16] }, "{names}, {roles}, {states}: {pair}");
        }
    }
}
