//! A row of pairs, or of both kinds of ask, is what asking each does, one after the other with the same two areas.

use second::area::AREA;
use second::ask::Ask;
use second::compare::sample::sample;
use second::desk::read::read;
use second::library::{ask, ask_all, ask_from, ask_row, Call, PAIRS};
use std::collections::BTreeSet;

/// Sound collections, each with an undeclared pair before its asks, after them and in the middle.
fn rows() -> impl Iterator<Item = (Call, Vec<[u16; 2]>)> {
    let files = (0..120).flat_map(|seed| ["small", "medium"].map(|kind| sample(kind, seed).expect("a kind")));
    files.map(|input| {
        let file = read(&input).expect("a sound file");
        let pair = |ask: &Ask| match *ask {
            Ask::Pair(a, b) => Some([a.0.into(), b.0.into()]),
            Ask::From(_) => None,
        };
        let mut row: Vec<[u16; 2]> = file.asks.iter().filter_map(pair).collect();
        let individuals = u16::from(file.collection.counts.individuals);
        row.insert(row.len() / 2, [individuals, 0]);
        row.insert(0, [0, u16::MAX]);
        row.push([u16::MAX, individuals]);
        (Call::of(&file.collection, file.allowance()), row)
    })
}

fn areas() -> [Vec<u8>; 2] {
    [vec![0x5A; AREA], vec![0xA5; AREA]]
}

#[test]
fn a_row_is_its_pairs_in_turn() {
    let mut met = BTreeSet::new();
    for (call, row) in rows() {
        let ([mut area, mut spare], [mut other, mut other_spare]) = (areas(), areas());
        let in_turn: Vec<_> = row.iter().map(|pair| ask(&call, *pair, &mut area, &mut spare)).collect();
        let entries = [row.len(); 2];
        let at_once = ask_all(&call, &row.concat(), entries, &mut other, &mut other_spare);
        assert_eq!(at_once, Some(in_turn.clone()));
        assert!(area == other && spare == other_spare);
        met.extend(in_turn.iter().map(|answer| answer.0));
    }
    assert_eq!(met, BTreeSet::from([0, 1, 2, 3, 8]));
}

#[test]
fn a_row_of_both_kinds_is_its_asks_in_turn() {
    for (call, row) in rows() {
        let ([mut area, mut spare], [mut other, mut other_spare]) = (areas(), areas());
        let asks = row.iter().enumerate().map(|(k, pair)| [(k % 2) as u16, pair[0], pair[1]]);
        let mut asks: Vec<[u16; 3]> = asks.collect();
        let one = |&[kind, first, second]: &[u16; 3]| match kind {
            0 => ask(&call, [first, second], &mut area, &mut spare),
            _ => ask_from(&call, first, &mut area, &mut spare),
        };
        let in_turn: Vec<_> = asks.iter().map(one).collect();
        let entries = [asks.len(); 2];
        let at_once = ask_row(&call, &asks.concat(), entries, &mut other, &mut other_spare);
        assert_eq!(at_once, Ok(in_turn));
        assert!(area == other && spare == other_spare);
        // Of another kind: the lengths are looked at first.
        let [mut area, mut spare] = areas();
        asks.last_mut().expect("an ask")[0] = 2;
        assert_eq!(ask_row(&call, &asks.concat(), entries, &mut area, &mut spare), Err(6));
        assert_eq!(ask_row(&call, &asks.concat(), [asks.len(), 0], &mut area, &mut spare), Err(5));
        assert_eq!([area, spare], areas());
    }
}

#[test]
fn lengths_that_do_not_fit() {
    let (call, _) = rows().next().expect("a row");
    let [mut area, mut spare] = areas();
    let mut fits = |pairs: usize, entries| {
        let answers = ask_all(&call, &vec![u16::MAX; pairs], entries, &mut area, &mut spare);
        answers.map(|answers| answers == vec![(8, 0); pairs / 2])
    };
    for length in [0, 1, 2, PAIRS] {
        assert_eq!(fits(2 * length, [length; 2]), Some(true));
        assert_eq!(fits(2 * length + 1, [length; 2]), None);
        assert_eq!(fits(2 * length, [length + 1, length]), None);
        assert_eq!(fits(2 * length, [length, length + 1]), None);
    }
    assert_eq!(fits(2 * PAIRS + 2, [PAIRS + 1; 2]), None);
    assert_eq!([area, spare], areas());
}
