//! The benchmark's files measure what they are meant to measure.

use optimised::clashes;
use optimised::copies;
use optimised::desk::desk;
use optimised::lists;
use optimised::make::make;
use optimised::plot::plot;
use optimised::spread;
use optimised::strip::strip;
use std::collections::{BTreeMap, BTreeSet};

/// How often each answer comes, and the rounds.
fn answers(kind: &str, size: Option<usize>) -> (BTreeMap<String, usize>, usize) {
    let file = make(kind, size).expect("a kind");
    let output = String::from_utf8(desk(file)).expect("text");
    let mut numbers = BTreeMap::new();
    let mut rounds = 0;
    let told = output.lines().take_while(|line| line.starts_with("8A")).count();
    for line in output.lines().skip(told) {
        let number = match &line[..2] {
            "8B" => 6,
            "8E" => 4,
            _ => panic!("{kind}: {line}"),
        };
        *numbers.entry(line[number..number + 2].to_string()).or_default() += 1;
        rounds = usize::from_str_radix(&line[number + 2..], 16).expect("a count");
        assert_eq!(told, rounds, "{kind}: {line}");
    }
    (numbers, rounds)
}

fn lines(kind: &str) -> usize {
    make(kind, None).expect("a kind").split(|byte| *byte == b'\n').count() - 1
}

#[test]
fn the_medium_file_has_both_answers() {
    let (numbers, rounds) = answers("medium", None);
    assert!(numbers["00"] > 10 && numbers["01"] > 10 && numbers.len() == 2, "{numbers:?}");
    assert!((1..10).contains(&rounds));
}

#[test]
fn full_files_are_full_and_walked() {
    for kind in ["dense", "layered"] {
        let (numbers, rounds) = answers(kind, None);
        assert!(!numbers.contains_key("02") && !numbers.contains_key("03"), "{kind}: {numbers:?}");
        assert_eq!(numbers.values().sum::<usize>(), 256);
        assert!((1..10).contains(&rounds), "{kind}: {rounds}");
        // Every table at its most, 256 asks and line 1; no allowance.
        assert_eq!(lines(kind), 7_185, "{kind}");
    }
    assert!(answers("layered", None).0.len() == 2);
}

#[test]
fn the_chain_needs_1954_rounds() {
    let (numbers, rounds) = answers("chain", None);
    assert_eq!((numbers.len(), rounds), (2, 1_954));
    assert_eq!(lines("chain"), 7_186);
}

#[test]
fn the_laps_need_3271_rounds_without_a_given_allowance() {
    let (numbers, rounds) = answers("laps", None);
    assert_eq!((numbers.len(), rounds), (2, 3_271));
    assert!(numbers.keys().all(|number| number == "00" || number == "01"), "{numbers:?}");
    assert_eq!(numbers.values().sum::<usize>(), 256);
    // Every table at its most, 256 asks and line 1; no allowance, which is 128 × 16 × 15.
    assert_eq!(lines("laps"), 7_185);
}

/// How many asks of a pair a file has, and how many of one individual.
fn asks(kind: &str) -> [usize; 2] {
    let file = String::from_utf8(make(kind, None).expect("a kind")).expect("text");
    ["0B", "0E"].map(|ask| file.lines().filter(|line| line.starts_with(ask)).count())
}

#[test]
fn the_wide_files_have_32_states_full_tables_and_asks_of_both_kinds() {
    for (kind, least) in [("wide", 5), ("wide-laps", WIDE_LAPS)] {
        let (numbers, rounds) = answers(kind, None);
        assert_eq!((numbers.len(), rounds), (2, least), "{kind}");
        assert!(numbers.keys().all(|number| number == "00" || number == "01"), "{kind}: {numbers:?}");
        let [pairs, ones] = asks(kind);
        assert!(pairs + ones == 256 && pairs > 64 && ones > 64, "{kind}: {pairs}, {ones}");
        // Every table at its most, 256 asks and line 1; no allowance, which is 128 × 32 × 31.
        assert_eq!(lines(kind), 7_713, "{kind}");
        assert_eq!(&make(kind, None).expect("a kind")[8..10], b"20", "{kind}");
    }
}

/// So many rounds the file of laps with 32 states needs.
const WIDE_LAPS: usize = 12_473;

#[test]
fn the_series_are_answered_and_end_where_a_table_ends() {
    for (kind, least, most) in [("facts", 0, 4_096), ("rules", 0, 512), ("states", 1, 32), ("asks", 1, 256)] {
        for size in [least, most / 2, most] {
            let (numbers, _) = answers(kind, Some(size));
            assert!(
                numbers.keys().all(|number| number == "00" || number == "01"),
                "{kind} {size}: {numbers:?}"
            );
        }
        assert!(make(kind, Some(most + 1)).is_none() && make(kind, None).is_none());
    }
    assert!(
        make("states", Some(0)).is_none() && make("dense", Some(1)).is_none() && make("more", None).is_none()
    );
}

#[test]
fn the_plot_has_a_panel_for_each_series_and_a_line_for_each_program() {
    let svg = plot("facts\t1\tdesk\t900\nfacts\t2\tdesk\t1000\nfacts\t1\tsecond\t20000\nasks\t1\tdesk\t5\n");
    let svg = svg.expect("points");
    assert_eq!(svg.matches("font-weight").count(), 2);
    assert_eq!(svg.matches("<polyline").count(), 4);
    assert!(plot("facts\t1\tdesk\n").is_none() && plot("").is_none());
}

#[test]
fn the_spread_is_sound_and_of_its_size() {
    for (size, most) in [("large", 5_001), ("small", 151), ("wide-large", 5_001), ("wide-small", 151)] {
        for (kind, seed) in spread::KINDS.into_iter().flat_map(|kind| [(kind, 1), (kind, 2)]) {
            let file = spread::make(kind, size, seed).expect("a kind and a size");
            let lines = file.split(|byte| *byte == b'\n').count() - 1;
            assert!((most * 4 / 5..=most).contains(&lines), "{kind} {size} {seed}: {lines} lines");
            let states = u8::from_str_radix(std::str::from_utf8(&file[8..10]).expect("text"), 16);
            assert_eq!(states.expect("a number") > 16, size.starts_with("wide"), "{kind} {size} {seed}");
            let output = String::from_utf8(desk(file)).expect("text");
            let numbers = output.lines().filter_map(|line| match &line[..2] {
                "8B" => Some(&line[6..8]),
                "8E" => Some(&line[4..6]),
                "8A" => None,
                _ => panic!("{kind} {size} {seed}: {line}"),
            });
            let numbers: Vec<&str> = numbers.collect();
            let contradicts = kind == "contradictions";
            assert!(!numbers.is_empty() && numbers.iter().all(|number| (*number == "02") == contradicts));
            assert!(numbers.iter().all(|number| *number < "03"), "{kind} {size} {seed}");
        }
    }
    assert!(spread::make("more", "large", 1).is_none() && spread::make("chains", "medium", 1).is_none());
    assert!(spread::make("chains", "small", 1) != spread::make("chains", "small", 2));
}

#[test]
fn the_files_for_the_copyist_are_sound_and_in_their_orders() {
    for kind in copies::KINDS {
        let file = copies::make(kind).expect("a kind");
        assert!(desk(file.clone()).is_empty(), "{kind}: a sound file without an ask has no output");
        let lines: Vec<&[u8]> =
            file.strip_suffix(b"\n").expect("an end").split(|byte| *byte == b'\n').collect();
        let different: BTreeSet<&[u8]> = lines.iter().copied().collect();
        let (rises, falls) = (lines.is_sorted(), lines[1..].is_sorted_by(|one, next| one > next));
        let expected = match kind {
            "expression" => (2, 2, true, true),
            "of-one-record" => (4_097, 2, true, false),
            _ => (4_097, 4_097, kind == "in-order", kind == "from-the-highest"),
        };
        assert_eq!((lines.len(), different.len(), rises, falls), expected, "{kind}");
        // The longest line that there may be.
        assert!(kind != "expression" || lines[1].len() == 130);
    }
    assert!(copies::make("more").is_none());
}

#[test]
fn the_files_with_lists_are_accepted_depart_at_once_or_are_contradictions() {
    for kind in lists::KINDS {
        let file = lists::make(kind).expect("a kind");
        let text = String::from_utf8(file.clone()).expect("text");
        assert_eq!(text.lines().filter(|line| line.starts_with("10")).count(), 131_072, "{kind}");
        let expected = match kind {
            "full" => "8A000000010001F000\n8B00000100000001\n",
            // Line 1, a fact, 127 rules, 992 tests, a final and an ask stand before it.
            "departs" => "8F04640F\n",
            _ => "8B00000200000000\n",
        };
        assert_eq!(String::from_utf8(desk(file)).expect("text"), expected, "{kind}");
    }
    assert!(lists::make("more").is_none());
}

#[test]
fn of_two_facts_that_clash_the_first_is_kept() {
    for kind in clashes::KINDS {
        let file = clashes::make(kind).expect("a kind");
        let text = String::from_utf8(file.clone()).expect("text");
        let facts = text.lines().filter(|line| line.starts_with("06") || line.starts_with("07")).count();
        assert_eq!(facts, 5_120, "{kind}");
        let output = String::from_utf8(desk(file)).expect("text");
        let dropped: Vec<usize> = output
            .lines()
            .filter(|line| line.starts_with("92"))
            .map(|line| usize::from_str_radix(&line[2..], 16).expect("a line"))
            .collect();
        assert!(dropped.is_sorted(), "{kind}");
        assert_eq!(dropped.len(), if kind == "salvage" { 2_560 } else { 0 }, "{kind}");
        assert_eq!(output.ends_with("020000\n"), kind == "contradiction", "{kind}");
        for line in dropped {
            let lines: Vec<&str> = text.lines().take(line).collect();
            let gone = lines[line - 1];
            // The names and roles of two that clash differ in the last bit alone.
            let number = u8::from_str_radix(&gone[2..4], 16).expect("a name or a role") ^ 1;
            let other = format!("{}{number:02X}{}", &gone[..2], &gone[4..]);
            assert!(lines.contains(&&other[..]), "{gone} on line {line}");
        }
    }
    assert!(clashes::make("more").is_none());
}

#[test]
fn the_plot_of_the_spread_has_a_dot_for_each_file_and_a_bar_for_each_kind() {
    let svg = strip("a\tlarge\t30\t10\na\tlarge\t20\t10\na\tsmall\t9\t10\n").expect("files");
    assert_eq!((svg.matches("<circle").count(), svg.matches("stroke-width").count()), (3, 2));
    assert!(strip("a\tlarge\t30\n").is_none() && strip("a\tlarge\t1\t0\n").is_none() && strip("").is_none());
}
