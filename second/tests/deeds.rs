//! Deed numbers: frames of both lengths, tables with them, and that nothing depends on them but what `explain` names.

use second::area::AREA;
use second::desk::desk;
use second::desk::read::read;
use second::explain::{Explanation, MOST_STEPS};
use second::library::{ask, ask_all, ask_from, marks, Call};
use second::numbers::Deed;
use second::print;

const B: &str = "010202020400 020040 024101 060000 08000001 09010102 08020103 0A03 0B0000 0B0001";

/// Case with facts, all but one by deeds: Owner(0) by 4,711 on line 7, signs(0, 1) by 17 on line 8, signs(2, 1) on line 9.
const FACTS: &str = "010202030600 020040 024101 020143 030001 050002 0600001267 070000010011 07000201 \
                     08000001 09010102 08020303 08030204 08040105 0A05 0B0002 0B0000";

fn lines(words: &str) -> Vec<u8> {
    words.split(' ').map(|line| format!("{line}\n")).collect::<String>().into_bytes()
}

fn out(words: &str) -> String {
    String::from_utf8(desk(&lines(words))).expect("text")
}

fn deeds(words: &str) -> Vec<u16> {
    let file = read(&lines(words)).expect("a sound file");
    file.collection.deeds().map(|deed| deed.0).collect()
}

#[track_caller]
fn explains(words: &str, parts: &[&str]) {
    let Ok(explained) = Explanation::of(&lines(words), MOST_STEPS) else { panic!("a sound file") };
    let text = print::explanation(&explained);
    for part in parts {
        assert!(text.contains(part), "{part:?} is not in\n{text}");
    }
}

#[test]
fn the_high_byte_comes_first_and_a_short_frame_is_read_as_0() {
    let counts = "010202020400";
    assert_eq!(deeds(&format!("{counts} 0600001267 060000 0600000000 060000FFFF")), [4_711, 0, 0, 65_535]);
    assert_eq!(deeds(&format!("{counts} 070000010011 07000001 070101000100")), [17, 0, 256]);
    // Those of names come first, in their order.
    assert_eq!(deeds(&format!("{counts} 070000010011 0600001267")), [4_711, 17]);
    assert_eq!(Deed::NONE_NOTED, Deed(0));
}

#[test]
fn every_other_length_is_10() {
    for bytes in 0..31 {
        let fields = "00".repeat(bytes);
        let sound = |kind: &str, lengths: [usize; 2]| {
            let expected = if lengths.contains(&bytes) { "" } else { "8F00020A\n" };
            assert_eq!(out(&format!("010202020400 {kind}{fields}")), expected, "{kind} of {bytes} bytes");
        };
        sound("06", [2, 4]);
        sound("07", [3, 5]);
    }
}

#[test]
fn what_is_refused_is_refused_by_any_deed() {
    for deed in ["", "0000", "0001", "FFFF"] {
        for fact in ["060200", "060002", "07020001", "07000201", "07000002"] {
            assert_eq!(out(&format!("010202020400 {fact}{deed}")), "8F000206\n", "{fact}{deed}");
        }
        assert_eq!(out(&format!("060000{deed}")), "8F00010B\n");
        // A full table, with facts that mean one thing, and one more.
        let full: String = (1..=1_024).map(|deed| format!(" 060000{deed:04X}")).collect();
        assert_eq!(out(&format!("010202020400{full} 060000{deed}")), "8F040205\n");
    }
}

#[test]
fn no_output_depends_on_them() {
    let without = FACTS.replace("1267", "").replace("070000010011", "07000001");
    assert_eq!(out(FACTS), out(&without));
    assert_eq!(out(&FACTS.replace("1267", "FFFF").replace("07000201", "070002010001")), out(&without));
    let clash = |words: &str| out(&format!("{words} 030040"));
    assert_eq!(clash(FACTS), "8B0002020000\n8B0000020000\n");
    assert_eq!(clash(FACTS), clash(&without));
}

/// The same tables by other deeds have the same answers, counts and areas, refused or not.
#[test]
fn no_call_depends_on_them() {
    let file = read(&lines(FACTS)).expect("a sound file");
    for (damage, number) in [(0, 1), (1, 6), (2, 5), (3, 3), (4, 2), (5, 8), (6, 4)] {
        let mut call = Call::of(&file.collection, 64);
        let mut second = 2;
        match damage {
            1 => call.tables[4][1] = 3,
            2 => call.tables[5].truncate(5),
            3 => call.allowance = 2,
            4 => call.tables[1].extend([0, 64]),
            5 => second = 3,
            6 => call.counts[3] = 33,
            _ => {}
        }
        let mut other = call.clone();
        other.tables[4][2] = 65_535;
        other.tables[5][3] = 0;
        let outcomes = [call, other].map(|call| {
            let [(mut area, mut spare), (mut row, mut row_spare), (mut one, mut one_spare), (mut made, mut made_spare)] =
                [0; 4].map(|_| (vec![0x5A; AREA], vec![0xA5; AREA]));
            let pair = ask(&call, [0, second], &mut area, &mut spare);
            assert_eq!(pair.0, number);
            let all = ask_all(&call, &[0, second, 0, 0], [2, 2], &mut row, &mut row_spare);
            let from = ask_from(&call, second, &mut one, &mut one_spare);
            let told = marks(&call, 64, &mut made, &mut made_spare);
            (pair, all, from, told, [area, spare, row, row_spare, one, one_spare, made, made_spare])
        });
        assert!(outcomes[0] == outcomes[1], "number {number}");
    }
}

#[test]
fn the_widths_are_3_and_4() {
    let file = read(&lines(FACTS)).expect("a sound file");
    let call = Call::of(&file.collection, 64);
    assert_eq!(call.tables[4], [0, 0, 4_711]);
    assert_eq!(call.tables[5], [0, 0, 1, 17, 0, 2, 1, 0]);
    let number = |table: usize, numbers: usize| {
        let mut call = call.clone();
        call.tables[table] = vec![0; numbers];
        ask(&call, [0, 2], &mut vec![0; AREA], &mut vec![0; AREA]).0
    };
    for (table, width, most) in [(4, 3, 1_024), (5, 4, 4_096)] {
        assert!((1..width).all(|more| number(table, width + more) == 5));
        assert!(number(table, width * most) < 4);
        assert_eq!(number(table, width * (most + 1)), 5);
    }
}

#[test]
fn a_step_names_the_fact_it_rests_on() {
    // Down from 0 by the shortest reason, the typed role fact; and at the deed below it.
    explains(
        FACTS,
        &[
            "(i1, q1)  by q0 –r0→ q1 (line 10) along the fact on line 8; rests on deed 17, line 8",
            "(i2, q5)  by q4 –r0⁻→ q5 (line 14) along the fact on line 9; rests on deed none noted, line 9",
        ],
    );
    // A test at an individual rests on the fact that gives it the name, and unnamed elements on what promises the first of them.
    let tested = B
        .replace("060000", "0600001267")
        .replace("08000001", "09000001 08010002")
        .replace("010202020400", "010202020500");
    let tested = tested.replace("09010102 08020103 0A03", "09020103 08030104 0A04");
    explains(
        &tested,
        &[
            "(i0, q1)  by the test A0? (line 5); rests on deed 4,711, line 4",
            "(i0·r0, q2)  down by q1 –r0→ q2 (line 6); rests on deed 4,711, line 4",
            "(i0·r0, q3)  by the test A1? (line 7); rests on deed 4,711, line 4",
            "(i0, q4)  up by q3 –r0⁻→ q4 (line 8); rests on deed 4,711, line 4",
        ],
    );
    explains(B, &["(i0·r0, q1)  down by q0 –r0→ q1 (line 5); rests on deed none noted, line 4"]);
}

#[test]
fn the_fact_at_the_individual_two_deep() {
    // Owner ≤ ∃signs, and each deed promises a further one: all that is below 0 rests on its fact, and what is below 1 on its own.
    let deep = "010101020500 020040 024140 0600001267 060001FFFF 08000001 08010002 0A02 0E00 0E01";
    explains(
        deep,
        &[
            "(i0·r0·r0, q2)  down by q1 –r0→ q2 (line 7); rests on deed 4,711, line 4",
            "(i1·r0·r0, q2)  down by q1 –r0→ q2 (line 7); rests on deed 65,535, line 5",
        ],
    );
}

#[test]
fn a_side_of_a_clash_names_its_fact() {
    explains(
        &format!("{FACTS} 030040"),
        &[
            "i0 has A0: typed on line 7; rests on deed 4,711, line 7",
            "i0 has ∃r0: line 8 joins it by r0 to i1; rests on deed 17, line 8",
        ],
    );
    explains(
        "010002020100 050203 070100010001 07010100 0B0000",
        &[
            "they have r1: line 3 joins them by r1; rests on deed 1, line 3",
            "they have r1⁻: line 4 joins them by r1⁻; rests on deed none noted, line 4",
        ],
    );
    // On an unnamed deed, and between it and its owner: both sides rest on the fact that makes the owner.
    let clash = format!("{} 030141", B.replace("060000", "0600001000"));
    let owner = "; rests on deed 4,096, line 4";
    explains(
        &clash,
        &[&format!("i0·r0 has A1: the last role of its row gives it ∃r0⁻; ∃r0⁻ ≤ A1 (line 3){owner}")],
    );
    let clash = format!("{} 040002 050002", B.replace("060000", "060000000A"));
    explains(&clash, &["they have r1: they are parent and child, joined by r0; r0 ≤ r1 (line 11); rests on deed 10, line 4"]);
}

#[test]
fn of_facts_that_mean_one_thing_one_by_a_deed_is_named() {
    let three = B.replace("060000", "060000 0600001267 0600000011");
    explains(&three, &["(i0·r0, q1)  down by q0 –r0→ q1 (line 7); rests on deed 4,711, line 5"]);
    let joined = "010001020200 07000001 070000010011 08000001 0A01 0B0001";
    explains(
        joined,
        &["(i1, q1)  by q0 –r0→ q1 (line 4) along the fact on line 3; rests on deed 17, line 3"],
    );
}

#[test]
fn the_wrong_length_in_words() {
    let Err(faulty) = Explanation::of(&lines("010202020400 06000012"), MOST_STEPS) else {
        panic!("it is faulty")
    };
    let text = print::faulty(&faulty);
    assert!(
        text.contains(
            "a concept fact has 2, or 4 with a deed number, bytes after its kind; here there are 3"
        ),
        "{text}"
    );
}
