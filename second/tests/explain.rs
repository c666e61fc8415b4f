//! What `explain` says of worked cases and of faulty files.

use second::explain::{Explanation, MOST_STEPS};
use second::print;

fn explained(words: &str) -> String {
    let input: String = words.split(' ').map(|line| format!("{line}\n")).collect();
    match Explanation::of(input.as_bytes(), MOST_STEPS) {
        Ok(explained) => print::explanation(&explained),
        Err(faulty) => print::faulty(&faulty),
    }
}

const B: &str = "010202020400 020040 024101 060000 08000001 09010102 08020103 0A03";

#[track_caller]
fn says(text: &str, parts: &[&str]) {
    for part in parts {
        assert!(text.contains(part), "{part:?} is not in\n{text}");
    }
}

#[test]
fn case_1_with_its_path() {
    let text = explained(&format!("{B} 0B0000 0B0001"));
    says(&text, &["A0 ≤ ∃r0 (line 2)", "i0 has ∃r0: typed on line 4; A0 ≤ ∃r0 (line 2)"]);
    says(&text, &["Round 1: 2 added, 26 marks", "Round 2: 2 added, 28 marks", "Rounds needed: 2."]);
    says(&text, &["  the desk writes 8A00010002\nRound 2", "  the desk writes 8A00020002\nRounds needed"]);
    says(&text, &["(q1, q2, ∃r0⁻) rule 1: test q1 –A1?→ q2 (line 6), ∃r0⁻ ≤ A1"]);
    says(&text, &["(q0, q3, A0) rule 3: R = r0, A0 ≤ ∃r0; down q0 –r0→ q1 (line 5)", "below (q1, q2, ∃r0⁻)"]);
    says(&text, &["(i0, q0)\n  (i0·r0, q1)", "(i0·r0, q2)  by the test A1?", "(i0, q3)  up by q2 –r0⁻→ q3"]);
    says(&text, &["(i0, i1): 8B0001000002, no, 2 rounds", "the walk reaches i0 in q0, q3"]);
}

#[test]
fn one_individual_with_its_path() {
    // The path ends at the deed, and there is no way on from there.
    let deed = B.replace("0A03", "0A02");
    let text = explained(&format!("{deed} 0E00 0E01"));
    says(
        &text,
        &["i0 to any element: 8E00010002, yes, 2 rounds", "(i0·r0, q1)  down by q0 –r0→ q1 (line 5)"],
    );
    says(
        &text,
        &["(i0·r0, q2)  by the test A1? (line 6); rests on deed none noted, line 4\nLine 10: i1 to any element: 8E01000002, no, 2 rounds"],
    );
    says(&text, &["from (i1, q0) paths come to i1 in q0\n  and below the individuals nowhere"]);
    // A state that nothing leads to is final.
    let text = explained(&format!("{} 0E00", B.replace("08020103 ", "")));
    says(&text, &["paths come to i0 in q0\n  and below the individuals to rows that end in r0 in q1, q2"]);
}

#[test]
fn case_4_with_its_clash() {
    let text = explained(&format!("{B} 030141 0B0000"));
    says(&text, &["i0·r0 has A1 and ∃r0⁻, which line 9 excludes.", "∃r0⁻ ≤ A1 (line 3)"]);
}

#[test]
fn case_6_and_7_with_their_clashes() {
    let text = explained(&format!("{B} 040002 050002 0B0000"));
    says(&text, &["the pair (i0, i0·r0) has r0 and r1, which line 10 excludes.", "r0 ≤ r1 (line 9)"]);
    let text = explained("010202020400 07010001 07010100 050203 0B0000");
    says(&text, &["the pair (i0, i1) has r1 and r1⁻, which line 4 excludes."]);
}

#[test]
fn case_13_and_15_an_edge_to_itself() {
    let text = explained("010202020300 07010000 07000001 08000201 08010002 0A02 0B0001");
    says(
        &text,
        &[
            "(i0, q0)\n  (i0, q1)  by q0 –r1→ q1",
            "along the fact on line 2; rests on deed none noted, line 2\n  (i1, q2)",
        ],
    );
    let text = explained("010202020300 050203 07010000 07000001 08000201 08010002 0A02 0B0001");
    says(&text, &["the pair (i0, i0) has r1 and r1⁻, which line 2 excludes."]);
    says(&text, &["they have r1⁻: line 3 joins it to itself by r1⁻"]);
}

#[test]
fn a_spent_allowance() {
    let text = explained(&format!("{B} 0C0001 0B0000"));
    says(
        &text,
        &["the allowance of 1 is below the 2 rounds needed", "The allowance is spent here: 1 round."],
    );
    says(&text, &["  the desk writes 8A00010002\nThe allowance is spent here"]);
    assert_eq!(text.matches("the desk writes 8A").count(), 1);
    assert!(
        !explained(&format!("{B} 0C0001")).contains("the desk writes 8A"),
        "nothing is written without an ask"
    );
}

#[test]
fn where_the_allowance_comes_from() {
    says(&explained(&format!("{B} 0C0002 0B0000")), &["Rounds needed: 2. Allowance: 2 (given)."]);
    let most = "Allowance: 72 (none is given: 6 concepts × 4 states × 3).";
    says(&explained(&format!("{B} 0B0000")), &[most]);
    says(&explained("010101010100 0B0000"), &["Allowance: 0 (none is given: 3 concepts × 1 states × 0)."]);
}

#[test]
fn a_long_path_is_cut() {
    // Down 15 times and up 15 times: 30 steps, of which 10 are to be shown.
    let mut words = String::from("010101011000 020040 024140 060000 0A0F 080F010F");
    for state in 0..15 {
        words += &format!(" 08{state:02X}00{:02X}", state + 1);
    }
    let input: String = (words + " 0B0000").split(' ').map(|line| format!("{line}\n")).collect();
    let explained = Explanation::of(input.as_bytes(), 10).ok().expect("a sound file");
    let text = print::explanation(&explained);
    says(&text, &["… and 20 steps more"]);
}

/// The list of a collection of one name and two states, in which a test of the name leads from 0 to 1.
const LIST: [&str; 3] = ["1000000000000000", "1000000000010100", "1000000001000100"];

#[test]
fn lists_in_words() {
    let with = |list: &[&str]| explained(&format!("010100010200 060000 09000001 {}", list.join(" ")));
    says(&with(&LIST), &["  a list of 3 entries (lines 4 to 6): it is the sheet"]);
    let next = |line: u16, mark: &str, round: u16| {
        let what = format!("next is {mark}, which first stands in round {round}.");
        format!("  8F{line:04X}0F\n\nLine {line}, number 15: the list is not the sheet: {what}")
    };
    says(&with(&LIST[1..]), &[&next(4, "(q0, q0, A0)", 0), "The line reads: \"1000000000010100\""]);
    let short = with(&LIST[..2]);
    says(&short, &[&next(6, "(q0, q1, A0)", 1)]);
    assert!(!short.contains("The line reads"));
    says(
        &with(&[LIST[0], LIST[1], LIST[2], LIST[2]]),
        &["Line 7, number 15: the list is not the sheet, which has no further mark."],
    );
    let clash = explained(&format!("010100010200 060000 030000 {}", LIST[2]));
    says(&clash, &["  a list of 1 entries (lines 4 to 4): it is not looked at"]);
}

#[test]
fn faults_in_words() {
    says(&explained("010202020400 07000202"), &["8F000206", "Line 2, number 6: not declared: individual 2"]);
    says(&explained("010202020400 0B0002"), &["Line 2, number 8: not declared: individual 2"]);
    says(&explained("010202020400 0E02"), &["Line 2, number 8: not declared: individual 2"]);
    let short = "number 10: an ask of one individual has 1 bytes after its kind; here there are 2";
    says(&explained("010202020400 0E0000"), &[short]);
    says(&explained("410202020400"), &["number 10: no frame has the kind 41"]);
    says(&explained("010202020400 0A"), &["number 10: a final has 1 bytes after its kind; here there are 0"]);
    says(&explained("014102020400"), &["number 4: 65 names are declared; 64 is the most"]);
    says(&explained("010202022100"), &["number 4: 33 states are declared; there are 1 to 32"]);
    let long = |kind: &str, characters: usize| {
        explained(&format!("010202020400 {kind}{}", "0".repeat(characters - 2)))
    };
    says(&long("02", 66), &["number 9: the line has 66 characters; 64 is the most"]);
    says(&long("0D", 132), &["number 9: the line has 132 characters; 130 is the most"]);
    let length = "number 10: the allowance has 2 or 4 bytes after its kind; here there are 3";
    says(&explained("010202020400 0C000000"), &[length]);
    says(&explained("010202020404"), &["number 4: the start state 4 is not below the 4 states"]);
    says(&explained("010202020400 0C0001 0C0001"), &["Line 3, number 11: a second frame 0C"]);
    says(&explained("0c0001"), &["Line 1, number 9: character 2 is byte 63"]);
    let behind = "Line 3, number 11: another frame after a frame 10; the list ends the file";
    says(&explained("010101010200 1000000000000000 0B0000"), &[behind]);
    let entry = "number 10: an entry of the list has 7 bytes after its kind; here there are 1";
    says(&explained("010202020400 1000"), &[entry]);
    says(
        &explained("010101010200 1000000000020042"),
        &["state 2 (2 are declared), basic concept 66: signed role 2"],
    );
    let full = "010000010100".to_string() + &" 0A00".repeat(33);
    says(&explained(&full), &["number 5: one frame too many: there are already 32 finals"]);
    let Err(empty) = Explanation::of(b"", MOST_STEPS) else { panic!("an empty input is faulty") };
    says(&print::faulty(&empty), &["8F00010B", "the input is empty"]);
}
