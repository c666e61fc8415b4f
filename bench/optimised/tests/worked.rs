//! Cases 1 to 16 (cases/README.md), asked of the optimised desk.

use optimised::desk::{desk, marks};

/// Base collection B without its asks.
const B: &str = "010202020400 020040 024101 060000 08000001 09010102 08020103 0A03";

/// Case 10 without its asks.
const TEN: &str = "010102020300 020040 020042 060000 08000001 08010302 0A02";

fn lines(words: &str) -> Vec<u8> {
    words.split(' ').map(|line| format!("{line}\n")).collect::<String>().into_bytes()
}

fn output(words: &str) -> String {
    String::from_utf8(desk(lines(words))).expect("text")
}

/// One ask added, and what comes back for it, after the marks that each round added.
fn asked(words: &str, (first, second): (u8, u8), (number, count): (u8, u16), added: &[u16]) {
    let rounds = added.iter().enumerate();
    let rounds: String = rounds.map(|(before, added)| format!("8A{:04X}{added:04X}\n", before + 1)).collect();
    let line = format!("{rounds}8B{first:02X}{second:02X}{number:02X}{count:04X}\n");
    assert_eq!(output(&format!("{words} 0B{first:02X}{second:02X}")), line);
}

/// Likewise of one individual.
fn from(words: &str, first: u8, number: u8, count: u16) {
    let line = format!("8E{first:02X}{number:02X}{count:04X}\n");
    let output = output(&format!("{words} 0E{first:02X}"));
    assert!(output.ends_with(&line), "{output}");
}

#[test]
fn the_whole_worked_input() {
    assert_eq!(output(&format!("{B} 0B0000 0B0001")), "8A00010002\n8A00020002\n8B0000010002\n8B0001000002\n");
}

#[test]
fn case_1_yes_and_28_marks() {
    asked(B, (0, 0), (1, 2), &[2, 2]);
    assert_eq!(marks(lines(B)), Some(28));
}

#[test]
fn case_2_no() {
    asked(B, (0, 1), (0, 2), &[2, 2]);
}

#[test]
fn case_3_allowance_1() {
    asked(&format!("{B} 0C0001"), (0, 0), (3, 1), &[2]);
    asked(&format!("{B} 0C0000"), (0, 0), (3, 0), &[]);
    asked(&format!("{B} 0C0002"), (0, 0), (1, 2), &[2, 2]);
}

#[test]
fn case_4_contradiction_on_an_unnamed_deed() {
    asked(&format!("{B} 030141"), (0, 0), (2, 0), &[]);
}

#[test]
fn case_5_without_the_owner() {
    asked(&format!("{B} 030141").replace(" 060000", ""), (0, 0), (0, 2), &[2, 2]);
}

#[test]
fn case_6_roles_excluded_below_an_owner() {
    asked(&format!("{B} 040002 050002"), (0, 0), (2, 0), &[]);
}

#[test]
fn case_7_holds_both_ways() {
    asked("010202020400 07010001 07010100 050203", (0, 0), (2, 0), &[]);
}

#[test]
fn salvage_names_the_facts_that_clash() {
    // Owner excludes Deed, and what 0 signs is a deed.
    let clashing = "010202020400 020040 024101 030001 0F 060000 060100 07000001 060001";
    let question = "08000001 09010102 08020103 0A03";
    let answers = "920007\n920009\n8A00010002\n8A00020002\n8B0000010002\n";
    assert_eq!(output(&format!("{clashing} {question} 0B0000")), answers);
    assert_eq!(output(&format!("{clashing} {question}")), "920007\n920009\n");
    assert_eq!(output(&format!("{clashing} {question} 0B0000").replace(" 0F", "")), "8B0000020000\n");
    assert_eq!(output(&format!("{clashing} 0F")), "8F000A0B\n");
    assert_eq!(output(&format!("{clashing} 0F00")), "8F000A0A\n");
    assert_eq!(output("0F"), "8F00010B\n");
    // To itself by a role that excludes its inverse; then a pair there and back; then an unnamed child that nobody may be.
    let roles = "010102030100 0F 050001 034242 020041 07000000 07000001 07000100 060002 07010001";
    assert_eq!(output(roles), "920006\n920008\n92000A\n");
    // A list is held against the sheet, whatever the facts are.
    let listed = "010100010100 030000 060000 0F 1000000000000000";
    assert_eq!(output(listed), "920003\n");
    assert_eq!(output(&listed.replace("1000000000000000", "1000000001000000")), "8F00050F\n");
}

#[test]
fn case_8_start_state_final() {
    asked("010202020400 0A00", (0, 0), (1, 0), &[]);
    asked("010202020400 0A00", (0, 1), (0, 0), &[]);
}

#[test]
fn case_9_signs_twice_and_back() {
    asked(
        "010102020500 020040 024140 060000 08000001 08010002 08020103 08030104 0A04",
        (0, 0),
        (1, 2),
        &[3, 3],
    );
}

#[test]
fn case_10_two_promises_are_two_neighbours() {
    asked(TEN, (0, 0), (0, 0), &[]);
}

#[test]
fn case_11_one_neighbour_by_a_third_role() {
    let eleven = TEN.replace("010102020300", "010103020300") + " 020044 040400 040402";
    asked(&eleven, (0, 0), (1, 1), &[2]);
}

#[test]
fn asks_of_one_individual() {
    // B with the deed's state final: the path ends there.
    let deed = B.replace("0A03", "0A02");
    from(&deed, 0, 1, 2);
    from(&deed, 1, 0, 2);
    asked(&deed, (0, 0), (0, 2), &[2, 2]);
    from(B, 0, 1, 2);
    from(&format!("{B} 0C0001"), 0, 3, 1);
    from(&format!("{B} 030141"), 1, 2, 0);
    // Seven deep; below another individual; a loop on the way down.
    let steps: Vec<String> = (0..7).map(|state| format!("08{state:02X}00{:02X}", state + 1)).collect();
    let down = format!("010101010800 020040 024140 060000 {} 0A07", steps.join(" "));
    from(&down, 0, 1, 0);
    from(&down.replace(" 024140", ""), 0, 0, 0);
    from("010102020300 020040 060001 07010001 08000201 08010002 0A02", 0, 1, 0);
    from("010102010500 020040 024142 024140 060000 08000001 08010202 08020303 08030004 0A04", 0, 1, 1);
    assert_eq!(output("010202020400 0E02"), "8F000208\n");
    assert_eq!(output("010202020400 0E0000"), "8F00020A\n");
    let full = "010000010100".to_string() + &" 0B0000 0E00".repeat(128);
    assert_eq!(output(&(full.clone() + " 0EFF")), "8F010205\n");
    assert_eq!(output(&(full + " 0B0000")), "8F010205\n");
}

#[test]
fn counts_are_wide_where_more_than_16_states_are_declared() {
    let wide = |states: &str| B.replace("010202020400", &format!("01020202{states}00"));
    let narrow = "8A00010002\n8A00020002\n8B0000010002\n8E00010002\n";
    assert_eq!(output(&format!("{} 0B0000 0E00", wide("10"))), narrow);
    for states in ["11", "20"] {
        let whole = "8A0000000100000002\n8A0000000200000002\n8B00000100000002\n8E000100000002\n";
        assert_eq!(output(&format!("{} 0B0000 0E00", wide(states))), whole);
        let spent = "8A0000000100000002\n8B00000300000001\n8E000300000001\n";
        assert_eq!(output(&format!("{} 0C0001 0B0000 0E00", wide(states))), spent);
        let against = "8B00000200000000\n8E000200000000\n";
        assert_eq!(output(&format!("{} 030141 0B0000 0E00", wide(states))), against);
        // A fault has no count.
        assert_eq!(output(&format!("{} 0B0002", wide(states))), "8F000908\n");
    }
    assert_eq!(output(&format!("{} 0B0000", wide("21"))), "8F000104\n");
    assert_eq!(output("010202022020"), "8F000104\n");
    assert_eq!(output("01020202201F 0A1F 0E01"), "8E010100000000\n");
}

/// Base collection B with its states numbered otherwise, the start among them.
fn renumbered(states: [u8; 4]) -> String {
    let [start, owned, signed, last] = states;
    let steps = format!("08{start:02X}00{owned:02X} 09{owned:02X}01{signed:02X} 08{signed:02X}01{last:02X}");
    let (rules, _) = B.split_once(" 08").expect("steps");
    format!("{} {steps} 0A{last:02X}", rules.replace("010202020400", &format!("0102020220{start:02X}")))
}

#[test]
fn states_are_told_apart_by_more_than_their_last_four_bits() {
    for states in [[0, 16, 1, 17], [31, 15, 30, 14], [3, 19, 0, 16], [28, 29, 30, 31]] {
        let rounds = "8A0000000100000002\n8A0000000200000002\n";
        let answers = "8B00000100000002\n8B00010000000002\n8E000100000002\n8E010000000002\n";
        let asked = format!("{} 0B0000 0B0001 0E00 0E01", renumbered(states));
        assert_eq!(output(&asked), format!("{rounds}{answers}"), "{states:?}");
        assert_eq!(marks(lines(&renumbered(states))), Some(32 * 6 + 4), "{states:?}");
    }
}

#[test]
fn allowances_of_two_bytes_and_of_four() {
    for (allowed, number, rounds) in
        [("0001", 3, 1), ("00000001", 3, 1), ("0002", 1, 2), ("00000002", 1, 2), ("00010000", 1, 2)]
    {
        asked(&format!("{B} 0C{allowed}"), (0, 0), (number, rounds), &[2, 2][..usize::from(rounds)]);
    }
    for bytes in [0, 1, 3, 5, 6] {
        assert_eq!(output(&format!("010202020400 0C{}", "00".repeat(bytes))), "8F00020A\n", "{bytes}");
    }
    assert_eq!(output("010202020400 0C00000001 0C0001"), "8F00030B\n");
    assert_eq!(output("0C00000001"), "8F00010B\n");
    assert_eq!(String::from_utf8(desk(b"010202020400\n0C00000001".to_vec())).expect("text"), "");
    assert_eq!(output("010202020400 0C0000000g"), "8F000209\n");
}

#[test]
fn expressions_of_31_marks_and_lines_of_130_characters() {
    // A role mark 31 times over: down from each to the next of 32 individuals.
    let facts: Vec<String> = (0..31).map(|first| format!("0700{first:02X}{:02X}", first + 1)).collect();
    let typed = |marks: &str| format!("010001202000 {} 0D{marks} 0B001F 0B001E", facts.join(" "));
    let answers = "8B001F0100000000\n8B001E0000000000\n";
    assert_eq!(output(&typed(&"00".repeat(31))), answers);
    // Each mark in brackets of its own, but the last: 64 marks with one 83 after them.
    let longest = format!("{}00{}83", "800081".repeat(15), "00".repeat(15));
    assert!(longest.len() < 128);
    assert_eq!(output(&typed(&longest)), answers.replace("001E00", "001E01"));
    assert_eq!(output(&typed(&"00".repeat(32))), "8F00210E\n");
    assert_eq!(output(&typed(&"00".repeat(64))), "8F00210E\n");
    assert_eq!(output(&typed(&"83".repeat(64))), "8F00210C\n");
    assert_eq!(output(&typed(&"00".repeat(65))), "8F002109\n");
    assert_eq!(output(&format!("010202020400 07{}", "00".repeat(31))), "8F00020A\n");
    assert_eq!(output(&format!("010202020400 07{}", "00".repeat(32))), "8F000209\n");
    assert_eq!(output(&format!("0D{}", "00".repeat(64))), "8F00010B\n");
    assert_eq!(output(&format!("0D{}", "00".repeat(65))), "8F000109\n");
}

#[test]
fn case_12_limits() {
    assert_eq!(output("010202FF1000"), "");
    assert_eq!(output("010202FF2100"), "8F000104\n");
    assert_eq!(output("010202FF1100 0600FE 0BFEFE 0A10"), "8BFEFE0000000000\n");
    assert_eq!(output("010202FF1000 0600FE 0BFEFE 0A00"), "8BFEFE010000\n");
    assert_eq!(output("010202FF1000 0600FF"), "8F000206\n");
    assert_eq!(output("010202FF1000 0700FEFF"), "8F000206\n");
    assert_eq!(output("010202FF1000 0B00FF"), "8F000208\n");
}

#[test]
fn cases_13_to_16_an_edge_to_itself() {
    let thirteen = "010202020300 07010000 07000001 08000201 08010002 0A02";
    asked(thirteen, (0, 1), (1, 0), &[]);
    assert_eq!(marks(lines(thirteen)), Some(18));
    asked(thirteen, (0, 0), (0, 0), &[]);
    asked(&format!("{thirteen} 050203"), (0, 1), (2, 0), &[]);
    asked(&format!("{B} 07010000 0C0001"), (0, 0), (3, 1), &[2]);
}

#[test]
fn an_edge_to_itself_is_walked_both_ways() {
    for steps in ["08000001", "08000101"] {
        asked(&format!("010002020200 07000000 {steps} 0A01"), (0, 0), (1, 0), &[]);
    }
    asked("010102020400 060000 07000000 08000001 09010002 08020103 0A03", (0, 0), (1, 1), &[1]);
    asked("010002020100 040002 050203 07000000 0A00", (1, 1), (2, 0), &[]);
}

#[test]
fn an_empty_input_and_an_empty_line() {
    assert_eq!(desk(Vec::new()), b"8F00010B\n");
    assert_eq!(desk(b"\n".to_vec()), b"8F000109\n");
}

#[test]
fn facts_by_deeds_and_without_them() {
    let b = output(&format!("{B} 0B0000 0B0001"));
    for fact in ["0600000000", "0600001267", "060000FFFF", "060000 060000FFFF 0600000001"] {
        assert_eq!(output(&format!("{} 0B0000 0B0001", B.replace("060000", fact))), b, "{fact}");
    }
    // The name's bearer and the ends are where they were: the last bytes are the deed's.
    asked(&B.replace("060000", "0600010000"), (0, 0), (0, 2), &[2, 2]);
    asked(&B.replace("060000", "0600010202"), (1, 1), (1, 2), &[2, 2]);
    let joined = "010001020200 070000010100 08000001 0A01";
    asked(joined, (0, 1), (1, 0), &[]);
    asked(joined, (1, 0), (0, 0), &[]);
    // Not declared, with a deed number or without.
    assert_eq!(output("010202020400 0602000000"), "8F000206\n");
    assert_eq!(output("010202020400 070000020000"), "8F000206\n");
}

#[test]
fn facts_of_other_lengths() {
    for line in
        ["0600", "06000000", "060000000000", "06000000000000", "070000", "0700000000", "07000000000000"]
    {
        assert_eq!(output(&format!("010202020400 {line}")), "8F00020A\n", "{line}");
        assert_eq!(output(line), "8F00010A\n", "{line}");
        assert_eq!(
            String::from_utf8(desk(format!("010202020400\n{line}").into())).expect("text"),
            "8F00020A\n"
        );
    }
    for line in ["060000126", "0600001g67", "060000ffff", "07000001000", "0700000112 7"] {
        assert_eq!(
            String::from_utf8(desk(format!("010202020400\n{line}\n").into())).expect("text"),
            "8F000209\n"
        );
    }
    // A fact on line 1 is out of place, whichever its length.
    for line in ["060000", "0600001267", "07000001", "070000011267"] {
        assert_eq!(output(line), "8F00010B\n", "{line}");
    }
    // No other frame has a deed number.
    assert_eq!(output("010202020400 0200401267"), "8F00020A\n");
    assert_eq!(output("010202020400 080000011267"), "8F00020A\n");
    // The last line may lack its end.
    let ends = format!("{} 0B0000 060000", B.replace(" 060000", ""));
    for deed in ["", "1267"] {
        let written = desk(format!("{}{deed}", ends.replace(' ', "\n")).into_bytes());
        assert_eq!(String::from_utf8(written).expect("text"), "8A00010002\n8A00020002\n8B0000010002\n");
    }
}
