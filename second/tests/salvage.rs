//! Salvage (docs/RULES.md, section 13), worked by hand: which facts are kept, what is written, and what `explain` says of the others.

use second::copy::copy;
use second::desk::desk;
use second::explain::{Explanation, MOST_STEPS};
use second::library::{salvage, Call};
use second::listing::list;
use second::print;

fn lines(words: &str) -> Vec<u8> {
    words.split(' ').map(|line| format!("{line}\n")).collect::<String>().into_bytes()
}

fn of(program: fn(&[u8]) -> Vec<u8>, words: &str) -> String {
    let text = String::from_utf8(program(&lines(words))).expect("text");
    text.trim_end().replace('\n', " ")
}

/// Owner excludes Deed, and what 0 signs is a deed: Deed(0) and Owner(1) clash.
const CLASHING: &str = "010202020400 020040 024101 030001 0F 060000 060100 07000001 060001";
const QUESTION: &str = "08000001 09010102 08020103 0A03";

/// The lines of the dropped facts alone: nothing is asked.
#[track_caller]
fn drops(words: &str, dropped: &[u16]) {
    let expected: Vec<String> = dropped.iter().map(|line| format!("92{line:04X}")).collect();
    assert_eq!(of(desk, words), expected.join(" "), "{words}");
}

#[test]
fn the_lines_of_dropped_facts_stand_before_all_others() {
    let answers = "920007 920009 8A00010002 8A00020002 8B0000010002 8E01000002";
    assert_eq!(of(desk, &format!("{CLASHING} {QUESTION} 0B0000 0E01")), answers);
    assert_eq!(of(desk, &format!("{CLASHING} {QUESTION} 0B0000 0C0000")), "920007 920009 8B0000030000");
    drops(CLASHING, &[7, 9]);
    // Without 0F it is a contradiction, and without a fact that clashes nothing is dropped.
    assert_eq!(of(desk, &format!("{CLASHING} 0B0000").replace(" 0F", "")), "8B0000020000");
    drops(&CLASHING.replace(" 060100", "").replace(" 060001", ""), &[]);
    drops("010000000100 0F", &[]);
}

#[test]
fn the_order_decides() {
    drops("010200010100 030001 060000 060100 0F", &[4]);
    drops("010200010100 030001 060100 060000 0F", &[4]);
    // Role facts and names in turn: Owner(1) drops signs(0, 1), and not the other way round.
    drops(&CLASHING.replace("07000001 060001", "060001 07000001"), &[7, 9]);
    let asked = format!("{} {QUESTION} 0B0101", CLASHING.replace("07000001 060001", "060001 07000001"));
    assert_eq!(of(desk, &asked), "920007 920009 8A00010002 8A00020002 8B0101010002");
    // What was dropped drops nothing: the third name excludes the dropped second.
    drops("010300010100 030001 030102 0F 060000 060100 060200", &[6]);
    // Twice kept, and twice dropped, whatever the deed numbers are.
    drops("010200010100 030001 0F 0600000001 0601000002 0600000003 060100 060000", &[5, 7]);
}

#[test]
fn a_fact_may_clash_with_the_rules_alone() {
    drops("010100010100 030000 0F 060000 060000", &[4, 5]);
    // A role that excludes its inverse: to itself, and there and back.
    drops("010001020100 050001 0F 07000000 07000001 07000100 07000101", &[4, 6, 7]);
    // Two and three deep below a name, and below a role fact.
    let deep = "010103020100 020040 024142 024344 034545 0F";
    drops(&format!("{deep} 060000 07000001 07010001 07020001"), &[7, 8, 9, 10]);
    drops(&format!("{} 060000 07000001", deep.replace(" 024142", "")), &[]);
    // Between an unnamed child and its parent.
    drops("010102010100 020040 040002 050002 0F 060000", &[6]);
}

#[test]
fn a_list_is_looked_at_whatever_the_facts_are() {
    let nobody = "010100010100 030000 060000 0F";
    drops(&format!("{nobody} 1000000000000000"), &[3]);
    for program in [desk, copy, list] {
        assert_eq!(of(program, &format!("{nobody} 1000000001000000")), "8F00050F");
        assert_eq!(of(program, &format!("{nobody} 1000000000000000 1000000000000000")), "8F00060F");
        assert_eq!(of(program, &format!("{nobody} 1000000000000000 0F")), "8F00060B");
        assert_eq!(of(program, &format!("{nobody} 0F")), "8F00050B");
        assert_eq!(of(program, &format!("{nobody} 0F00")), "8F00050A");
        assert_eq!(of(program, &format!("0F {nobody}")), "8F00010B");
        assert_eq!(of(program, &format!("0F0F {nobody}")), "8F00010A");
    }
    // Without 0F that is a contradiction, whose list is not looked at.
    let without = nobody.replace(" 0F", "");
    assert_eq!(of(desk, &format!("{without} 0B0000 1000000001000000")), "8B0000020000");
}

#[test]
fn copies_and_lists_are_of_what_was_typed() {
    let copied = "010202020400 020040 024101 030001 0600000000 0600010000 0601000000 070000010000";
    assert_eq!(of(copy, CLASHING), copied);
    assert_eq!(of(list, CLASHING), copied);
    // A list where the facts as typed make no contradiction, with 0F or without.
    let sound = "010100010100 060000 0F";
    assert_eq!(of(list, sound), "010100010100 0600000000 1000000000000000");
    assert_eq!(of(list, sound), of(list, &sound.replace(" 0F", "")));
}

#[test]
fn the_call_goes_by_its_order() {
    let call = Call {
        counts: [2, 1, 2, 1, 0],
        // Name 0 excludes having signed: a name before the role fact drops it, and one behind is dropped.
        tables: [vec![], vec![0, 64], vec![], vec![], vec![0, 0, 7], vec![0, 0, 1, 9], vec![], vec![]],
        allowance: 0,
    };
    assert_eq!(salvage(&call, &[0, 1], 2), Ok(vec![true, false]));
    assert_eq!(salvage(&call, &[1, 0], 3), Ok(vec![true, false]));
    for (order, room) in [(&[0, 1][..], 1), (&[0], 2), (&[0, 1, 1], 3), (&[0, 0], 2), (&[0, 2], 2), (&[], 9)]
    {
        assert_eq!(salvage(&call, order, room), Err(5), "{order:?}");
    }
    let with = |change: fn(&mut Call)| {
        let mut call = call.clone();
        change(&mut call);
        call
    };
    assert_eq!(salvage(&with(|call| call.counts[3] = 33), &[], 0), Err(4));
    assert_eq!(salvage(&with(|call| call.tables[6].push(0)), &[0, 1], 2), Err(5));
    assert_eq!(salvage(&with(|call| call.tables[7].push(1)), &[0, 1], 1), Err(5));
    assert_eq!(salvage(&with(|call| call.tables[7].push(1)), &[0, 1], 2), Err(6));
    assert_eq!(salvage(&with(|call| call.tables[1].clear()), &[0, 1], 2), Ok(vec![true, true]));
}

fn explained(words: &str) -> String {
    match Explanation::of(&lines(words), MOST_STEPS) {
        Ok(explained) => print::explanation(&explained),
        Err(faulty) => print::faulty(&faulty),
    }
}

#[track_caller]
fn says(text: &str, parts: &[&str]) {
    for part in parts {
        assert!(text.contains(part), "{part:?} is not in\n{text}");
    }
}

#[test]
fn each_dropped_fact_is_explained() {
    let clashing = CLASHING.replace("060000", "0600001267").replace("060001", "060001000B");
    let text = explained(&format!("{clashing} {QUESTION} 0B0000"));
    says(&text, &["SALVAGE (line 5): of 4 facts 2 are dropped\n"]);
    let first =
        "  A1(i0) (deed none noted, line 7) is dropped: it clashes with A0(i0) (deed 4,711, line 6).\n";
    says(&text, &[first, "    i0 has A0 and A1, which line 4 excludes.\n"]);
    says(&text, &["    i0 has A0: typed on line 6; rests on deed 4,711, line 6\n"]);
    let second =
        "  A0(i1) (deed 11, line 9) is dropped: it clashes with r0(i0, i1) (deed none noted, line 8).\n";
    says(&text, &[second, "    i1 has A0: typed on line 9; rests on deed 11, line 9\n"]);
    let rules =
        "i1 has A1: line 8 joins it by r0⁻ to i0; ∃r0⁻ ≤ A1 (line 3); rests on deed none noted, line 8";
    says(&text, &[rules, "    the desk writes 920009\n"]);
    // What follows is of the kept facts.
    says(&text, &["  i0 has A0: typed on line 6\n", "8B0000010002, yes, 2 rounds"]);
    assert!(!text.contains("CONTRADICTION") && !text.contains("i1 has A0: typed on line 9\n"));
    says(&explained(CLASHING), &["ASKS\n  none: the desk writes nothing more\n"]);
    says(&explained("010000000100 0F"), &["of 0 facts 0 are dropped", "none: the desk writes nothing\n"]);
}

#[test]
fn a_fact_that_clashes_alone_is_explained_by_the_rules() {
    let text = explained("010102010100 020040 024142 034343 0F 060000");
    let alone = "A0(i0) (deed none noted, line 6) is dropped: it clashes with the rules alone.\n";
    says(&text, &[alone, "i0·r0·r1 has ∃r1⁻ and ∃r1⁻, which line 4 excludes."]);
    says(
        &text,
        &["i0 has ∃r0: typed on line 6; A0 ≤ ∃r0 (line 2)", "after r0 comes r1: ∃r0⁻ ≤ ∃r1 (line 3)"],
    );
    let text = explained("010001010100 050001 0F 07000000");
    says(&text, &["r0(i0, i0) (deed none noted, line 4) is dropped: it clashes with the rules alone.\n"]);
    says(&text, &["the pair (i0, i0) has r0 and r0⁻, which line 2 excludes."]);
    // Of many facts with which it clashes the first is named.
    let many = "010200010100 030001 0F 060000 060000 060000 060100";
    says(
        &explained(many),
        &["A1(i0) (deed none noted, line 7) is dropped: it clashes with A0(i0) (deed none noted, line 4).\n"],
    );
}

#[test]
fn faults_of_the_choice_in_words() {
    says(&explained("010000000100 0F 0F"), &["Line 3, number 11: a second frame 0F."]);
    let fields = "the choice of salvage has 0 bytes after its kind; here there are 1.";
    says(&explained("010000000100 0F00"), &[fields]);
    // The list is that of the sheet of the kept facts.
    let list =
        "Line 5, number 15: the list is not the sheet: next is (q0, q0, A0), which first stands in round 0.";
    says(&explained("010100010100 030000 060000 0F 1000000001000000"), &[list]);
}
