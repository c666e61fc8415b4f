//! The fair copy of files worked by hand, and what is no part of it: asks, repeats, the order and the lengths in which a file was typed.

use second::copy::copy;

/// These lines written out.
fn out(words: &str) -> String {
    let input: String = words.split_whitespace().map(|line| format!("{line}\n")).collect();
    let output = String::from_utf8(copy(input.as_bytes())).expect("text");
    output.strip_suffix('\n').expect("a last line that ends").replace('\n', " ")
}

const B: &str = "010202020400 020040 024101 060000 08000001 09010102 08020103 0A03 0B0000 0B0001";
const COPY_OF_B: &str = "010202020400 020040 024101 0600000000 08000001 08020103 09010102 0A03";

#[test]
fn the_worked_file() {
    assert_eq!(out(B), COPY_OF_B);
    assert_eq!(out(COPY_OF_B), COPY_OF_B);
    // With the asks between all else, and the rules last.
    let other = "010202020400 0A03 0B0000 0E01 08020103 060000 0B0001 08000001 024101 09010102 020040";
    assert_eq!(out(other), COPY_OF_B);
}

#[test]
fn an_expression_is_written_as_steps_and_finals() {
    // Signs, then the test of Deed, then signs backward: the automaton is that of B.
    assert_eq!(out("010202020400 020040 024101 060000 0D004101 0B0000"), COPY_OF_B);
    // Either of two roles any number of times. All states are final; a step into state 1 reads signs, one into state 2 holds.
    let copy = "010002020300 08000001 08000202 08010001 08010202 08020001 08020202 0A00 0A01 0A02";
    assert_eq!(out("010002020300 0D800082028183"), copy);
    // The same within a bracket, and once more any number of times: another expression, and the same automaton.
    assert_eq!(out("010002020300 0D8080008202818381"), copy);
    assert_eq!(out("010002020300 0D808000820281838183"), copy);
}

#[test]
fn facts_always_have_their_deed_numbers() {
    assert_eq!(
        out("010101020100 07000001 060001 0700000112AB 060001FFFF"),
        "010101020100 0600010000 060001FFFF 070000010000 0700000112AB"
    );
    // One fact, noted as none and left out.
    assert_eq!(out("010101020100 060001 0600010000"), "010101020100 0600010000");
    // The high byte decides first: 255 is below 256.
    let copy = "010100020100 06000000FF 0600000100 0600010000";
    assert_eq!(out("010100020100 060001 0600000100 06000000FF"), copy);
}

#[test]
fn a_repeated_record_is_written_once() {
    let twice = "010203020400 0A03 024042 0A03 040102 024042 050102 030140 040102 050102 030140";
    assert_eq!(out(twice), "010203020400 024042 030140 040102 050102 0A03");
    // Neither a rule that is turned nor one of another kind is a repeat.
    assert_eq!(out("010200000100 020100 020001 030001"), "010200000100 020001 020100 030001");
}

#[test]
fn an_allowance_has_four_bytes_and_is_written_only_where_there_is_one() {
    assert_eq!(out("010000000100 0C0040"), "010000000100 0C00000040");
    assert_eq!(out("010000000100 0C00000040"), "010000000100 0C00000040");
    assert_eq!(out("010000000100 0CFFFF"), "010000000100 0C0000FFFF");
    assert_eq!(out("010000000100 0C0000"), "010000000100 0C00000000");
    assert_eq!(out("010000000100"), "010000000100");
}

#[test]
fn a_faulty_file_has_the_desks_line() {
    for faulty in ["", "\n", "02", "010202020400 020040 0C00", "010202020400 0B0002", "010202020400 0D00"] {
        let input = faulty.replace(' ', "\n").into_bytes();
        assert!(copy(&input).starts_with(b"8F"));
        assert_eq!(copy(&input), second::desk::desk(&input));
    }
    assert_eq!(out("010202020400 020040 0C00"), "8F00030A");
}
