//! Slips that look right (docs/PROMISES.md lists them), and the desk's order of refusals line by line.

use second::desk::desk;

fn out(words: &str) -> String {
    let input: String = words.split(' ').map(|line| format!("{line}\n")).collect();
    String::from_utf8(desk(input.as_bytes())).expect("text")
}

fn raw(input: &[u8]) -> String {
    String::from_utf8(desk(input)).expect("text")
}

/// The lines of the rounds that added so many marks each.
fn rounds(added: &[u16]) -> String {
    let rounds = added.iter().enumerate();
    rounds.map(|(before, added)| format!("8A{:04X}{added:04X}\n", before + 1)).collect()
}

#[test]
fn the_lines_of_rounds_stand_once_and_before_the_first_answer() {
    let words = "010101010200 060000 09000001 0A01";
    assert_eq!(out(&format!("{words} 0B0000 0B0000")), "8A00010001\n8B0000010001\n8B0000010001\n");
    // Wherever the asks and the allowance stand.
    assert_eq!(out("010100010200 0B0000 0C0001 060000 09000001 0A01"), "8A00010001\n8B0000010001\n");
    // None: no ask, an allowance of 0, a contradiction, a faulty last line.
    assert_eq!(out(words), "");
    assert_eq!(out(&format!("{words} 0B0000 0C0000")), "8B0000030000\n");
    assert_eq!(out(&format!("{words} 0B0000 030000")), "8B0000020000\n");
    assert_eq!(out(&format!("{words} 0B0000 0B0001")), "8F000608\n");
}

#[test]
fn every_concept_and_pair_of_states_in_one_round() {
    // 128 concepts are below name 0, which is tested from each of so many states to each other.
    let words = |states: u8| {
        let mut words = format!("01402001{states:02X}00 060000 0A{:02X} 0B0000", states - 1);
        for concept in 1..128 {
            words += &format!(" 02{concept:02X}00");
        }
        let pairs = (0..states).flat_map(|from| (0..states).map(move |to| (from, to)));
        for (from, to) in pairs.filter(|(from, to)| from != to) {
            words += &format!(" 09{from:02X}00{to:02X}");
        }
        words
    };
    // 16 × 15 × 128 marks at once, 17 × 16 × 128, and 32 × 31 × 128: of 17 states on, counts have four bytes.
    assert_eq!(out(&words(16)), "8A00017800\n8B0000010001\n");
    assert_eq!(out(&words(17)), "8A0000000100008800\n8B00000100000001\n");
    assert_eq!(out(&words(32)), "8A000000010001F000\n8B00000100000001\n");
}

#[test]
fn the_model_is_not_cut_at_a_fixed_depth() {
    // A chain of signs for ever; 15 times down, then up in the last state as often as there is a parent.
    let mut words = String::from("010101011000 020040 024140 060000 0A0F 080F010F");
    for state in 0..15 {
        words += &format!(" 08{state:02X}00{:02X}", state + 1);
    }
    // Each round goes one up, for A0, ∃r0 and ∃r0⁻.
    assert_eq!(out(&(words + " 0B0000")), rounds(&[3; 15]) + "8B000001000F\n");
}

#[test]
fn a_round_reads_only_the_round_before() {
    // Tests 0→1→2→3→4: marks double their reach from the second round on, so three rounds.
    let words = "010100010500 060000 09000001 09010002 09020003 09030004 0A04 0B0000";
    // Four marks from a state to the next, three to the next but one, and the last two.
    assert_eq!(out(words), rounds(&[4, 3, 3]) + "8B0000010003\n");
}

#[test]
fn roles_are_closed_with_their_inverses() {
    // signs ≤ holds; the fact signs(0, 1) is a backward holds from 1 to 0.
    let words = "010002020200 040002 07000001 08000301 0A01 0B0100 0B0001";
    assert_eq!(out(words), "8B0100010000\n8B0001000000\n");
}

#[test]
fn a_rule_between_a_role_and_its_own_inverse() {
    // signs ≤ signs backward makes it symmetric both ways.
    let words = "010001020200 040001 07000001 08000001 0A01 0B0100 0B0001";
    assert_eq!(out(words), "8B0100010000\n8B0001010000\n");
}

#[test]
fn an_exclusion_from_itself_forbids_it() {
    // Nobody has the name: no contradiction. One has it through its unnamed neighbour only: contradiction.
    assert_eq!(out("010201010100 024100 030000 0A00 0B0000"), "8B0000010000\n");
    assert_eq!(out("010201010100 024100 030000 020140 060100 0A00 0B0000"), "8B0000020000\n");
    // The same for a role: no fact is typed on it.
    assert_eq!(out("010101010100 050000 0A00 0B0000"), "8B0000010000\n");
    assert_eq!(out("010101010100 050000 020041 060000 0A00 0B0000"), "8B0000020000\n");
}

#[test]
fn nothing_but_an_empty_input() {
    assert_eq!(raw(b""), "8F00010B\n");
    assert_eq!(raw(b"\n"), "8F000109\n");
    assert_eq!(raw(b"010000000100"), "");
    assert_eq!(raw(b"010000000100\n"), "");
    assert_eq!(raw(b"010000000100\n\n"), "8F000209\n");
}

#[test]
fn order_9_10_11_on_one_line() {
    assert_eq!(raw(b"FFF\n"), "8F000109\n");
    assert_eq!(raw(b"FF\n"), "8F00010A\n");
    assert_eq!(raw(b"02FFFF\n"), "8F00010B\n");
    assert_eq!(raw(b"0c0000\n"), "8F000109\n");
    assert_eq!(raw(b"010000000100\r\n"), "8F000109\n");
    assert_eq!(raw(&[b'0'; 64]), "8F00010A\n");
    assert_eq!(raw(&[b'0'; 66]), "8F000109\n");
    // A line that begins with 0D may have 130 characters, and no other.
    let long =
        |kind: &str, characters: usize| out(&format!("010101012000 {kind}{}", "0".repeat(characters - 2)));
    assert_eq!(long("0D", 66), "8F00020E\n");
    assert_eq!(long("0D", 130), "8F00020E\n");
    assert_eq!(long("0D", 132), "8F000209\n");
    assert_eq!(long("0D", 129), "8F000209\n");
    assert_eq!(long("0C", 66), "8F000209\n");
    assert_eq!(long("D0", 66), "8F000209\n");
    // An allowance of two bytes or four, in both sorts of file.
    for states in ["10", "11"] {
        let of = |frame: &str| out(&format!("01000001{states}00 {frame}"));
        assert_eq!(of("0C0000") + &of("0CFFFF") + &of("0C00000000") + &of("0CFFFFFFFF"), "");
        for frame in ["0C", "0C00", "0C000000", "0C0000000000"] {
            assert_eq!(of(frame), "8F00020A\n", "{frame}");
        }
    }
    assert_eq!(out("010000000100 0100000001"), "8F00020A\n");
    assert_eq!(out("010000000100 01FFFFFFFFFF"), "8F00020B\n");
    assert_eq!(out("010000000100 0C0001 0C0001"), "8F00030B\n");
}

#[test]
fn order_4_to_8_on_one_line() {
    assert_eq!(out("014100000100"), "8F000104\n");
    assert_eq!(out("010021000100"), "8F000104\n");
    assert_eq!(out("010000000000"), "8F000104\n");
    assert_eq!(out("010000000101"), "8F000104\n");
    let full = "010000010100".to_string() + &" 0A00".repeat(32);
    assert_eq!(out(&full), "");
    assert_eq!(out(&(full + " 0AFF")), "8F002205\n");
    let asks = "010000010100".to_string() + &" 0B0000".repeat(256);
    assert_eq!(out(&(asks.clone() + " 0B0001")), "8F010205\n");
    // Both kinds of ask share their room.
    assert_eq!(out(&(asks + " 0E01")), "8F010205\n");
    let mixed = "010000010100".to_string() + &" 0B0000 0E00".repeat(128);
    assert_eq!(out(&(mixed.clone() + " 0E00")), "8F010205\n");
    assert_eq!(out(&(mixed + " 0B0000")), "8F010205\n");
    assert_eq!(out("010000010100 0E01"), "8F000208\n");
    assert_eq!(out("010000010100 0E"), "8F00020A\n");
    assert_eq!(out("010000010100 0E0000"), "8F00020A\n");
    assert_eq!(out("0E00"), "8F00010B\n");
    assert_eq!(out("010001010100 07010000"), "8F000206\n");
    assert_eq!(out("010001010100 07000101"), "8F000206\n");
    assert_eq!(out("010001010100 07000000"), "");
}

#[test]
fn steps_of_both_kinds_share_one_table() {
    let mixed = "010101010100".to_string() + &" 08000000".repeat(512) + &" 09000000".repeat(512);
    assert_eq!(out(&mixed), "");
    assert_eq!(out(&(mixed + " 09000000")), "8F040205\n");
}
