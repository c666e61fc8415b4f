//! Cases 1 to 21 and the collection with facts (docs/PAPER.md and cases/README.md), asked of the desk, the library and the built-out model.

use second::area::{holding, standing, AREA};
use second::ask::Ask;
use second::collection::Counts;
use second::desk::{desk, read::read};
use second::library::{ask, ask_from, marks, Call};
use second::model::{self, known::Known, letter, Answer, Model};
use second::numbers::Individual;

/// Base collection B without its asks.
const B: &str = "010202020400 020040 024101 060000 08000001 09010102 08020103 0A03";

/// The collection with facts without its asks: each rule of the rounds adds a mark.
const FACTS: &str = "010202030600 020040 024101 020143 030001 050002 060000 07000001 07000201 \
                     08000001 09010102 08020303 08030204 08040105 0A05";

/// What its rounds add: (1, 2) for Deed and ∃(signs backward), (2, 4) for both and ∃(holds backward); (1, 4) for the first
/// two; (0, 5) for Owner and ∃signs.
const ADDED: [u32; 3] = [5, 2, 2];

/// Case 10 without its asks.
const TEN: &str = "010202020300 020040 020042 060000 08000001 08010302 0A02";

/// Case 11: case 10 plus a third role.
const ELEVEN: &str = "010203020300 020040 020042 060000 08000001 08010302 0A02 020044 040400 040402";

/// Case 13 without its ask: 0 holds itself.
const THIRTEEN: &str = "010202020300 07010000 07000001 08000201 08010002 0A02";

fn lines(words: &str) -> Vec<u8> {
    words.split(' ').map(|line| format!("{line}\n")).collect::<String>().into_bytes()
}

/// How many digits a count has, by the states that line 1 declares.
fn digits(words: &str) -> usize {
    if words[8..10] <= *"10" {
        4
    } else {
        8
    }
}

/// The same outcome from all three: desk lines with the marks that each round adds, library calls with both areas, model
/// (and the sheet to the letter).
fn agree(words: &str, (first, second): (u8, u8), (number, count): (u8, u32), added: &[u32]) -> Vec<u8> {
    let asked = format!("{words} 0B{first:02X}{second:02X}");
    let rounds = added.iter().enumerate();
    let wide = digits(words);
    let rounds: String =
        rounds.map(|(before, added)| format!("8A{:0wide$X}{added:0wide$X}\n", before + 1)).collect();
    let output = format!("{rounds}8B{first:02X}{second:02X}{number:02X}{count:0wide$X}\n");
    assert_eq!(desk(&lines(&asked)), output.into_bytes());

    let file = read(&lines(&asked)).expect("a sound file");
    let call = Call::of(&file.collection, file.allowance());
    let (mut area, mut spare) = (vec![0x5A; AREA], vec![0xA5; AREA]);
    assert_eq!(ask(&call, [first.into(), second.into()], &mut area, &mut spare), (number, count));
    // A yes and a no are both 0 here.
    let (mut other, mut other_spare) = (vec![0x5A; AREA], vec![0xA5; AREA]);
    let told = marks(&call, file.allowance() as usize, &mut other, &mut other_spare);
    let added_there = (number != 2).then(|| added.to_vec());
    assert_eq!(told, (if number == 1 { 0 } else { number }, added_there));
    assert!(other == area && other_spare == spare);

    let known = Known::of(&file.collection);
    if number == 2 {
        assert!(area.iter().all(|byte| *byte == 0x5A) && spare.iter().all(|byte| *byte == 0xA5));
    } else {
        let sheets = letter::all_rounds(&known);
        assert_eq!(area, holding(sheets[count as usize].iter().copied()));
        assert_eq!(letter::added(&sheets[..=count as usize]), added);
        assert!(spare.iter().all(|byte| *byte == 0));
        assert_eq!(number == 3, sheets.len() - 1 > count as usize);
    }
    let answer = model::ask(&file.collection, Ask::Pair(Individual(first), Individual(second)))
        .expect("a small model");
    let expected = [Answer::No, Answer::Yes, Answer::Contradiction];
    assert!(number == 3 || answer == expected[usize::from(number)]);
    area
}

/// The same outcome of one individual from all three.
fn agree_from(words: &str, first: u8, number: u8, count: u32) {
    let asked = format!("{words} 0E{first:02X}");
    let output = String::from_utf8(desk(&lines(&asked))).expect("text");
    let rounds = output.lines().take_while(|line| line.starts_with("8A")).count();
    assert_eq!(rounds, count as usize);
    let wide = digits(words);
    assert!(output.ends_with(&format!("8E{first:02X}{number:02X}{count:0wide$X}\n")));
    assert_eq!(output.lines().count(), rounds + 1);

    let file = read(&lines(&asked)).expect("a sound file");
    let call = Call::of(&file.collection, file.allowance());
    let [(mut area, mut spare), (mut other, mut other_spare)] =
        [0; 2].map(|_| (vec![0x5A; AREA], vec![0xA5; AREA]));
    assert_eq!(ask_from(&call, first.into(), &mut area, &mut spare), (number, count));
    // What the same answer to a pair would leave.
    ask(&call, [first.into(); 2], &mut other, &mut other_spare);
    assert!(area == other && spare == other_spare);

    let answer = model::ask(&file.collection, Ask::From(Individual(first))).expect("a small model");
    let expected = [Answer::No, Answer::Yes, Answer::Contradiction];
    assert!(number == 3 || answer == expected[usize::from(number)]);
}

fn fault(words: &str) -> String {
    String::from_utf8(desk(&lines(words))).expect("text")
}

#[test]
fn the_whole_worked_input() {
    let input = lines(&format!("{B} 0B0000 0B0001"));
    assert_eq!(desk(&input), b"8A00010002\n8A00020002\n8B0000010002\n8B0001000002\n");
}

#[test]
fn case_1_and_2_b() {
    let sheet = agree(B, (0, 0), (1, 2), &[2, 2]);
    assert_eq!(standing(&sheet), 28);
    agree(B, (0, 1), (0, 2), &[2, 2]);
}

#[test]
fn case_1_with_tables_written_by_hand() {
    let call = Call {
        counts: [2, 2, 2, 4, 0],
        tables: [
            vec![0, 64, 65, 1],
            vec![],
            vec![],
            vec![],
            vec![0, 0, 4_711],
            vec![],
            vec![0, 0, 0, 1, 1, 1, 1, 2, 0, 2, 1, 3],
            vec![3],
        ],
        allowance: 64,
    };
    let (mut area, mut spare) = (vec![7; AREA], vec![7; AREA]);
    assert_eq!(ask(&call, [0, 0], &mut area, &mut spare), (1, 2));
    // Owner and ∃signs go down to a deed and come back, (0, 3, 0) and (0, 3, 64): places 384 and 448.
    assert_eq!(area[48..64], [1, 0, 0, 0, 0, 0, 0, 0, 1, 0, 0, 0, 0, 0, 0, 0]);
    // Of the six concepts 0, 1 and 64 to 67 the four states lead to themselves: places 0, 4,224, 8,448 and 12,672 on.
    for state in 0..4 {
        let row: [u8; 16] = area[state * 528..][..16].try_into().expect("16 bytes");
        assert_eq!(row, [0b11, 0, 0, 0, 0, 0, 0, 0, 0b1111, 0, 0, 0, 0, 0, 0, 0]);
    }
}

#[test]
fn case_3_allowance_1() {
    agree(&format!("{B} 0C0001"), (0, 0), (3, 1), &[2]);
    agree(&format!("{B} 0C0000"), (0, 0), (3, 0), &[]);
    agree(&format!("{B} 0C0002"), (0, 0), (1, 2), &[2, 2]);
}

#[test]
fn without_a_given_allowance_the_most_rounds_are_allowed() {
    let most = |counts: [u16; 5]| {
        let [names, roles, individuals, states, start] = counts;
        Counts::new(names, roles, individuals, states, start).expect("counts in range").most_rounds()
    };
    assert_eq!(most([64, 32, 255, 32, 31]), 126_976);
    assert_eq!(most([64, 32, 255, 16, 15]), 30_720);
    assert_eq!(most([2, 2, 2, 4, 0]), 72);
    // One state, or no concept at all.
    assert_eq!(most([64, 32, 255, 1, 0]), 0);
    assert_eq!(most([0, 0, 255, 16, 0]), 0);
    let allowed =
        |words: &str| read(&lines(words)).unwrap_or_else(|_| panic!("{words} is sound")).allowance();
    assert_eq!(allowed(B), 72);
    assert_eq!(allowed(&format!("{B} 0C0000")), 0);
    assert_eq!(allowed(&format!("{B} 0C0040")), 64);
    assert_eq!(allowed(&format!("{B} 0CFFFF")), 65_535);
    assert_eq!(allowed(&format!("{B} 0C00000040")), 64);
    assert_eq!(allowed(&format!("{B} 0C00010000")), 65_536);
    assert_eq!(allowed(&format!("{B} 0CFFFFFFFF")), u32::MAX);
}

#[test]
fn case_4_contradiction_on_an_unnamed_deed() {
    agree(&format!("{B} 030141"), (0, 0), (2, 0), &[]);
}

#[test]
fn case_5_without_the_owner() {
    agree(&format!("{B} 030141").replace(" 060000", ""), (0, 0), (0, 2), &[2, 2]);
}

#[test]
fn case_6_roles_excluded_below_an_owner() {
    agree(&format!("{B} 040002 050002"), (0, 0), (2, 0), &[]);
}

#[test]
fn case_7_holds_both_ways() {
    let steps = "08000001 09010102 08020103 0A03";
    agree(&format!("010202020400 050203 07010001 07010100 {steps}"), (0, 0), (2, 0), &[]);
}

#[test]
fn case_8_start_state_final() {
    agree("010202020100 0A00", (0, 0), (1, 0), &[]);
    agree("010202020100 0A00", (0, 1), (0, 0), &[]);
}

#[test]
fn case_9_signs_twice_and_back() {
    let nine = "010202020500 020040 024140 060000 08000001 08010002 08020103 08030104 0A04";
    agree(nine, (0, 0), (1, 2), &[3, 3]);
}

#[test]
fn case_10_two_promises_are_two_neighbours() {
    agree(TEN, (0, 0), (0, 0), &[]);
}

#[test]
fn case_11_one_neighbour_by_a_third_role() {
    agree(ELEVEN, (0, 0), (1, 1), &[2]);
}

/// Case 17 without its asks.
const SEVENTEEN: &str = "010202020400 020040 024142 024340 060000 08000001 08010202 08020003 0A03";

#[test]
fn case_17_to_21_of_one_individual() {
    agree_from(SEVENTEEN, 0, 1, 0);
    agree(SEVENTEEN, (0, 0), (0, 0), &[]);
    agree_from(SEVENTEEN, 1, 0, 0);
    let eighteen = B.replace("0A03", "0A02");
    agree_from(&eighteen, 0, 1, 2);
    agree_from(&format!("{SEVENTEEN} 034340"), 1, 2, 0);
    agree_from(&format!("{eighteen} 0C0001"), 0, 3, 1);
    agree_from("010202020100 0A00", 1, 1, 0);
}

#[test]
fn one_individual_where_a_pair_is_asked() {
    // The path of case 1 ends at 0; no path leaves 1 in a final state.
    agree_from(B, 0, 1, 2);
    agree_from(B, 1, 0, 2);
    agree_from(&format!("{B} 0C0001"), 0, 3, 1);
    agree_from(&format!("{B} 030141"), 1, 2, 0);
    agree_from(FACTS, 0, 1, 3);
    agree_from("010202020100 0A00", 1, 1, 0);
}

#[test]
fn a_path_that_ends_at_an_unnamed_element() {
    // With state 2 final the path of B ends at the deed, and (0, 0) is no.
    let deed = B.replace("0A03", "0A02");
    agree_from(&deed, 0, 1, 2);
    agree(&deed, (0, 0), (0, 2), &[2, 2]);
    agree_from(&deed, 1, 0, 2);
    // Down seven elements of a row without end, and no further than there is a rule for.
    let down = |rules: &str| {
        let steps: Vec<String> = (0..7).map(|state| format!("08{state:02X}00{:02X}", state + 1)).collect();
        format!("010101010800 060000 {rules} {} 0A07", steps.join(" "))
    };
    agree_from(&down("020040 024140"), 0, 1, 0);
    agree_from(&down("020040"), 0, 0, 0);
    // A ring of rules without end, and a step that no element has.
    agree_from("010102010300 060000 020040 024140 08000000 08000201 0A01", 0, 0, 0);
}

#[test]
fn a_loop_on_the_way_down() {
    // Down by signs, down and up by holds, then down by signs again: the deed has both children.
    let words = "010102010500 060000 020040 024142 024140 08000001 08010202 08020303 08030004 0A04";
    agree_from(words, 0, 1, 1);
    agree_from(&words.replace(" 024142", ""), 0, 0, 1);
}

#[test]
fn facts_walked_along_and_backward() {
    let sheet = agree(FACTS, (0, 2), (1, 3), &ADDED);
    assert_eq!(standing(&sheet), 45);
    agree(FACTS, (2, 0), (1, 3), &ADDED);
    agree(FACTS, (0, 0), (1, 3), &ADDED);
    agree(FACTS, (0, 1), (0, 3), &ADDED);
    agree(FACTS, (1, 1), (0, 3), &ADDED);
}

#[test]
fn cases_22_to_25_of_more_than_16_states() {
    let last = "010202021100 020040 024101 060000 08000010 0910010F 080F010E 0A0E";
    let sheet = agree(last, (0, 0), (1, 2), &[2, 2]);
    assert_eq!(standing(&sheet), 106);
    agree(last, (0, 1), (0, 2), &[2, 2]);
    agree_from(last, 0, 1, 2);
    agree_from(last, 1, 0, 2);
    agree(&format!("{last} 0C0001"), (0, 0), (3, 1), &[2]);
    agree(&format!("{last} 030141"), (0, 0), (2, 0), &[]);
    let test = "01010002201F 060000 091F0010 0A10";
    let sheet = agree(test, (0, 0), (1, 1), &[1]);
    assert_eq!(standing(&sheet), 33);
    // (31, 16, Owner): place 31 × 4,096 + 16 × 128.
    assert_eq!(sheet[16_128], 1);
    agree(test, (1, 1), (0, 1), &[1]);
    agree(&format!("{test} 0C00000000"), (0, 0), (3, 0), &[]);
}

#[test]
fn case_12_limits() {
    assert_eq!(fault("010202FF1000"), "");
    assert_eq!(fault("010202FF2000"), "");
    assert_eq!(fault("010202FF2100"), "8F000104\n");
    assert_eq!(fault("010202FF1000 0600FE 0BFEFE 0A00"), "8BFEFE010000\n");
    assert_eq!(fault("010202FF1100 0600FE 0BFEFE 0A00"), "8BFEFE0100000000\n");
    assert_eq!(fault("010202FF1000 0600FF"), "8F000206\n");
    assert_eq!(fault("010202FF1000 0700FEFF"), "8F000206\n");
    assert_eq!(fault("010202FF1000 0B00FF"), "8F000208\n");
}

#[test]
fn case_12_in_the_library() {
    let mut call = Call { counts: [2, 2, 255, 32, 31], tables: Default::default(), allowance: 0 };
    let (mut area, mut spare) = (vec![0; AREA], vec![0; AREA]);
    let mut number = |call: &Call, second| ask(call, [254, second], &mut area, &mut spare).0;
    assert_eq!(number(&call, 254), 0);
    assert_eq!(number(&call, 255), 8);
    call.tables[4] = vec![0, 255, 0];
    assert_eq!(number(&call, 255), 6);
    call.counts[3] = 33;
    assert_eq!(number(&call, 255), 4);
}

#[test]
fn the_refusals_of_the_call_for_the_marks_of_rounds() {
    let mut call = Call { counts: [2, 2, 255, 32, 31], tables: Default::default(), allowance: 3 };
    let number = |call: &Call, room, spare| marks(call, room, &mut vec![0; AREA], &mut vec![0; spare]).0;
    assert_eq!(number(&call, 3, AREA), 0);
    assert_eq!(number(&call, 2, AREA), 5);
    assert_eq!(number(&call, 3, AREA - 1), 5);
    call.tables[4] = vec![0, 255, 0];
    assert_eq!(number(&call, 3, AREA), 6);
    assert_eq!(number(&call, 2, AREA), 5);
    call.counts[3] = 33;
    assert_eq!(number(&call, 2, AREA), 4);
}

#[test]
fn cases_13_to_16_an_edge_to_itself() {
    let sheet = agree(THIRTEEN, (0, 1), (1, 0), &[]);
    assert_eq!(standing(&sheet), 18);
    agree(THIRTEEN, (0, 0), (0, 0), &[]);
    agree(&format!("{THIRTEEN} 050203"), (0, 1), (2, 0), &[]);
    let sheet = agree(&format!("{B} 07010000 0C0001"), (0, 0), (3, 1), &[2]);
    assert_eq!(standing(&sheet), 26);
}

#[test]
fn an_edge_to_itself_is_walked_both_ways_and_excluded_by_its_inverse() {
    for steps in ["08000001", "08000101"] {
        agree(&format!("010002020200 07000000 {steps} 0A01"), (0, 0), (1, 0), &[]);
    }
    // The unnamed neighbours are no owners, so a path stays at 0 both times.
    for [there, back] in [["00", "01"], ["01", "00"]] {
        let steps = format!("0800{there}01 09010002 0802{back}03");
        agree(&format!("010102020400 060000 07000000 {steps} 0A03"), (0, 0), (1, 1), &[1]);
    }
    // Through a role rule, written forward and backward; and by two facts with equal ends.
    for clash in ["040002 050203 07000000", "040103 050302 07000000", "050003 07000000 07010000"] {
        agree(&format!("010002020100 {clash} 0A00"), (1, 1), (2, 0), &[]);
    }
    agree("010002020100 050001 07000001 0A00", (1, 1), (1, 0), &[]);
}

#[test]
fn marks_mean_what_the_rules_say() {
    for words in [B, FACTS, TEN, ELEVEN, THIRTEEN] {
        let file = read(&lines(words)).expect("a sound file");
        let known = Known::of(&file.collection);
        let closed = letter::all_rounds(&known).pop().expect("at least round 0");
        let model = Model::of(&known).expect("a small model");
        assert_eq!(*model.loops(), closed);
    }
}
