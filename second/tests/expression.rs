//! Expressions: each short row of marks is read by two methods, and each word is matched by derivatives and by the automaton.

use second::desk::desk;
use second::explain::{Explanation, MOST_STEPS};
use second::expression::automaton::Automaton;
use second::expression::read::{expression, too_deep};
use second::expression::words::{all_words, Derived};
use second::expression::{Expression, Letter};
use second::library::{made_of, Made, ROOM};
use second::print;

/// All rows over these marks, up to a length.
fn rows(marks: &[u8], length: usize) -> Vec<Vec<u8>> {
    let mut rows = vec![Vec::new()];
    let mut shorter = 0;
    for _ in 0..length {
        let end = rows.len();
        for row in shorter..end {
            for mark in marks {
                rows.push([&rows[row][..], &[*mark]].concat());
            }
        }
        shorter = end;
    }
    rows
}

/// The same question by rewriting: the innermost bracket is looked at, and when it holds sequences it becomes an item.
fn by_rewriting(marks: &[u8]) -> bool {
    let characters = marks.iter().map(|mark| ['i', 'i', '(', ')', '|', '*', '!'][kind(*mark)]);
    let mut text: String = characters.collect();
    while let Some(close) = text.find(')') {
        let Some(open) = text[..close].rfind('(') else { return false };
        if !text[open + 1..close].split('|').all(is_sequence) {
            return false;
        }
        text.replace_range(open..=close, "i");
    }
    text == "i"
}

/// One item or more, each with one star at most.
fn is_sequence(text: &str) -> bool {
    let no_two_stars = !text.contains("**") && !text.starts_with('*');
    no_two_stars && !text.is_empty() && text.chars().all(|character| matches!(character, 'i' | '*'))
}

fn kind(mark: u8) -> usize {
    match mark {
        0x00..=0x3F => 0,
        0x40..=0x7F => 1,
        other => usize::from(other - 0x80 + 2).min(6),
    }
}

/// The row in one bracket more, so that the rewriting sees each end of it alike.
fn is_one(marks: &[u8]) -> bool {
    by_rewriting(&[&[0x80], marks, &[0x81]].concat())
}

#[test]
fn each_short_row_is_read_alike_by_two_methods() {
    let mut met = 0;
    for row in rows(&[0x00, 0x40, 0x80, 0x81, 0x82, 0x83, 0x84], 6) {
        assert_eq!(expression(&row).is_ok(), is_one(&row), "{row:02X?}");
        met += usize::from(expression(&row).is_ok());
    }
    for row in rows(&[0x00, 0x80, 0x81, 0x82, 0x83], 8) {
        assert_eq!(expression(&row).is_ok(), is_one(&row), "{row:02X?}");
        met += usize::from(expression(&row).is_ok());
    }
    assert!(met > 2_000, "{met}");
}

#[track_caller]
fn words_agree(row: &[u8], letters: &[Letter], length: usize) {
    let one = expression(row).expect("an expression");
    let automaton = Automaton::of(&one);
    let derived = Derived::of(&one, 1_000).expect("few derivatives");
    for word in all_words(letters, length) {
        let has = one.has(&word);
        assert_eq!(has, automaton.reads(&word), "{row:02X?}: {word:?}");
        assert_eq!(has, reads(&derived, &word), "{row:02X?}: {word:?}");
    }
}

fn reads(derived: &Derived, word: &[Letter]) -> bool {
    let mut here = Some(0);
    for letter in word {
        let step = derived.steps.iter().find(|step| Some(step.0) == here && step.1 == *letter);
        here = step.map(|step| step.2);
    }
    here.is_some_and(|state| derived.finals.contains(&state))
}

#[test]
fn the_automaton_reads_exactly_the_words() {
    let letters: Vec<Letter> = [0x00, 0x01, 0x41].into_iter().filter_map(Letter::of).collect();
    for row in rows(&[0x00, 0x01, 0x80, 0x81, 0x82, 0x83], 6) {
        if expression(&row).is_ok() {
            words_agree(&row, &letters[..2], 5);
        }
    }
    // Longer ones, with a letter that stands at several marks.
    for row in [
        &[0x80, 0x00, 0x82, 0x01, 0x81, 0x83, 0x00, 0x41][..],
        &[0x80, 0x80, 0x00, 0x83, 0x82, 0x01, 0x41, 0x83, 0x81, 0x83, 0x82, 0x00, 0x00, 0x81, 0x83],
        &[0x00, 0x83, 0x01, 0x83, 0x41, 0x83, 0x82, 0x80, 0x80, 0x01, 0x81, 0x83, 0x81, 0x83, 0x00],
    ] {
        words_agree(row, &letters, 6);
    }
}

#[test]
fn an_automaton_by_hand() {
    // (signs or holds) any number of times, then the test, then signs backward.
    let one = expression(&[0x80, 0x00, 0x82, 0x02, 0x81, 0x83, 0x41, 0x01]).expect("an expression");
    let automaton = Automaton::of(&one);
    let steps = [(0, 1), (0, 2), (0, 3), (1, 1), (1, 2), (1, 3), (2, 1), (2, 2), (2, 3), (3, 4)];
    assert_eq!(automaton.steps, steps);
    assert_eq!(automaton.finals, [4]);
    let none_or_more = Automaton::of(&Expression::AnyTimes(Box::new(one)));
    assert_eq!(none_or_more.finals, [0, 4]);
    assert!([(4, 1), (4, 2), (4, 3)].iter().all(|step| none_or_more.steps.contains(step)));
}

#[test]
fn what_holds_tightest() {
    let words = |marks: &[u8]| {
        let one = expression(marks).expect("an expression");
        let letters: Vec<Letter> = one.letters().into_iter().collect();
        let has = all_words(&letters, 3).into_iter().filter(|word| one.has(word));
        let typed = |word: Vec<Letter>| word.into_iter().map(Letter::mark).collect::<Vec<u8>>();
        has.map(typed).collect::<Vec<Vec<u8>>>()
    };
    // "or" is looser than a row, and 83 is said of the one item before it.
    assert_eq!(words(&[0x00, 0x82, 0x02, 0x04]), [vec![0x00], vec![0x02, 0x04]]);
    assert_eq!(words(&[0x80, 0x00, 0x82, 0x02, 0x81, 0x04]), [vec![0x00, 0x04], vec![0x02, 0x04]]);
    assert_eq!(words(&[0x00, 0x41, 0x83]), [vec![0x00], vec![0x00, 0x41], vec![0x00, 0x41, 0x41]]);
    assert_eq!(words(&[0x80, 0x00, 0x41, 0x81, 0x83]), [vec![], vec![0x00, 0x41]]);
    assert_eq!(words(&[0x00, 0x82, 0x41, 0x83]).len(), 5);
}

#[test]
fn how_deep() {
    let nested = |deep: usize| [vec![0x80; deep], vec![0x00], vec![0x81; deep]].concat();
    assert_eq!(too_deep(&nested(8)), None);
    assert_eq!(too_deep(&nested(9)), Some(9));
    assert!(expression(&nested(9)).is_ok());
    // 81 counts down below zero, and what is above 83 counts nothing.
    assert_eq!(too_deep(&[&[0x81][..], &[0x80; 9]].concat()), None);
    assert_eq!(too_deep(&[&[0x81][..], &[0x80; 10]].concat()), Some(11));
    assert_eq!(too_deep(&[&[0x80; 8][..], &[0xFF, 0x84, 0x80]].concat()), Some(11));
}

#[test]
fn what_the_library_makes() {
    let made = |marks: &[u8]| made_of(marks, ROOM);
    // The test any number of times, or signs backward.
    let steps = vec![1, 0, 1, 1, 0, 0, 1, 2, 1, 1, 1, 1];
    assert_eq!(made(&[0x41, 0x83, 0x82, 0x01]), Ok(Made { states: 3, tables: [steps, vec![0, 1, 2]] }));
    // All 31 marks, each before each: 31 steps from the start and from every mark.
    let most = [vec![0x80; 8], [0x00, 0x82].repeat(30), vec![0x3F], vec![0x81; 8], vec![0x83]].concat();
    let lengths = made(&most).map(|made| made.tables.map(|table| table.len()));
    assert_eq!(lengths, Ok([4 * 31 * 32, 32]));
    assert_eq!(made(&[0x00; 31]).map(|made| made.states), Ok(32));
    // 5, 13, 12, 14: each before those that come after it.
    let deep = [[0x80; 9].as_slice(), &[0x00; 32]].concat();
    assert_eq!(made_of(&deep, [ROOM[0] - 1, ROOM[1]]), Err(5));
    assert_eq!(made_of(&[0x00], [ROOM[0], ROOM[1] - 1]), Err(5));
    assert_eq!(made(&deep), Err(13));
    assert_eq!(made(&[[0x00; 32].as_slice(), &[0x84]].concat()), Err(12));
    assert_eq!(made(&[]), Err(12));
    assert_eq!(made(&[0x00; 32]), Err(14));
    // No counter is narrow.
    assert_eq!(made(&[0x00; 257]), Err(14));
    assert_eq!(made(&[0x00; 256 + 31]), Err(14));
    assert_eq!(made(&[vec![0x81; 40_000], vec![0x80; 8]].concat()), Err(12));
}

fn out(words: &str) -> String {
    let input: String = words.split(' ').map(|line| format!("{line}\n")).collect();
    String::from_utf8(desk(input.as_bytes())).expect("text")
}

#[test]
fn the_order_of_refusals_on_its_line() {
    // 2 names, 2 roles, 3 states; role 04 and test 42 are not declared.
    let of = |line: &str| out(&format!("010202020300 {line}"));
    assert_eq!(of("0D"), "8F00020C\n");
    assert_eq!(of("0D0001"), "");
    assert_eq!(of("0D04"), "8F000206\n");
    assert_eq!(of("0D42"), "8F000206\n");
    assert_eq!(of(&format!("0D{}04", "80".repeat(9))), "8F000206\n");
    assert_eq!(of(&format!("0D{}00", "80".repeat(9))), "8F00020D\n");
    assert_eq!(of(&format!("0D{}00", "80".repeat(8))), "8F00020C\n");
    assert_eq!(of("0D00008383"), "8F00020C\n");
    assert_eq!(of("0D000083"), "");
    assert_eq!(of("0D00"), "8F00020E\n");
    assert_eq!(of("0D000001"), "8F00020E\n");
    assert_eq!(out("010202020301 0D0001"), "8F00020E\n");
    assert_eq!(out("010202020301 0D00018383"), "8F00020C\n");
    assert_eq!(of("0D0001 0DFF"), "8F00030B\n");
    for other in ["08000000", "09000000", "0A00", "08FF0000", "0AFF"] {
        assert_eq!(of(&format!("0D0001 {other}")), "8F00030B\n");
    }
    for other in ["08000000", "09000000", "0A00"] {
        assert_eq!(of(&format!("{other} 0D04")), "8F00030B\n");
    }
    assert_eq!(out("0D00"), "8F00010B\n");
}

#[test]
fn a_path_by_an_expression() {
    // signs, to a deed, signs again, and then back as often as one likes: four marks need five states.
    let file = "010202030400 07000001 07000102 060101 0D0041000183 0B0000";
    assert_eq!(out(file), "8F00050E\n");
    let file = "010202030500 07000001 07000102 060101 0D0041000183 0B0002 0B0001 0B0000 0B0100";
    // Round 1 makes (1, 2) for Deed, and (2, 4) for ∃signs, down and up again.
    let answers = "8B0002010001\n8B0001010001\n8B0000010001\n8B0100000001\n";
    assert_eq!(out(file), format!("8A00010002\n{answers}"));
}

fn explained(words: &str) -> String {
    let input: String = words.split(' ').map(|line| format!("{line}\n")).collect();
    match Explanation::of(input.as_bytes(), MOST_STEPS) {
        Ok(explained) => print::explanation(&explained),
        Err(faulty) => print::faulty(&faulty),
    }
}

#[test]
fn what_explain_says() {
    let text = explained("010202030500 07000001 0D800041820381830A 0B0001");
    assert!(text.contains("not declared: signed role 10 (2 roles are declared)"), "{text}");
    let text = explained("010202030500 07000001 0D8000418203818301 0B0001");
    let question = "  the question: (r0 then A1? or r1⁻) any number of times then r0⁻ (line 3)\n";
    let steps =
        "  q0 –r0→ q1 (line 3)\n  q0 –r1⁻→ q3 (line 3)\n  q0 –r0⁻→ q4 (line 3)\n  q1 –A1?→ q2 (line 3)\n";
    assert!(text.contains(&(question.to_string() + steps)) && text.contains("finals: q4\n"), "{text}");
    let says = |file: &str, part: &str| assert!(explained(file).contains(part), "{}", explained(file));
    says("010202020300 0D", "number 12: no expression: there are no marks");
    says("010202020300 0D0081", "at mark 2: no bracket is open that 81 could close");
    says("010202020300 0D008081", "at mark 3: nothing stands before this 81");
    says("010202020300 0D820001", "at mark 1: nothing stands before this 82");
    says("010202020300 0D000182", "at mark 3: nothing stands after this 82");
    says("010202020300 0D00018383", "at mark 4: 83 stands only directly after");
    says("010202020300 0D800001", "at mark 3: a bracket is not closed");
    says("010202020300 0D8400", "at mark 1: no mark is above 83");
    says("010202020300 0D808080808080808080", "number 13: at mark 9 opened less closed brackets pass 8");
    says(
        "010202020300 0D00",
        "of 1 role and test marks there are 2 states and the start is 0; line 1 has states 3",
    );
    says("010202020300 0D0001 0A00", "number 11: a frame 08, 09 or 0A after a frame 0D");
    says("010202020300 0A00 0D0001", "number 11: a second frame 0D, or one after a frame 08, 09 or 0A");
}
