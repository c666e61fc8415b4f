//! A question typed as an expression: its marks, what may come before what, and the automaton.

use super::table::Table;
use super::words::{listed, Words};
use crate::desk::question::Typed;
use crate::explain::Explanation;
use crate::expression::automaton::Automaton;
use crate::expression::{Letter, CLOSE, OPEN, OR};

const MARKS: [&str; 4] = ["Mark", "Typed", "What it is", "State"];
const PLACES: [&str; 5] = ["State", "Reads", "Can be first", "Can be last", "What may come just before it"];
const STEPS: [&str; 4] = ["From", "Reads", "To", "As a step"];
const FINALS: [&str; 3] = ["Final", "Why", "As a final"];

const NONE: &str = "The question is typed as steps and finals.\n";

/// Every mark in its order; the role and test marks have the states from 1 on.
pub fn marks(explained: &Explanation, words: &Words) -> String {
    let Some(typed) = &explained.file.expression else { return NONE.to_string() };
    let mut table = Table::new(&MARKS);
    let mut states = 1..;
    for (before, &mark) in typed.marks.iter().enumerate() {
        let (what, state) = match Letter::of(mark) {
            Some(letter) => (read(letter, words), states.next().map(|state: usize| state.to_string())),
            None => (sign(mark).to_string(), None),
        };
        table.row([(before + 1).to_string(), format!("`{mark:02X}`"), what, state.unwrap_or_default()]);
    }
    table.text()
}

pub fn marks_form(explained: &Explanation) -> String {
    let Some(typed) = &explained.file.expression else { return NONE.to_string() };
    let marks = typed.marks.iter().enumerate();
    Table::form(&MARKS, marks.map(|(before, mark)| vec![(before + 1).to_string(), format!("`{mark:02X}`")]))
        .text()
}

/// `signs backward`, `the test of Deed`.
fn read(letter: Letter, words: &Words) -> String {
    match letter {
        Letter::Role(role) => words.role(role),
        Letter::Test(name) => format!("the test of {}", words.concept(name)),
    }
}

fn sign(mark: u8) -> &'static str {
    match mark {
        OPEN => "a bracket opens",
        CLOSE => "a bracket closes",
        OR => "or",
        _ => "any number of times",
    }
}

/// For each state but the first: what it reads, whether it can be first or last, and which marks may come just before it.
pub fn places(explained: &Explanation, words: &Words) -> String {
    let Some(Typed { automaton, .. }) = &explained.file.expression else { return NONE.to_string() };
    let yes = |so: bool| if so { "yes" } else { "no" }.to_string();
    let mut table = Table::new(&PLACES);
    for state in 1..automaton.states() {
        let first = automaton.steps.contains(&(0, state));
        let before = automaton.steps.iter().filter(|(from, to)| *to == state && *from > 0);
        let before: Vec<String> = before.map(|(from, _)| from.to_string()).collect();
        let letter = read(automaton.letters[state - 1], words);
        let last = automaton.finals.contains(&state);
        table.row([state.to_string(), letter, yes(first), yes(last), listed(&before)]);
    }
    let empty = if automaton.finals.contains(&0) { "is allowed" } else { "is not allowed" };
    format!("{}\nThe empty word {empty}.\n", table.text())
}

pub fn places_form(explained: &Explanation) -> String {
    let Some(Typed { automaton, .. }) = &explained.file.expression else { return NONE.to_string() };
    Table::form(&PLACES, (1..automaton.states()).map(|state| vec![state.to_string()])).text()
}

/// The steps and finals, with the frames that would say the same.
pub fn automaton(explained: &Explanation, words: &Words) -> String {
    let Some(Typed { automaton, .. }) = &explained.file.expression else { return NONE.to_string() };
    let mut steps = Table::new(&STEPS);
    for &(from, to) in &automaton.steps {
        let letter = automaton.letters[to - 1];
        steps.row([from.to_string(), read(letter, words), to.to_string(), frame(from, letter, to)]);
    }
    let mut finals = Table::new(&FINALS);
    for &state in &automaton.finals {
        let why = if state == 0 { "the empty word is allowed" } else { "its mark can be last" };
        finals.row([state.to_string(), why.to_string(), format!("`0A{state:02X}`")]);
    }
    steps.text() + "\n" + &finals.text()
}

pub fn automaton_form(explained: &Explanation) -> String {
    let empty = |automaton: &Automaton| vec![Vec::new(); automaton.steps.len().min(2)];
    let rows = explained.file.expression.as_ref().map(|typed| empty(&typed.automaton));
    let Some(rows) = rows else { return NONE.to_string() };
    Table::form(&STEPS, rows).text() + "\n" + &Table::form(&FINALS, [Vec::new()]).text()
}

fn frame(from: usize, letter: Letter, to: usize) -> String {
    match letter {
        Letter::Role(role) => format!("`08{from:02X}{:02X}{to:02X}`", role.0),
        Letter::Test(name) => format!("`09{from:02X}{:02X}{to:02X}`", name.0),
    }
}

#[cfg(test)]
mod tests {
    use super::*;
    use crate::explain::MOST_STEPS;

    fn text(block: impl Fn(&Explanation, &Words) -> String, file: &str) -> String {
        let input: String = file.split(' ').map(|line| format!("{line}\n")).collect();
        let explained = Explanation::of(input.as_bytes(), MOST_STEPS).unwrap_or_else(|_| panic!("sound"));
        block(&explained, &Words::read("Owner,Deed/signs,holds"))
    }

    const FILE: &str = "010202020500 0D80004101820281 83 0B0000";

    #[test]
    fn an_expression_with_each_kind_of_mark() {
        let file = FILE.replace("81 83", "8183");
        let text = |block: fn(&Explanation, &Words) -> String| self::tests::text(block, &file);
        let says =
            |text: String, parts: &[&str]| assert!(parts.iter().all(|part| text.contains(part)), "{text}");
        says(text(marks), &["| 1 | `80` | a bracket opens |  |", "| 3 | `41` | the test of Deed | 2 |"]);
        says(text(marks), &["| 8 | `83` | any number of times |  |", "| 6 | `02` | holds | 4 |"]);
        says(text(places), &["| 1 | signs | yes | no | 3, 4 |", "| 3 | signs backward | no | yes | 2 |"]);
        says(text(places), &["The empty word is allowed."]);
        says(
            text(automaton),
            &["| 1 | the test of Deed | 2 | `09010102` |", "| 4 | holds | 4 | `08040204` |"],
        );
        says(
            text(automaton),
            &["| 0 | the empty word is allowed | `0A00` |", "| 4 | its mark can be last | `0A04` |"],
        );
    }

    #[test]
    fn the_frames_say_the_same() {
        use crate::desk::desk;
        let file =
            "010202040500 024101 07000002 07000102 07020103 0D8000410182028183 0B0001 0B0003 0B0303 0B0300";
        let file = file.replace("07020103", "07010103");
        let text = text(automaton, &file);
        let frames: Vec<&str> = text.split('`').skip(1).step_by(2).collect();
        let other = file.replace("0D8000410182028183", &frames.join(" "));
        let lines = |file: &str| file.split(' ').map(|line| format!("{line}\n")).collect::<String>();
        let answers = String::from_utf8(desk(lines(&file).as_bytes())).expect("text");
        let rounds = "8A00010003\n8A00020002\n";
        assert_eq!(answers, format!("{rounds}8B0001010002\n8B0003010002\n8B0303010002\n8B0300000002\n"));
        assert_eq!(desk(lines(&other).as_bytes()), answers.into_bytes());
    }
}
