//! Part (e) of the comparison: modules `library` and `desk` against the built-out model, on small collections; and on those in which
//! salvage is chosen.

use super::dice::Dice;
use super::expressions::{self, expressed};
use super::generate::{deep_end, small, Asked};
use super::outputs::FROM;
use super::parts::{Difference, Outcome};
use super::salvages::with_choice;
use super::tally::Tally;
use super::throw::{throw_exclusions, throw_facts, Amounts};
use super::wide::{is_wide, joined, widened};
use super::{shown, text};
use crate::area::{self, AREA};
use crate::ask::Ask;
use crate::collection::Collection;
use crate::desk::desk;
use crate::desk::read::read;
use crate::library::{self, ask, ask_from, Call};
use crate::listing::{listing, Entry};
use crate::model::{known::Known, letter, Answer, Model, TooLarge};
use crate::salvage::{with_facts, Fact};
use std::collections::BTreeSet;

/// What an ask of one individual can be: each number, and a yes where every pair from it is no.
pub const MET: [&str; 5] = {
    let [no, yes, contradiction, spent] = FROM;
    [no, yes, contradiction, spent, "yes of one individual, to unnamed elements only"]
};

/// What the model and the sheet to the letter say of a whole case.
struct Said {
    /// Number and count for each ask.
    answers: Vec<(u8, u32)>,
    /// The first area after the call, None where it stays untouched.
    area: Option<Vec<u8>>,
    /// 2 for a contradiction, 3 where more rounds are needed than allowed, else 0.
    closed: u8,
    /// How many marks each worked round added; none after a contradiction.
    added: Vec<u32>,
    /// None after a contradiction.
    listing: Option<Vec<Entry>>,
    depth: usize,
    /// The marks that search finds are those of the closed sheet.
    marks_agree: bool,
}

pub fn model_part(mut dice: Dice, tally: &mut Tally) -> Outcome {
    // Some more paths that end deep, and no expression in place of their questions.
    let asked = match dice.percent(15) {
        true => deep_end(&mut dice),
        false => {
            let asked = small(&mut dice);
            let asked = expressed(&mut dice, asked, 5);
            let asked = widened(&mut dice, asked, 40);
            joined(&mut dice, asked)
        }
    };
    let allowance = allowance_of(&asked);
    let known = Known::of(&asked.collection);
    let Ok(said) = say(&asked, &known, allowance) else {
        tally.skipped += 1;
        return Ok(());
    };
    if asked.allowance.is_none() && said.closed == 3 {
        let found = format!("more rounds are needed than {allowance}");
        let (input, expected) = (Vec::new(), "without 0C the rounds needed are always allowed".to_string());
        return Err(Difference { input, expected, found });
    }
    count(&said, &asked.asks, tally);
    if is_wide(asked.collection.counts.states.into()) {
        let numbers: BTreeSet<u8> = said.answers.iter().map(|answer| answer.0).collect();
        numbers.into_iter().for_each(|number| tally.wide(number));
    }
    if asked.expression.is_some() {
        tally.kind("with an expression");
        if said.answers.iter().any(|answer| answer.0 == 1) {
            tally.kind("with an expression and a yes");
        }
    }
    let lines = text::lines(&mut dice, &asked);
    let input = text::input(&mut dice, &lines);
    let differs = |(expected, found): (String, String)| Difference { input: input.clone(), expected, found };
    library_agrees(&asked, allowance, &said).map_err(differs)?;
    if let Some(marks) = &asked.expression {
        expressions::agrees(marks, &asked, &said.answers).map_err(differs)?;
    }
    let expected = desk_lines(&asked, &input, &said);
    let found = String::from_utf8_lossy(&desk(&input)).into_owned();
    if expected != found {
        return Err(differs((expected, found)));
    }
    let met = shown::agrees(&input, &known).map_err(differs)?;
    met.into_iter().for_each(|what| tally.met(what));
    salvage_part(dice, asked, tally)
}

/// What a file that chooses salvage can be.
pub const SALVAGED: [&str; 2] = ["facts that the model drops", "no fact that the model drops"];

/// The same with salvage, and mostly with more that clashes. The model says of each fact, with those kept before it, whether it
/// is a contradiction; and what is answered over the kept ones.
fn salvage_part(mut dice: Dice, mut asked: Asked, tally: &mut Tally) -> Outcome {
    let dice = &mut dice;
    if dice.percent(60) {
        let (concepts, roles) = (dice.between(1, 3), dice.below(2));
        throw_exclusions(dice, &mut asked.collection, concepts, roles);
        let amounts = Amounts { facts: dice.below(4), role_facts: dice.below(4), ..Amounts::default() };
        throw_facts(dice, &mut asked.collection, &amounts);
    }
    let plain = text::lines(dice, &asked);
    let lines = with_choice(dice, &plain);
    let input = text::input(dice, &lines);
    let differs = |(expected, found): (String, String)| Difference { input: input.clone(), expected, found };
    let file = read(&input).map_err(|fault| differs(("a sound file".into(), format!("{fault:?}"))))?;
    let (facts, places): (Vec<Fact>, Vec<usize>) = file.facts().into_iter().unzip();
    let Ok((kept, over)) = kept_by_model(&asked, &facts) else { return Ok(()) };
    let Ok(said) = say(&over, &Known::of(&over.collection), allowance_of(&over)) else { return Ok(()) };
    let order: Vec<u16> = facts.iter().map(|fact| u16::from(matches!(fact, Fact::Role(_)))).collect();
    let told = library::salvage(&Call::of(&file.collection, 0), &order, facts.len());
    if told.as_ref() != Ok(&kept) {
        return Err(differs((format!("the model keeps {kept:?}"), format!("library {told:?}"))));
    }
    let dropped = places.into_iter().zip(&kept).filter(|(_, kept)| !**kept).map(|(line, _)| line);
    let told: String = dropped.map(|line| format!("92{line:04X}\n")).collect();
    let expected = told + &desk_lines(&over, &input, &said);
    let found = String::from_utf8_lossy(&desk(&input)).into_owned();
    if expected != found {
        return Err(differs((expected, found)));
    }
    shown::agrees(&input, &Known::of(&over.collection)).map_err(differs)?;
    let met = shown::dropped_agree(&input).map_err(differs)?;
    tally.met(SALVAGED[usize::from(!kept.contains(&false))]);
    met.into_iter().for_each(|what| tally.met(what));
    Ok(())
}

/// For each fact whether it is kept, and the same collection and asks without the others.
fn kept_by_model(asked: &Asked, facts: &[Fact]) -> Result<(Vec<bool>, Asked), TooLarge> {
    let mut before: Vec<Fact> = Vec::new();
    let mut marks = Vec::new();
    for fact in facts {
        let with = with_facts(&asked.collection, &[&before[..], &[*fact]].concat());
        let kept = !Model::of(&Known::of(&with))?.is_contradiction();
        marks.push(kept);
        before.extend(kept.then_some(*fact));
    }
    let (asks, expression) = (asked.asks.clone(), asked.expression.clone());
    let collection = with_facts(&asked.collection, &before);
    Ok((marks, Asked { collection, asks, allowance: asked.allowance, expression }))
}

fn allowance_of(asked: &Asked) -> u32 {
    asked.allowance.unwrap_or(asked.collection.counts.most_rounds())
}

fn count(said: &Said, asks: &[Ask], tally: &mut Tally) {
    tally.kind("small");
    tally.depth(said.depth);
    let numbers: BTreeSet<u8> = said.answers.iter().map(|answer| answer.0).collect();
    numbers.iter().for_each(|number| tally.number(*number));
    met(said, asks).into_iter().for_each(|met| tally.met(met));
    said.answers.iter().take(1).filter(|answer| answer.0 < 2).for_each(|answer| tally.rounds(answer.1));
}

/// What the asks of one individual were, of those of `MET`.
fn met(said: &Said, asks: &[Ask]) -> BTreeSet<&'static str> {
    let answered = || asks.iter().zip(&said.answers).map(|(ask, answer)| (*ask, answer.0));
    let by_pair = |first| {
        answered().any(|(ask, number)| matches!(ask, Ask::Pair(..)) && ask.first() == first && number == 1)
    };
    let mut met = BTreeSet::new();
    for (ask, number) in answered() {
        if let Ask::From(first) = ask {
            met.insert(MET[usize::from(number)]);
            met.extend((number == 1 && !by_pair(first)).then_some(MET[4]));
        }
    }
    met
}

fn say(asked: &Asked, known: &Known, allowance: u32) -> Result<Said, TooLarge> {
    let model = Model::of(known)?;
    let sheets = letter::all_rounds(known);
    let needed = sheets.len() - 1;
    let worked = needed.min(allowance as usize);
    let answered = |answer: Answer| match answer {
        Answer::Contradiction => (2, 0),
        _ if needed > worked => (3, allowance),
        Answer::Yes => (1, needed as u32),
        Answer::No => (0, needed as u32),
    };
    let answers = model.asked(&asked.asks)?.into_iter().map(answered).collect();
    let area = (!model.is_contradiction()).then(|| area::holding(sheets[worked].iter().copied()));
    let added = if area.is_some() { letter::added(&sheets[..=worked]) } else { Vec::new() };
    let listing = area.is_some().then(|| letter::listing(&sheets));
    let closed = match &area {
        None => 2,
        Some(_) if needed > worked => 3,
        Some(_) => 0,
    };
    let marks_agree = *model.loops() == sheets[needed];
    Ok(Said { answers, area, closed, added, listing, depth: model.depth, marks_agree })
}

/// What the model answers to these asks of a collection.
pub fn questioned(collection: &Collection, asks: &[Ask]) -> Result<Vec<Answer>, TooLarge> {
    let known = Known::of(collection);
    Model::of(&known)?.asked(asks)
}

/// Each ask is put to module `library`, with both areas.
fn library_agrees(asked: &Asked, allowance: u32, said: &Said) -> Result<(), (String, String)> {
    if !said.marks_agree {
        return Err(("the closed sheet to the letter".into(), "other loops by search".into()));
    }
    let listed = listing(&asked.collection);
    if listed != said.listing {
        return Err((format!("the list {:?} to the letter", said.listing), format!("{listed:?}")));
    }
    let before = (vec![0xAA; AREA], vec![0x55; AREA]);
    let after = said.area.clone().map_or(before.clone(), |sheet| (sheet, vec![0; AREA]));
    let call = Call::of(&asked.collection, allowance);
    let (mut area, mut spare) = before.clone();
    let told = library::marks(&call, allowance as usize, &mut area, &mut spare);
    let expected = (said.closed, said.area.is_some().then(|| said.added.clone()));
    if told != expected || (area, spare) != after {
        return Err((
            format!("library {told:?} of rounds, or an area"),
            format!("to the letter {expected:?}"),
        ));
    }
    for (one, answer) in asked.asks.iter().zip(&said.answers) {
        let (mut area, mut spare) = before.clone();
        let found = match one {
            Ask::Pair(first, second) => ask(&call, [first.0.into(), second.0.into()], &mut area, &mut spare),
            Ask::From(first) => ask_from(&call, first.0.into(), &mut area, &mut spare),
        };
        if found != *answer || (area, spare) != after {
            return Err((format!("library {found:?} on {one:?}, or an area"), format!("model {answer:?}")));
        }
    }
    Ok(())
}

/// The output lines that the model makes, in the order in which the asks stand in the input.
fn desk_lines(asked: &Asked, input: &[u8], said: &Said) -> String {
    let written = |ask: &Ask| String::from_utf8(text::line(&ask.frame())).expect("digits");
    let mut output = String::new();
    let wide = if asked.collection.counts.states <= 16 { 4 } else { 8 };
    if !asked.asks.is_empty() {
        let rounds = said.added.iter().enumerate();
        output.extend(rounds.map(|(before, added)| format!("8A{:0wide$X}{added:0wide$X}\n", before + 1)));
    }
    let is_ask = |line: &&str| line.starts_with("0B") || line.starts_with("0E");
    for line in String::from_utf8_lossy(input).lines().filter(is_ask) {
        let mut answers = asked.asks.iter().zip(&said.answers);
        let (_, (number, count)) = answers.find(|(ask, _)| written(ask) == line).expect("it is asked");
        output += &format!("8{}{number:02X}{count:0wide$X}\n", &line[1..]);
    }
    output
}
