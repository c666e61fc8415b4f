//! `second compare`: thousands of cases from a seed, sixteen parts, a histogram of what was hit, and the count at the end.

mod built_out;
mod calls;
mod child;
mod clashing;
mod copies;
mod damage;
mod deeds;
mod departures;
mod dice;
pub mod expressions;
mod generate;
mod inputs;
mod listings;
mod lists;
mod long;
mod marks;
mod moved;
mod outputs;
mod parts;
pub mod protocol;
mod retyped;
mod rounds;
mod rows;
mod salvages;
pub mod sample;
mod shown;
mod sifted;
mod tally;
mod text;
mod throw;
mod twice;
mod typed;
mod wide;

use child::{Driver, Words};
use dice::Dice;
use parts::{Difference, Outcome};
use std::panic::{catch_unwind, AssertUnwindSafe};
use std::sync::atomic::{AtomicU64, Ordering};
use tally::{Tally, Wanted, LEAST_HITS};

pub struct Options {
    pub cases: u64,
    pub seed: u64,
    pub jobs: usize,
    pub desk: Option<String>,
    pub copyist: Option<String>,
    pub lister: Option<String>,
    pub library: Option<String>,
}

impl Default for Options {
    fn default() -> Options {
        Options { cases: 3_000, seed: 1, jobs: 1, desk: None, copyist: None, lister: None, library: None }
    }
}

/// A part's number goes into its dice; differences beyond the first few are only counted.
const DESK: u64 = 1;
const LIBRARY: u64 = 2;
const MODEL: u64 = 3;
const ROWS: u64 = 4;
const TYPED: u64 = 5;
const FROM: u64 = 6;
const ROUNDS: u64 = 7;
const MIXED: u64 = 8;
const MOVED: u64 = 9;
const COPIES: u64 = 10;
const TWICE: u64 = 11;
const LISTS: u64 = 12;
const LISTED: u64 = 13;
const DEPARTS: u64 = 14;
const SALVAGES: u64 = 15;
const SIFTED: u64 = 16;
const MOST_SHOWN: u64 = 5;

/// What the desk program can answer with, in an answer or a refusal.
pub const DESK_NUMBERS: [u8; 14] = [0, 1, 2, 3, 4, 5, 6, 8, 9, 10, 11, 12, 13, 14];

/// What else a case of the desk can be: what it reads, and what it writes.
pub fn desk_met() -> Vec<&'static str> {
    let once_more = [deeds::CHANGED, deeds::LEFT_OUT, deeds::MIXED];
    let of_facts = [&[parts::SELF_DEALING], &deeds::NOTED[..]].concat();
    [&of_facts, &parts::NONE_GIVEN[..], &once_more, &inputs::MET[..], &outputs::MET[..]].concat()
}

/// What the library can answer a pair or one individual with.
const ANSWERS: [u8; 8] = [0, 1, 2, 3, 4, 5, 6, 8];

/// What else a case of the library must be.
const ASKED_MET: [&str; 2] = [parts::SELF_DEALING, deeds::CHANGED];

/// How many passed and how many failed.
pub fn compare(options: &Options) -> (u64, u64) {
    println!("seed {}, {} cases in each part, {} at a time", options.seed, options.cases, options.jobs);
    let mut total = (0, 0);
    println!("a. the desk program against module desk, byte for byte");
    match options.desk.as_deref().and_then(Words::of) {
        None => println!("  skipped: no --desk command was given"),
        Some(words) => {
            let work = || |dice, tally: &mut Tally| parts::desk_part(&words, dice, tally);
            let wanted = Wanted { numbers: &DESK_NUMBERS, wide: &DESK_NUMBERS, met: &desk_met() };
            judge(&mut total, run(options, DESK, work), &wanted);
        }
    }
    println!("b. the library through its C boundary against module library, with both areas");
    through_drivers(options, &mut total, (LIBRARY, wanted(&ANSWERS, &ASKED_MET)), parts::library_part);
    println!("c. rows of pairs, likewise, with the entries of each row");
    through_drivers(options, &mut total, (ROWS, wanted(&ANSWERS, &rows::MET)), parts::row_part);
    println!("d. the tables made of an expression, likewise, with the rows they are put into");
    through_drivers(
        options,
        &mut total,
        (TYPED, Wanted { numbers: &typed::NUMBERS, wide: &typed::WIDE, met: &typed::MET }),
        parts::typed_part,
    );
    println!("e. modules library and desk against the built-out model, on small collections");
    let work = || |dice, tally: &mut Tally| built_out::model_part(dice, tally);
    let met = [&shown::MET[..], &shown::DROPPED, &built_out::MET, &built_out::SALVAGED].concat();
    judge(&mut total, run(options, MODEL, work), &wanted(&[0, 1, 2, 3], &met));
    println!("f. the library's call for one individual, likewise with both areas");
    through_drivers(options, &mut total, (FROM, wanted(&ANSWERS, &ASKED_MET)), parts::from_part);
    println!("g. how many marks each round makes, likewise with both areas and the row of counts");
    through_drivers(
        options,
        &mut total,
        (ROUNDS, wanted(&rounds::NUMBERS, &rounds::MET)),
        parts::rounds_part,
    );
    println!("h. rows of both kinds of ask, likewise, with the entries of each row");
    through_drivers(options, &mut total, (MIXED, wanted(&ANSWERS, &rows::MIXED_MET)), parts::mixed_part);
    println!("i. areas moved to the places of today and back, likewise with both areas");
    let moved = Wanted { numbers: &moved::NUMBERS, wide: &[], met: &moved::MET };
    through_drivers(options, &mut total, (MOVED, moved), parts::moved_part);
    println!("j. the copyist against module copy, byte for byte, and the desk on what it writes");
    copies(options, &mut total);
    println!("k. whether two collections are the same as sets, likewise through the C boundary");
    through_drivers(options, &mut total, (TWICE, wanted(&twice::NUMBERS, &twice::MET)), parts::twice_part);
    println!(
        "l. files with lists: the desk, the copyist, and the lister against module listing, byte for byte"
    );
    lists(options, &mut total);
    println!("m. the list of a sheet through the C boundary, with the row it is put into");
    let listed = wanted(&listings::LISTED_NUMBERS, &listings::LISTED_MET);
    through_drivers(options, &mut total, (LISTED, listed), parts::listed_part);
    println!("n. where a list departs from that of a sheet, likewise");
    let met = listings::departs_met();
    let departs = wanted(&listings::DEPARTS_NUMBERS, &met);
    through_drivers(options, &mut total, (DEPARTS, departs), parts::departs_part);
    println!("o. files whose facts clash: the desk, the copyist and the lister, with salvage and without");
    salvages(options, &mut total);
    println!("p. which facts salvage keeps, through the C boundary, with the row of their marks");
    through_drivers(
        options,
        &mut total,
        (SIFTED, wanted(&sifted::NUMBERS, &sifted::MET)),
        parts::sifted_part,
    );
    total
}

/// The part of the copyist, which the desk is to answer.
fn copies(options: &Options, total: &mut (u64, u64)) {
    let words = |command: &Option<String>| command.as_deref().and_then(Words::of);
    let (Some(copyist), Some(desk)) = (words(&options.copyist), words(&options.desk)) else {
        println!("  skipped: a --copyist command and a --desk command are needed");
        return;
    };
    let programs = copies::Programs { copyist, desk };
    let work = || |dice, tally: &mut Tally| copies::copies_part(&programs, dice, tally);
    let wanted = Wanted { numbers: &copies::REFUSALS, wide: &[], met: &copies::copies_met() };
    judge(total, run(options, COPIES, work), &wanted);
}

/// The commands of all three programs; where one lacks, it has been said.
fn three(options: &Options) -> Option<[Words; 3]> {
    let words = |command: &Option<String>| command.as_deref().and_then(Words::of);
    let commands = [&options.desk, &options.copyist, &options.lister].map(words);
    let [Some(desk), Some(copyist), Some(lister)] = commands else {
        println!("  skipped: a --desk, a --copyist and a --lister command are needed");
        return None;
    };
    Some([desk, copyist, lister])
}

/// The part of the files whose facts clash, likewise.
fn salvages(options: &Options, total: &mut (u64, u64)) {
    let Some([desk, copyist, lister]) = three(options) else { return };
    let programs = salvages::Programs { desk, copyist, lister };
    let work = || |dice, tally: &mut Tally| salvages::salvages_part(&programs, dice, tally);
    judge(total, run(options, SALVAGES, work), &wanted(&salvages::NUMBERS, &salvages::salvages_met()));
}

/// The part of the lists, which all three programs read.
fn lists(options: &Options, total: &mut (u64, u64)) {
    let Some([desk, copyist, lister]) = three(options) else { return };
    let programs = lists::Programs { desk, copyist, lister };
    let work = || |dice, tally: &mut Tally| lists::lists_part(&programs, dice, tally);
    judge(total, run(options, LISTS, work), &wanted(&lists::NUMBERS, &lists::lists_met()));
}

/// One case put to a library driver.
type DriverCase = fn(&mut Driver, Dice, &mut Tally) -> Outcome;

/// A part's number, and what must be hit often enough in it.
type Part<'a> = (u64, Wanted<'a>);

/// Each number in cases with 17 to 32 states too.
fn wanted<'a>(numbers: &'a [u8], met: &'a [&'static str]) -> Wanted<'a> {
    Wanted { numbers, wide: numbers, met }
}

/// A part in which library drivers answer, each thread with one of its own.
fn through_drivers(options: &Options, total: &mut (u64, u64), part: Part, case: DriverCase) {
    let (part, wanted) = part;
    let Some(words) = options.library.as_deref().and_then(Words::of) else {
        println!("  skipped: no --library command was given");
        return;
    };
    let ended_badly = AtomicU64::new(0);
    let work = || {
        let mut driver = None;
        let start = || Driver::start(&words, &ended_badly);
        move |dice, tally: &mut Tally| with_driver(start, &mut driver, |ready| case(ready, dice, tally))
    };
    judge(total, run(options, part, work), &wanted);
    let ended_badly = ended_badly.into_inner();
    if ended_badly > 0 {
        println!("  FAILED: {ended_badly} library drivers ended with another exit status than 0");
    }
    total.1 += ended_badly;
}

/// A driver that failed is started again for the next case.
fn with_driver<'a>(
    start: impl FnOnce() -> std::io::Result<Driver<'a>>,
    driver: &mut Option<Driver<'a>>,
    case: impl FnOnce(&mut Driver<'a>) -> Outcome,
) -> Outcome {
    let mut ready = match driver.take().map_or_else(start, Ok) {
        Ok(ready) => ready,
        Err(error) => {
            let (expected, found) = ("a driver that starts".to_string(), error.to_string());
            return Err(Difference { input: Vec::new(), expected, found });
        }
    };
    let outcome = case(&mut ready);
    if outcome.is_ok() {
        *driver = Some(ready);
    }
    outcome
}

/// Runs all cases of a part, several at a time; which thread takes a case changes nothing in it.
fn run<W, C>(options: &Options, part: u64, work: W) -> Tally
where
    W: Fn() -> C + Sync,
    C: FnMut(Dice, &mut Tally) -> Outcome,
{
    let next = AtomicU64::new(0);
    let shown = AtomicU64::new(0);
    let one_thread = || {
        let mut work = work();
        let mut tally = Tally::default();
        loop {
            let case = next.fetch_add(1, Ordering::Relaxed);
            if case >= options.cases {
                return tally;
            }
            tally.cases += 1;
            let dice = Dice::of_case(options.seed, part, case);
            // A case that panics has failed; the others are still compared.
            let tried = catch_unwind(AssertUnwindSafe(|| work(dice, &mut tally)));
            if let Err(difference) = tried.unwrap_or_else(|_| Err(panicked())) {
                tally.failed += 1;
                if shown.fetch_add(1, Ordering::Relaxed) < MOST_SHOWN {
                    show(&difference, options.seed, part, case);
                }
            }
        }
    };
    std::thread::scope(|scope| {
        let threads: Vec<_> = (0..options.jobs).map(|_| scope.spawn(one_thread)).collect();
        let mut whole = Tally::default();
        for thread in threads {
            whole.add(thread.join().expect("a thread of the comparison ended by itself"));
        }
        whole
    })
}

fn panicked() -> Difference {
    let (expected, found) = ("an outcome".to_string(), "a panic, told above".to_string());
    Difference { input: Vec::new(), expected, found }
}

/// The input goes into a file, so that it can be asked again.
fn show(difference: &Difference, seed: u64, part: u64, case: u64) {
    let path = std::env::temp_dir().join(format!("second-part{part}-seed{seed}-case{case}.txt"));
    let kept = match std::fs::write(&path, &difference.input) {
        Ok(()) => path.display().to_string(),
        Err(error) => format!("nowhere ({error})"),
    };
    let head = |text: &str| text.chars().take(2_000).collect::<String>();
    println!("  DIFFERENCE in case {case}; input kept in {kept}");
    println!("  second program:\n{}\n  other:\n{}", head(&difference.expected), head(&difference.found));
}

fn judge(total: &mut (u64, u64), tally: Tally, wanted: &Wanted) {
    tally.print();
    let seldom = tally.too_seldom(wanted);
    for what in &seldom {
        println!("  FAILED: {what} was hit in fewer than {LEAST_HITS} cases");
    }
    // The model is for small collections; were many left out, the part would say little.
    let left_out = u64::from(tally.skipped * 10 > tally.cases);
    if left_out == 1 {
        println!("  FAILED: the model was too large for more than a tenth of the cases");
    }
    total.0 += tally.cases - tally.failed - tally.skipped;
    total.1 += tally.failed + seldom.len() as u64 + left_out;
}
