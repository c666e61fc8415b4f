//! The commands of the second program: desk, copy, list, explain, paper, changes, picture, automaton, compare, answer and sample.

use second::compare::{compare, protocol, Options};
use second::explain::{Explanation, MOST_STEPS};
use second::paper::words::Words;
use second::print;
use std::io::{BufRead, Read, Write};
use std::process::ExitCode;

const USAGE: &str = "second desk                  the desk: standard input to standard output
second copy                  the copyist: standard input to standard output
second list                  the lister: standard input to standard output
second explain FILE          what stands behind the desk's answers to a file, as readable text
second paper BLOCK FILE [WORDS]
                             a block about a file, for a page: records, marks, places, automaton, numbers, orders, people, model,
                             ends, pairs, exclusions, ways, sheets, rounds, walks, below, behind, answers or salvage; empty-records and so on for
                             the empty form; forms for all the empty forms; or figures, for a script
second changes FILE OTHER [WORDS]
                             the lines in which a file differs from another, in words
second picture TITLE FILE [WORDS]
                             the canonical model of a file as SVG, with the path or the clash
    WORDS         words for names, then for roles, as in Owner,Deed/signs,holds
second automaton TITLE FILE [WORDS]
                             the automaton of a file's expression as SVG
second compare [OPTIONS]     the comparison
    --cases N     cases in each part (3000)
    --seed S      the seed of all cases (1)
    --jobs J      cases at a time (1)
    --desk CMD    the desk program to compare, a command with its words in one argument
    --copyist CMD the copyist to compare, likewise; --desk is needed too
    --lister CMD  the lister to compare, likewise; --desk and --copyist are needed too
    --library CMD the library driver to compare, likewise; PROTOCOL.md says what it reads and writes
second answer                the second program's own library behind that protocol
second sample KIND SEED      a file for the desk: small, medium, full (256 asks), rounds (1,954 are needed), damaged, long, or
                             clashing (with 0F)";

fn main() -> ExitCode {
    let words: Vec<String> = std::env::args().skip(1).collect();
    let (command, rest) = match words.split_first() {
        Some((command, rest)) => (command.as_str(), rest),
        None => ("", &[][..]),
    };
    match (command, rest) {
        ("desk", []) => answered(second::desk::desk),
        ("copy", []) => answered(second::copy::copy),
        ("list", []) => answered(second::listing::list),
        ("explain", [file]) => explain(file),
        ("paper", [block, file]) => paper(block, file, ""),
        ("paper", [block, file, words]) => paper(block, file, words),
        ("changes", [file, other]) => changes(file, other, ""),
        ("changes", [file, other, words]) => changes(file, other, words),
        ("picture", [title, file]) => picture(title, file, ""),
        ("picture", [title, file, words]) => picture(title, file, words),
        ("automaton", [title, file]) => automaton(title, file, ""),
        ("automaton", [title, file, words]) => automaton(title, file, words),
        ("answer", []) => answer(),
        ("sample", [kind, seed]) => sample(kind, seed),
        ("compare", options) => match read_options(options) {
            Some(options) => run_comparison(&options),
            None => usage(),
        },
        _ => usage(),
    }
}

fn usage() -> ExitCode {
    eprintln!("{USAGE}");
    ExitCode::from(2)
}

/// Whole input to whole output.
fn answered(program: fn(&[u8]) -> Vec<u8>) -> ExitCode {
    let mut input = Vec::new();
    std::io::stdin().read_to_end(&mut input).expect("standard input can be read");
    written(&program(&input))
}

/// Whoever reads the output may stop before its end, so an error is told by the exit status only.
fn written(output: &[u8]) -> ExitCode {
    match std::io::stdout().write_all(output) {
        Ok(()) => ExitCode::SUCCESS,
        Err(_) => ExitCode::FAILURE,
    }
}

fn explain(path: &str) -> ExitCode {
    let Some(input) = contents(path) else { return ExitCode::from(2) };
    let text = match Explanation::of(&input, MOST_STEPS) {
        Ok(explained) => print::explanation(&explained),
        Err(faulty) => print::faulty(&faulty),
    };
    written(text.as_bytes())
}

/// None when the file can't be read, and then it has been said why.
fn contents(path: &str) -> Option<Vec<u8>> {
    let read = std::fs::read(path);
    read.map_err(|error| eprintln!("{path}: {error}")).ok()
}

/// A sound file and what stands behind its answers; None otherwise, and then it has been said why.
fn sound(path: &str) -> Option<(Vec<u8>, Explanation)> {
    let input = contents(path)?;
    match Explanation::of(&input, MOST_STEPS) {
        Ok(explained) => Some((input, explained)),
        Err(faulty) => {
            eprintln!("{}", print::faulty(&faulty));
            None
        }
    }
}

fn paper(block: &str, path: &str, words: &str) -> ExitCode {
    let Some((input, explained)) = sound(path) else { return ExitCode::from(2) };
    match second::paper::block(block, &input, &explained, &Words::read(words)) {
        Some(text) => written(text.as_bytes()),
        None => usage(),
    }
}

fn changes(path: &str, other: &str, words: &str) -> ExitCode {
    let (Some((input, _)), Some((other, _))) = (sound(path), sound(other)) else { return ExitCode::from(2) };
    written(second::paper::changes(&input, &other, &Words::read(words)).as_bytes())
}

fn picture(title: &str, path: &str, words: &str) -> ExitCode {
    let Some((_, explained)) = sound(path) else { return ExitCode::from(2) };
    match second::picture::picture(&explained, &Words::read(words), title) {
        Ok(text) => written(text.as_bytes()),
        Err(_) => {
            eprintln!("{path}: too many elements for a picture");
            ExitCode::FAILURE
        }
    }
}

fn automaton(title: &str, path: &str, words: &str) -> ExitCode {
    let Some((_, explained)) = sound(path) else { return ExitCode::from(2) };
    match &explained.file.expression {
        Some(typed) => {
            written(second::picture::automaton::automaton(typed, &Words::read(words), title).as_bytes())
        }
        None => {
            eprintln!("{path}: its question is typed as steps and finals");
            ExitCode::FAILURE
        }
    }
}

fn answer() -> ExitCode {
    for line in std::io::stdin().lock().lines() {
        let line = line.expect("standard input can be read");
        println!("{}", protocol::reply(&line));
    }
    ExitCode::SUCCESS
}

fn sample(kind: &str, seed: &str) -> ExitCode {
    let Some(file) = seed.parse().ok().and_then(|seed| second::compare::sample::sample(kind, seed)) else {
        return usage();
    };
    written(&file)
}

fn read_options(words: &[String]) -> Option<Options> {
    let mut options = Options::default();
    for pair in words.chunks(2) {
        let [option, value] = pair else { return None };
        match option.as_str() {
            "--cases" => options.cases = value.parse().ok()?,
            "--seed" => options.seed = value.parse().ok()?,
            "--jobs" => options.jobs = value.parse().ok().filter(|jobs| *jobs > 0)?,
            "--desk" => options.desk = Some(value.clone()),
            "--copyist" => options.copyist = Some(value.clone()),
            "--lister" => options.lister = Some(value.clone()),
            "--library" => options.library = Some(value.clone()),
            _ => return None,
        }
    }
    Some(options)
}

fn run_comparison(options: &Options) -> ExitCode {
    let (passed, failed) = compare(options);
    println!("{passed} passed, {failed} failed");
    if failed == 0 {
        ExitCode::SUCCESS
    } else {
        ExitCode::FAILURE
    }
}
