//! What the benchmark needs beside the programs it measures: its files, and its plot.

use std::io::Write;
use std::process::ExitCode;

const USAGE: &str =
    "files make KIND [SIZE]   a file to measure with: least, medium, dense, layered, chain, laps, wide or wide-laps; with a
                         size: facts (0 to 4096), rules (0 to 512), states (1 to 32) or asks (0 to 256)
files spread KIND SIZE SEED
                         one of the spread: expressions, clusters, few-roles, many-roles, contradictions, chains or
                         ladders; large or small, wide-large or wide-small
files copy KIND          a file for the copyist: 4,096 role facts, random, in-order, from-the-highest, of-one-meaning or
                         of-one-record; or an expression
files clash KIND         a file of 5,120 facts: contradiction or salvage; or, without exclusions, harmless or harmless-salvage
files list KIND          a file with a list of 131,072 entries: full, departs or contradiction
files plot               lines of series, size, program and instructions, parted by tabs, to an SVG
files strip              lines of kind, size, the desk's instructions and the optimised program's, likewise";

fn main() -> ExitCode {
    let words: Vec<String> = std::env::args().skip(1).collect();
    let words: Vec<&str> = words.iter().map(String::as_str).collect();
    let output = match words[..] {
        ["make", kind] => optimised::make::make(kind, None),
        ["make", kind, size] => size.parse().ok().and_then(|size| optimised::make::make(kind, Some(size))),
        ["spread", kind, size, seed] => {
            seed.parse().ok().and_then(|seed| optimised::spread::make(kind, size, seed))
        }
        ["copy", kind] => optimised::copies::make(kind),
        ["clash", kind] => optimised::clashes::make(kind),
        ["list", kind] => optimised::lists::make(kind),
        ["plot"] => drawn(optimised::plot::plot),
        ["strip"] => drawn(optimised::strip::strip),
        _ => None,
    };
    let Some(output) = output else {
        eprintln!("{USAGE}");
        return ExitCode::from(2);
    };
    // Whoever reads the output may stop before its end, so an error is told by the exit status only.
    match std::io::stdout().write_all(&output) {
        Ok(()) => ExitCode::SUCCESS,
        Err(_) => ExitCode::FAILURE,
    }
}

/// The plot of the table on standard input.
fn drawn(plot: impl Fn(&str) -> Option<String>) -> Option<Vec<u8>> {
    let table = std::io::read_to_string(std::io::stdin()).ok()?;
    plot(&table).map(String::into_bytes)
}
