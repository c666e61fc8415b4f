//! The optimised program: the desk, standard input to standard output.

use std::io::{Read, Write};
use std::process::ExitCode;

fn main() -> ExitCode {
    let mut input = Vec::with_capacity(1 << 16);
    let most = optimised::read::MOST_READ as u64;
    if std::io::stdin().lock().take(most).read_to_end(&mut input).is_err() {
        eprintln!("standard input cannot be read");
        return ExitCode::FAILURE;
    }
    if std::io::stdout().write_all(&optimised::desk::desk(input)).is_err() {
        eprintln!("standard output cannot be written whole");
        return ExitCode::FAILURE;
    }
    ExitCode::SUCCESS
}
