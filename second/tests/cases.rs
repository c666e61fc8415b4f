//! The stored run cases (cases/README.md): the second program writes each output, each fair copy and each list, and their lines of rounds are counted to the letter.

use second::copy::copy;
use second::desk::{desk, read::read};
use second::listing::list;
use second::model::known::Known;
use second::model::letter;
use std::path::{Path, PathBuf};

/// Each stored input with its output.
fn cases() -> Vec<(PathBuf, Vec<u8>, String)> {
    let folder = Path::new(env!("CARGO_MANIFEST_DIR")).join("../cases");
    let files =
        std::fs::read_dir(folder).expect("the stored cases").map(|entry| entry.expect("a file").path());
    let inputs = files.filter(|path| path.extension().is_some_and(|kind| kind == "in"));
    let case = |path: PathBuf| {
        let input = std::fs::read(&path).expect("an input");
        let output = std::fs::read_to_string(path.with_extension("out")).expect("its output");
        (path, input, output)
    };
    inputs.map(case).collect()
}

#[test]
fn every_stored_output_is_written() {
    for (path, input, output) in cases() {
        assert_eq!(String::from_utf8(desk(&input)).expect("text"), output, "{}", path.display());
    }
}

/// How many outputs are stored under this name, each of which the program writes.
fn written(program: fn(&[u8]) -> Vec<u8>, extension: &str) -> usize {
    let mut stored = 0;
    for (path, input, _) in cases() {
        let Ok(expected) = std::fs::read_to_string(path.with_extension(extension)) else { continue };
        assert_eq!(String::from_utf8(program(&input)).expect("text"), expected, "{}", path.display());
        stored += 1;
    }
    stored
}

#[test]
fn every_stored_copy_and_list_is_written() {
    let (copies, lists) = (written(copy, "copy"), written(list, "list"));
    assert!(copies > 40 && lists > 10, "{copies} copies, {lists} lists");
}

#[test]
fn every_line_of_a_round_is_counted_to_the_letter() {
    let mut lines = 0;
    for (path, input, output) in cases() {
        let written: Vec<&str> = output.lines().filter(|line| line.starts_with("8A")).collect();
        let after_dropped: Vec<&str> = output.lines().filter(|line| !line.starts_with("92")).collect();
        assert!(after_dropped.starts_with(&written), "{}", path.display());
        let Ok(file) = read(&input) else {
            assert!(written.is_empty(), "{}", path.display());
            continue;
        };
        let is_2 = |line: &str| match &line[..2] {
            "8B" => &line[6..8] == "02",
            "8E" => &line[4..6] == "02",
            _ => false,
        };
        let contradiction = output.lines().any(is_2);
        let added = if file.asks.is_empty() || contradiction {
            Vec::new()
        } else {
            letter::added(&letter::all_rounds(&Known::of(&file.collection)))
        };
        let worked = added.iter().take(file.allowance() as usize).enumerate();
        let wide = if file.collection.counts.states <= 16 { 4 } else { 8 };
        let expected: Vec<String> =
            worked.map(|(before, added)| format!("8A{:0wide$X}{added:0wide$X}", before + 1)).collect();
        assert_eq!(written, expected, "{}", path.display());
        lines += written.len();
    }
    assert!(lines > 80, "{lines} lines");
}
