//! The stored cases of the desk (cases/README.md): each input gives its output, byte for byte.

use optimised::desk::desk;
use std::fs;
use std::path::Path;

#[test]
fn every_stored_case_has_its_output() {
    let stored = Path::new(env!("CARGO_MANIFEST_DIR")).join("../../cases");
    let paths = fs::read_dir(stored).expect("the cases").map(|entry| entry.expect("a case").path());
    let inputs: Vec<_> = paths.filter(|path| path.extension().is_some_and(|end| end == "in")).collect();
    assert!(inputs.len() > 400, "{} cases", inputs.len());
    for input in inputs {
        let output = fs::read(input.with_extension("out")).expect("an output");
        assert!(desk(fs::read(&input).expect("an input")) == output, "{}", input.display());
    }
}
