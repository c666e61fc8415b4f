//! The comparison tried on the second program itself: all sixteen parts, and each number hit often enough.

use second::compare::{compare, desk_met, sample::sample, Options, DESK_NUMBERS};
use second::desk::desk;

#[test]
fn the_second_program_agrees_with_itself_and_with_the_model() {
    let program = env!("CARGO_BIN_EXE_second");
    let programs = ["desk", "copy", "list", "answer"].map(|verb| Some(format!("{program} {verb}")));
    let [desk, copyist, lister, library] = programs;
    let (passed, failed) =
        compare(&Options { cases: 2_000, seed: 2, jobs: 2, desk, copyist, lister, library });
    assert_eq!(failed, 0);
    assert!(passed > 31_900);
}

/// How many of so few cases fail with these programs: what is met too seldom counts too.
fn failed(cases: u64, seed: u64, programs: [Option<&str>; 4]) -> u64 {
    let [desk, copyist, lister, library] = programs.map(|command| command.map(String::from));
    compare(&Options { cases, seed, jobs: 1, desk, copyist, lister, library }).1
}

/// The differing inputs are kept for whoever wants to look at them; here nobody does.
fn remove_kept(seed: u64) {
    for entry in std::fs::read_dir(std::env::temp_dir()).expect("a directory").flatten() {
        if entry.file_name().to_string_lossy().contains(&format!("-seed{seed}-")) {
            std::fs::remove_file(entry.path()).expect("our own file");
        }
    }
}

#[test]
fn another_program_fails() {
    let program = env!("CARGO_BIN_EXE_second");
    let [desk, copyist, lister] = ["desk", "copy", "list"].map(|verb| format!("{program} {verb}"));
    let lists = |desk, copyist, lister| failed(60, 424_242, [desk, copyist, lister, None]);
    let failed = |desk, copyist| lists(desk, copyist, None);
    // `cat` writes its input back, which is never what the desk writes.
    assert!(failed(Some("cat"), None) > 50);
    // Nor is it what the copyist writes, but of a fair copy; what the desk writes is so of faulty files alone.
    let right = failed(Some(&desk), Some(&copyist));
    assert!(failed(Some(&desk), Some("cat")) > right + 50);
    assert!(failed(Some(&desk), Some(&desk)) > right + 20);
    // A desk that answers otherwise fails at the copies too.
    assert!(failed(Some("cat"), Some(&copyist)) > failed(Some("cat"), None) + 20);
    // A copyist leaves out the list that a lister writes.
    let right = lists(Some(&desk), Some(&copyist), Some(&lister));
    assert!(lists(Some(&desk), Some(&copyist), Some(&copyist)) > right + 10);
    assert!(lists(Some(&desk), Some(&lister), Some(&lister)) > right + 20);
    remove_kept(424_242);
}

#[test]
fn a_bad_exit_status_fails() {
    // What `second` writes is right, and then it ends with 3: each run of the desk or the copyist fails, and so does the end of the driver.
    let folder = std::env::temp_dir().join(format!("second-status-{}", std::process::id()));
    std::fs::create_dir_all(&folder).expect("a folder of our own");
    let program = env!("CARGO_BIN_EXE_second");
    let [right, wrong] = [0, 3].map(|status| {
        ["desk", "copy", "list", "answer"].map(|verb| {
            let script = folder.join(format!("{verb}-{status}"));
            std::fs::write(&script, format!("{program} {verb}\nexit {status}\n")).expect("a file of our own");
            format!("sh {}", script.display())
        })
    });
    let failed = |programs| failed(40, 616_161, programs);
    let sound = failed([None; 4]);
    // Of so few cases each number of the desk, and all else of it, is met too seldom.
    let desk = 40 + (2 * DESK_NUMBERS.len() + desk_met().len()) as u64;
    assert_eq!(failed([Some(&wrong[0]), None, None, None]), sound + desk);
    let right: Vec<Option<&str>> = right.iter().map(|command| Some(&command[..])).collect();
    let copies = failed([right[0], right[1], None, None]);
    assert_eq!(failed([right[0], Some(&wrong[1]), None, None]), copies + 40);
    let lists = failed([right[0], right[1], right[2], None]);
    // Two parts have a lister.
    assert_eq!(failed([right[0], right[1], Some(&wrong[2]), None]), lists + 80);
    // Eleven parts have a driver.
    let library = failed([None, None, None, right[3]]);
    assert_eq!(failed([None, None, None, Some(&wrong[3])]), library + 11);
    std::fs::remove_dir_all(&folder).expect("our own folder");
    remove_kept(616_161);
}

#[test]
fn a_collection_that_needs_1954_rounds() {
    let output = String::from_utf8(desk(&sample("rounds", 1).expect("a kind"))).expect("text");
    let (rounds, answers): (Vec<&str>, Vec<&str>) = output.lines().partition(|line| line.starts_with("8A"));
    assert!(answers.iter().all(|line| line.ends_with("0107A2")) && answers.len() == 6);
    // Each round goes one child up the ring of roles, and marks what promises that child: the child above it, and
    // having such a neighbour. In the last round the child above was marked by the test before.
    assert_eq!(rounds.len(), 1_954);
    let added = (1..=1_954).map(|round| format!("8A{round:04X}{:04X}", if round < 1_954 { 2 } else { 1 }));
    assert!(added.eq(rounds.iter().map(|line| line.to_string())) && output.starts_with("8A"));
}

#[test]
fn long_samples_are_long_and_faulty() {
    for seed in 0..12 {
        let input = sample("long", seed).expect("a kind");
        assert!(input.len() > 501_000);
        assert!(desk(&input).starts_with(b"8F"));
    }
}
