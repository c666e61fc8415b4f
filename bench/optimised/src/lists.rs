//! Files with a list of 131,072 entries, the most that there can be: each of 128 concepts is below name 0, which is tested from each of 32
//! states to each other. So in round 0 each state stands with itself, and in round 1 with each other, for every concept.

/// What such a file is for.
pub const KINDS: [&str; 3] = ["full", "departs", "contradiction"];

const STATES: u8 = 32;
const CONCEPTS: u8 = 128;

/// None where there is no such kind. All have as many lines, but for one more in a contradiction.
pub fn make(kind: &str) -> Option<Vec<u8>> {
    let mut lines = collection();
    let from = lines.len();
    for round in [0, 1] {
        let pairs = (0..STATES).flat_map(|from| (0..STATES).map(move |to| (from, to)));
        for (from, to) in pairs.filter(|(from, to)| u32::from(from != to) == round) {
            lines.extend((0..CONCEPTS).map(|concept| entry(round, from, to, concept)));
        }
    }
    match kind {
        "full" => {}
        // Round 1 in place of round 0: the list departs at its first line.
        "departs" => lines[from] = entry(1, 0, 0, 0),
        // Individual 0 has name 0, which is excluded from itself.
        "contradiction" => lines.insert(from, "030000".to_string()),
        _ => return None,
    }
    Some((lines.join("\n") + "\n").into_bytes())
}

fn entry(round: u32, from: u8, to: u8, concept: u8) -> String {
    format!("10{round:08X}{from:02X}{to:02X}{concept:02X}")
}

/// The lines of the collection, with one ask.
fn collection() -> Vec<String> {
    let mut lines = vec![format!("01402001{STATES:02X}00"), "060000".to_string()];
    lines.extend((1..CONCEPTS).map(|concept| format!("02{concept:02X}00")));
    let pairs = (0..STATES).flat_map(|from| (0..STATES).map(move |to| (from, to)));
    lines.extend(pairs.filter(|(from, to)| from != to).map(|(from, to)| format!("09{from:02X}00{to:02X}")));
    lines.extend(["0A00", "0B0000"].map(String::from));
    lines
}
