//! The figures of a file for a script: one line for each ask, parted by tabs.

use super::rounds::{marks_after, marks_of_round_0, worked};
use crate::ask::Ask;
use crate::explain::Explanation;

/// first, second (a dash for an ask of one individual), number, count, the marks of round 0, the marks that stand in the first
/// area after the call, and those that each worked round added, parted by blanks, or a dash where there is none.
/// After a contradiction nothing is written there, and both counts of marks are 0.
pub fn figures(explained: &Explanation) -> String {
    let (zero, standing, worked) = match explained.clash {
        Some(_) => (0, 0, 0),
        None => (marks_of_round_0(explained), marks_after(explained, worked(explained)), worked(explained)),
    };
    let added = explained.rounds.added.iter().take(worked).map(|added| added.len().to_string());
    let added = if worked == 0 { "-".to_string() } else { added.collect::<Vec<String>>().join(" ") };
    let mut text = String::new();
    for asked in &explained.asks {
        let second = match asked.ask {
            Ask::Pair(_, second) => second.0.to_string(),
            Ask::From(_) => "-".to_string(),
        };
        let answer = format!("{}\t{second}\t{}\t{}", asked.ask.first().0, asked.number, asked.count);
        text += &format!("{answer}\t{zero}\t{standing}\t{added}\n");
    }
    text
}

#[cfg(test)]
mod tests {
    use super::*;
    use crate::area::standing;
    use crate::explain::MOST_STEPS;
    use crate::prepared::Prepared;

    const B: &str = "010202020400 020040 024101 060000 08000001 09010102 08020103 0A03 0B0000 0B0001";

    fn explained(words: &str) -> Explanation {
        let input: String = words.split(' ').map(|line| format!("{line}\n")).collect();
        Explanation::of(input.as_bytes(), MOST_STEPS).unwrap_or_else(|_| panic!("a sound file"))
    }

    #[test]
    fn the_base_collection() {
        let figures = |words: &str| figures(&explained(words));
        assert_eq!(figures(B), "0\t0\t1\t2\t24\t28\t2 2\n0\t1\t0\t2\t24\t28\t2 2\n");
        assert_eq!(figures(&format!("{B} 030141")), "0\t0\t2\t0\t0\t0\t-\n0\t1\t2\t0\t0\t0\t-\n");
        assert_eq!(figures(&format!("{B} 0C0001")), "0\t0\t3\t1\t24\t26\t2\n0\t1\t3\t1\t24\t26\t2\n");
    }

    #[test]
    fn the_marks_are_those_of_the_area() {
        for allowance in 0..4 {
            let explained = explained(&format!("{B} 0C{allowance:04X}"));
            let prepared = Prepared::of(&explained.file.collection, allowance);
            let standing = standing(&prepared.area().expect("no contradiction"));
            assert_eq!(marks_after(&explained, worked(&explained)), standing);
            let added = prepared.added().expect("no contradiction").iter().map(|added| *added as usize);
            assert_eq!(marks_of_round_0(&explained) + added.sum::<usize>(), standing);
        }
    }
}
