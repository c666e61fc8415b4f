//! What docs/PAPER.md shows of a case, block by block, and the figures for the script that fills the page in.

pub mod asks;
pub mod clash;
mod exclusions;
mod figures;
mod forms;
mod orders;
mod question;
mod records;
mod rounds;
mod salvage;
mod table;
pub mod tree;
mod ways;
pub mod words;

use crate::explain::Explanation;
use words::Words;

/// One block of the page about a sound file; None where there is no such block.
pub fn block(name: &str, input: &[u8], explained: &Explanation, words: &Words) -> Option<String> {
    if let Some(empty) = name.strip_prefix("empty-") {
        return forms::form(empty, input, explained, words);
    }
    Some(match name {
        "records" => records::records(input, words),
        "copy" => records::copy(input, words),
        "list" => records::list(input, words),
        "salvage" => salvage::salvage(explained, words),
        "marks" => question::marks(explained, words),
        "places" => question::places(explained, words),
        "automaton" => question::automaton(explained, words),
        "numbers" => orders::numbers(explained, words),
        "orders" => orders::orders(explained, words),
        "people" => orders::people(explained, words),
        "model" => tree::model(explained, words),
        "ends" => exclusions::ends(explained, words),
        "pairs" => exclusions::pairs(explained, words),
        "exclusions" => exclusions::exclusions(explained, words),
        "ways" => ways::ways(explained, words),
        "sheets" => rounds::sheets(explained, words),
        "rounds" => rounds::rounds(explained, words),
        "walks" => asks::walks(explained, words),
        "below" => asks::below(explained, words),
        "behind" => asks::behind(explained, words),
        "answers" => asks::answers(explained),
        "forms" => forms::all(input, explained, words),
        "figures" => figures::figures(explained),
        _ => return None,
    })
}

pub use records::changes;

#[cfg(test)]
mod tests {
    use super::*;
    use crate::explain::MOST_STEPS;

    const B: &str = "010202020400 020040 024101 060000 08000001 09010102 08020103 0A03 0B0000 0B0001";

    fn text(name: &str, file: &str) -> String {
        let input: String = file.split(' ').map(|line| format!("{line}\n")).collect();
        let explained =
            Explanation::of(input.as_bytes(), MOST_STEPS).unwrap_or_else(|_| panic!("a sound file"));
        let words = Words::read("Owner,Deed/signs,holds");
        block(name, input.as_bytes(), &explained, &words).expect("a block")
    }

    #[track_caller]
    fn says(name: &str, file: &str, parts: &[&str]) {
        let text = text(name, file);
        for part in parts {
            assert!(text.contains(part), "{part:?} is not in\n{text}");
        }
    }

    #[test]
    fn the_base_collection() {
        says("records", B, &["| 3 | `024101` | rule ∃(signs backward) ≤ Deed |"]);
        says("people", B, &["| 0 | ∃signs | typed on line 4; Owner ≤ ∃signs (line 2) |", "| 1 | none |"]);
        says("model", B, &["| 0·signs | 0 has ∃signs | Deed, ∃(signs backward) | signs |"]);
        says("orders", B, &["| signs | none |  |", "| Owner | ∃signs | Owner ≤ ∃signs (line 2) |"]);
        says("ends", B, &["| signs | 0 has ∃signs | Deed, ∃(signs backward) | signs | signs backward |"]);
        says("ends", B, &["| signs backward | …·signs has ∃(signs backward) |", "| holds | no row does |"]);
        says("exclusions", B, &["No exclusion is typed"]);
        says("ways", B, &["| Deed (line 6) | 1 | 2 | Deed, ∃(signs backward) |"]);
        let ways = "| signs | Owner, ∃signs | 0 to 1 by signs (line 5) | ∃(signs backward) | 2 to 3 by signs backward (line 7) |";
        says("ways", B, &[ways]);
        says("sheets", B, &["After round 1: 26 marks.", "| 1 | 1 | 1 **2** | 1 | 1 **2** | 1 | 1 |"]);
        says("sheets", B, &["After round 2: 28 marks.", "| 0 | 0 **3** | 0 | 0 **3** | 0 | 0 | 0 |"]);
        says(
            "sheets",
            B,
            &["Marks added: 2. The desk writes `8A00010002`.", "The desk writes `8A00020002`."],
        );
        says("rounds", B, &["| 2 | (0, 3, Owner) | 3 | R is signs, Owner ≤ ∃signs;", "rounds needed 2"]);
        says("rounds", B, &["| 24 + 2 = 26 | `8A00010002` |", "| 26 + 2 = 28 | `8A00020002` |"]);
        says("walks", B, &["| 0 | 3 | yes | 0 in state 0 | the mark (0, 3, Owner) |"]);
        says("behind", B, &["| 2 | 0·signs | 2 | test Deed (line 6) |", "the walk never comes to 1."]);
        says("answers", B, &["| (0, 1) | no, 2 rounds | 0 | 2 | `8B0001000002` |"]);
    }

    #[test]
    fn every_form() {
        says("empty-records", B, &["| 3 | `024101` |  |"]);
        says("empty-numbers", B, &["| ∃signs |  |  |"]);
        says("empty-orders", B, &["| signs backward |  |  |", "| Deed |  |  |"]);
        says("empty-sheets", B, &["| 3 |  |  |  |  |  |  |", "Marks added:"]);
        says("empty-walks", B, &["| 0 | 0 |  |  |  |"]);
        says("forms", B, &["## Step 1: the file", "## Step 8: the answers"]);
        for (block, _) in forms::FORMS {
            let heads = |name| text(name, B).lines().find(|line| line.starts_with('|')).map(String::from);
            let filled = heads(block);
            assert!(filled.is_none() || filled == heads(&format!("empty-{block}")), "{block}");
        }
    }

    #[test]
    fn an_ask_of_one_individual() {
        let deed = B.replace("0A03", "0A02").replace("0B0000 0B0001", "0E00 0E01");
        says("records", &deed, &["| 9 | `0E00` | ask 0 to any element |"]);
        says("answers", &deed, &["| 1 to any element | no, 2 rounds | 0 | 2 | `8E01000002` |"]);
        let down = "| 0·signs | 1 | no | 0 in state 0 | down by signs, 0 to 1 (line 5) |";
        let mark = "| 0·signs | 2 | yes | 0·signs in state 1 | the mark (1, 2, ∃(signs backward)) |";
        says("below", &deed, &[down, mark, "Below the individuals, from 1: no path comes there."]);
        says("behind", &deed, &["0 to any element: the path.", "| 2 | 0·signs | 2 | test Deed (line 6) |"]);
        says("behind", &deed, &["paths come in these states only: to 1 in 0. Final: 2."]);
        says("forms", &deed, &["## Step 7: below the individuals"]);
        says("below", B, &["No ask is of one individual."]);
        assert!(!text("forms", B).contains("below the individuals"));
        assert_eq!(text("figures", &deed), "0\t-\t1\t2\t24\t28\t2 2\n1\t-\t0\t2\t24\t28\t2 2\n");
    }

    #[test]
    fn facts_that_clash() {
        let clashing = "010202020400 020040 024101 030001 0F 060000 060100 07000001 060001";
        says("records", clashing, &["| 5 | `0F` | salvage is chosen |"]);
        says("salvage", clashing, &["| 6 | Owner(0) | 0 has Owner, ∃signs | nothing | kept |"]);
        says("salvage", clashing, &["| 7 | Deed(0) | 0 has Deed | Owner(0) (line 6) | dropped: `920007` |"]);
        let joins = "0 has ∃signs; 1 has Deed, ∃(signs backward); (0, 1) has signs";
        says("salvage", clashing, &[&format!("| 8 | signs(0, 1) | {joins} | nothing | kept |")]);
        says("salvage", clashing, &["| signs(0, 1) (line 8) | dropped: `920009` |"]);
        let clash = "Line 9, Owner(1). The clash: the element 1 has Owner and Deed, which line 4 excludes.";
        let deed = "- Deed: line 8 joins it by signs backward to 0; ∃(signs backward) ≤ Deed (line 3)";
        says("salvage", clashing, &[clash, deed]);
        says("empty-salvage", clashing, &["| 6 | Owner(0) |  |  |  |"]);
        says("forms", clashing, &["## Facts that clash"]);
        says("salvage", "010101010100 030000 060000 0F", &["| the rules alone | dropped: `920003` |"]);
        says("salvage", B, &["does not choose salvage"]);
        assert!(!text("forms", B).contains("Facts that clash"));
    }

    const FACTS: &str = "010202030200 040002 030001 050103 060000 07000001 07010100 08000001 0A01 0B0001";

    #[test]
    fn pairs_and_exclusions() {
        says("pairs", FACTS, &["| (0, 1) | holds | line 6 joins them by signs; signs ≤ holds (line 2) |"]);
        says("pairs", FACTS, &["| (1, 0) | holds | line 7 joins them by holds |"]);
        says("exclusions", FACTS, &["| 3 | Owner excludes Deed | 0 | none | none |"]);
        says("exclusions", FACTS, &["| 4 | signs backward excludes holds backward | (1, 0), (…·signs, …), (…, …·(signs backward)) |"]);
    }

    #[test]
    fn no_line_of_a_round_that_the_desk_does_not_write() {
        let spent = format!("{B} 0C0001");
        for (file, written) in [(&spent[..], 1), (&spent.replace(" 0B0000 0B0001", ""), 0)] {
            for name in ["sheets", "rounds"] {
                assert_eq!(text(name, file).matches("`8A").count(), written, "{name} of {file}");
            }
            says("sheets", file, &["Marks added: 2."]);
        }
    }

    #[test]
    fn a_clash_and_a_spent_allowance() {
        let clash = format!("{B} 030141");
        says("rounds", &clash, &["no round is worked"]);
        says(
            "behind",
            &clash,
            &["the element 0·signs has Deed and ∃(signs backward), which line 11 excludes."],
        );
        says(
            "rounds",
            &format!("{B} 0C0001"),
            &["Round 2 would add more, so the allowance of 1 (given) is below the rounds needed."],
        );
    }
}
