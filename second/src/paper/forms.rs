//! The empty forms of the steps: what is known before the work stands there, and the rest is left to the pencil.

use super::words::Words;
use super::{asks, exclusions, orders, question, records, rounds, salvage, tree, ways};
use crate::explain::Explanation;

/// Every form with its title, in the order of the work.
pub const FORMS: [(&str, &str); 18] = [
    ("records", "Step 1: the file"),
    ("numbers", "Step 1: the numbers"),
    ("orders", "Step 2: the orders"),
    ("people", "Step 3: who has which concept"),
    ("model", "Step 4: the elements"),
    ("ends", "Step 5: the signed roles that a row can end in"),
    ("pairs", "Step 5: the pairs that facts join"),
    ("exclusions", "Step 5: the exclusions"),
    ("ways", "Step 6: the ways of rules 1 and 3"),
    ("sheets", "Step 6: the sheet, one for each round"),
    ("rounds", "Step 6: the marks of each round"),
    ("walks", "Step 7: the walk"),
    ("below", "Step 7: below the individuals"),
    ("behind", "Step 8: the path"),
    ("answers", "Step 8: the answers"),
    ("copy", "The fair copy"),
    ("list", "The list of the sheet"),
    ("salvage", "Facts that clash"),
];

/// The empty form of a block; None where it has none.
pub fn form(block: &str, input: &[u8], explained: &Explanation, words: &Words) -> Option<String> {
    Some(match block {
        "records" => records::records_form(input),
        "copy" => records::copy_form(input),
        "list" => records::list_form(input),
        "salvage" => salvage::salvage_form(explained, words),
        "marks" => question::marks_form(explained),
        "places" => question::places_form(explained),
        "automaton" => question::automaton_form(explained),
        "numbers" => orders::numbers_form(explained, words),
        "orders" => orders::orders_form(explained, words),
        "people" => orders::people_form(explained),
        "model" => tree::model_form(explained),
        "ends" => exclusions::ends_form(explained, words),
        "pairs" => exclusions::pairs_form(),
        "exclusions" => exclusions::exclusions_form(explained, words),
        "ways" => ways::ways_form(explained, words),
        "sheets" => rounds::sheets_form(explained, words),
        "rounds" => rounds::rounds_form(),
        "walks" => asks::walks_form(explained),
        "below" => asks::below_form(explained),
        "behind" => asks::path_form(explained),
        "answers" => asks::answers_form(explained),
        _ => return None,
    })
}

/// All forms for a file, each with its title.
pub fn all(input: &[u8], explained: &Explanation, words: &Words) -> String {
    let needed = |block: &str| match block {
        "below" => asks::is_one_asked_from(explained),
        "salvage" => explained.salvage.is_some(),
        _ => true,
    };
    let titled = FORMS.iter().filter(|(block, _)| needed(block)).filter_map(|(block, title)| {
        let form = form(block, input, explained, words)?;
        Some(format!("## {title}\n\n{form}"))
    });
    titled.collect::<Vec<String>>().join("\n")
}
