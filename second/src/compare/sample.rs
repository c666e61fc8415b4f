//! One file of a kind, for measuring and for looking at.

use super::clashing::clashing;
use super::damage::damaged;
use super::dice::Dice;
use super::generate::{full, many_rounds, medium, small};
use super::long::long;
use super::salvages::with_choice;
use super::text;

/// None when there is no such kind.
pub fn sample(kind: &str, seed: u64) -> Option<Vec<u8>> {
    let mut dice = Dice::of_case(seed, 0, 0);
    let dice = &mut dice;
    let lines = match kind {
        "damaged" => damaged(dice).lines,
        "long" => long(dice).lines,
        "clashing" => {
            let asked = clashing(dice).1;
            let plain = text::lines(dice, &asked);
            with_choice(dice, &plain)
        }
        _ => {
            let mut asked = match kind {
                "small" => small(dice),
                "medium" => medium(dice),
                "full" => full(dice),
                "rounds" => many_rounds(dice, 7, 9, 31),
                _ => return None,
            };
            if kind == "rounds" {
                asked.allowance = Some(u32::MAX);
            }
            text::lines(dice, &asked)
        }
    };
    Some(text::input(dice, &lines))
}
