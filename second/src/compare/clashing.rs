//! Collections whose facts clash, for files that choose salvage and for the call that tells which facts are kept.

use super::dice::Dice;
use super::expressions::{expressed, MOST_MARKS};
use super::generate::{deep_clash, full, medium, small, Asked};
use super::throw::{repeat_by_other_deeds, throw_exclusions, throw_facts, Amounts};
use super::wide::{joined, widened};
use crate::collection::Collection;
use crate::numbers::{Concept, Role};

/// Its kind, and a collection in most of which some facts clash.
pub fn clashing(dice: &mut Dice) -> (&'static str, Asked) {
    let (kind, mut asked) = match dice.below(1_000) {
        0..=99 => ("small, as it comes", small(dice)),
        100..=449 => ("small", small(dice)),
        450..=649 => ("small, forbidden", small(dice)),
        650..=799 => ("below", deep_clash(dice)),
        800..=996 => ("medium", medium(dice)),
        _ => ("full", full(dice)),
    };
    let collection = &mut asked.collection;
    match kind {
        "small" => {
            let (concepts, roles) = (dice.between(1, 4), dice.below(3));
            throw_exclusions(dice, collection, concepts, roles);
        }
        "small, forbidden" => forbid(dice, collection),
        "medium" => {
            let (concepts, roles) = (dice.between(1, 8), dice.below(5));
            throw_exclusions(dice, collection, concepts, roles);
        }
        "full" if collection.concept_exclusions.len() < 512 => throw_exclusions(dice, collection, 1, 0),
        _ => {}
    }
    if kind != "full" {
        more_facts(dice, collection);
    }
    (kind, otherwise_asked(dice, kind, asked))
}

/// Something that nobody may have, and a role that may not lead there and back, as it does from one to itself.
fn forbid(dice: &mut Dice, collection: &mut Collection) {
    let concepts: Vec<Concept> = collection.counts.all_concepts().collect();
    let roles: Vec<Role> = collection.counts.all_roles().collect();
    if !concepts.is_empty() && dice.percent(60) {
        let nobodys = dice.pick(&concepts);
        collection.concept_exclusions.push((nobodys, nobodys));
    }
    if !roles.is_empty() {
        let role = dice.pick(&roles);
        collection.role_exclusions.push(dice.pick(&[(role, role.inverse()), (role, role)]));
    }
}

fn more_facts(dice: &mut Dice, collection: &mut Collection) {
    if dice.percent(5) {
        collection.concept_facts.clear();
        collection.role_facts.clear();
        return;
    }
    let amounts = Amounts { facts: dice.below(6), role_facts: dice.below(6), ..Amounts::default() };
    throw_facts(dice, collection, &amounts);
    for _ in 0..dice.pick(&[0, 0, 1, 2]) {
        repeat_by_other_deeds(dice, collection);
    }
}

/// Its question as an expression or spread over more states; sometimes no ask, or few rounds allowed.
fn otherwise_asked(dice: &mut Dice, kind: &str, asked: Asked) -> Asked {
    let large = matches!(kind, "medium" | "full");
    let asked = expressed(dice, asked, if large { MOST_MARKS } else { 6 });
    let asked = widened(dice, asked, 60);
    let mut asked = joined(dice, asked);
    if dice.percent(15) {
        asked.asks.clear();
    }
    if dice.percent(15) {
        asked.allowance = Some(dice.below(2) as u32);
    }
    asked
}
