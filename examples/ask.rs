// The worked base collection, asked from Rust. docs/LINKING.md says how to build it.
#[link(name = "lampsaffron", kind = "static")]
extern "C" {
    fn lampsaffron_ask(
        names: u16, roles: u16, individuals: u16, states: u16, start: u16,
        concept_rules: *const u16, concept_rules_len: usize,
        concept_exclusions: *const u16, concept_exclusions_len: usize,
        role_rules: *const u16, role_rules_len: usize,
        role_exclusions: *const u16, role_exclusions_len: usize,
        concept_facts: *const u16, concept_facts_len: usize,
        role_facts: *const u16, role_facts_len: usize,
        steps: *const u16, steps_len: usize,
        finals: *const u16, finals_len: usize,
        first: u16, second: u16, allowance: u32,
        area: *mut u8, area_len: usize,
        spare: *mut u8, spare_len: usize,
        count: *mut u32,
    ) -> u8;
    fn lampsaffron_ask_all(
        names: u16, roles: u16, individuals: u16, states: u16, start: u16,
        concept_rules: *const u16, concept_rules_len: usize,
        concept_exclusions: *const u16, concept_exclusions_len: usize,
        role_rules: *const u16, role_rules_len: usize,
        role_exclusions: *const u16, role_exclusions_len: usize,
        concept_facts: *const u16, concept_facts_len: usize,
        role_facts: *const u16, role_facts_len: usize,
        steps: *const u16, steps_len: usize,
        finals: *const u16, finals_len: usize,
        pairs: *const u16, pairs_len: usize,
        allowance: u32,
        area: *mut u8, area_len: usize,
        spare: *mut u8, spare_len: usize,
        numbers: *mut u8, numbers_len: usize,
        counts: *mut u32, counts_len: usize,
    ) -> bool;
    fn lampsaffron_ask_row(
        names: u16, roles: u16, individuals: u16, states: u16, start: u16,
        concept_rules: *const u16, concept_rules_len: usize,
        concept_exclusions: *const u16, concept_exclusions_len: usize,
        role_rules: *const u16, role_rules_len: usize,
        role_exclusions: *const u16, role_exclusions_len: usize,
        concept_facts: *const u16, concept_facts_len: usize,
        role_facts: *const u16, role_facts_len: usize,
        steps: *const u16, steps_len: usize,
        finals: *const u16, finals_len: usize,
        asks: *const u16, asks_len: usize,
        allowance: u32,
        area: *mut u8, area_len: usize,
        spare: *mut u8, spare_len: usize,
        numbers: *mut u8, numbers_len: usize,
        counts: *mut u32, counts_len: usize,
    ) -> u8;
    fn lampsaffron_expression(
        marks: *const u8, marks_len: usize,
        steps: *mut u16, steps_len: usize,
        finals: *mut u16, finals_len: usize,
        states: *mut u16, steps_used: *mut u16, finals_used: *mut u16,
    ) -> u8;
    fn lampsaffron_listing(
        names: u16, roles: u16, individuals: u16, states: u16, start: u16,
        concept_rules: *const u16, concept_rules_len: usize,
        concept_exclusions: *const u16, concept_exclusions_len: usize,
        role_rules: *const u16, role_rules_len: usize,
        role_exclusions: *const u16, role_exclusions_len: usize,
        concept_facts: *const u16, concept_facts_len: usize,
        role_facts: *const u16, role_facts_len: usize,
        steps: *const u16, steps_len: usize,
        finals: *const u16, finals_len: usize,
        list: *mut u32, list_len: usize,
        entries: *mut u32,
    ) -> u8;
    fn lampsaffron_departs(
        names: u16, roles: u16, individuals: u16, states: u16, start: u16,
        concept_rules: *const u16, concept_rules_len: usize,
        concept_exclusions: *const u16, concept_exclusions_len: usize,
        role_rules: *const u16, role_rules_len: usize,
        role_exclusions: *const u16, role_exclusions_len: usize,
        concept_facts: *const u16, concept_facts_len: usize,
        role_facts: *const u16, role_facts_len: usize,
        steps: *const u16, steps_len: usize,
        finals: *const u16, finals_len: usize,
        list: *const u32, list_len: usize,
        entry: *mut u32,
    ) -> u8;
    fn lampsaffron_salvage(
        names: u16, roles: u16, individuals: u16, states: u16, start: u16,
        concept_rules: *const u16, concept_rules_len: usize,
        concept_exclusions: *const u16, concept_exclusions_len: usize,
        role_rules: *const u16, role_rules_len: usize,
        role_exclusions: *const u16, role_exclusions_len: usize,
        concept_facts: *const u16, concept_facts_len: usize,
        role_facts: *const u16, role_facts_len: usize,
        steps: *const u16, steps_len: usize,
        finals: *const u16, finals_len: usize,
        order: *const u16, order_len: usize,
        kept: *mut u8, kept_len: usize,
    ) -> u8;
    fn lampsaffron_area_from_16(stored: *const u8, stored_len: usize, area: *mut u8, area_len: usize) -> u8;
    fn lampsaffron_area_to_16(area: *const u8, area_len: usize, stored: *mut u8, stored_len: usize) -> u8;
}

/// The bytes of each area, and of one that was stored while there were at most 16 states.
const AREA: usize = 16_384;
const AREA_OF_16: usize = 4096;

/// The numbers of the most steps and of the most final states.
const STEPS: usize = 4096;
const FINALS: usize = 32;

/// The numbers of the longest list, four for each entry.
const LIST: usize = 524_288;

/// Whether the mark (s, t, B) stands in the first area.
fn stands(area: &[u8], s: usize, t: usize, concept: usize) -> bool {
    let place = s * 4096 + t * 128 + concept;
    area[place / 8] >> (place % 8) & 1 == 1
}

fn main() {
    // Owner 0, Deed 1; signs 0, holds 1. Owner ≤ ∃signs; ∃(signs backward) ≤ Deed; Owner(0), by deed 4711.
    let rules: [u16; 4] = [0, 64, 65, 1];
    let facts: [u16; 3] = [0, 0, 4711];
    // The question: signs, test Deed, signs backward.
    let steps: [u16; 12] = [0, 0, 0, 1, 1, 1, 1, 2, 0, 2, 1, 3];
    let finals: [u16; 1] = [3];
    let none: [u16; 0] = [];
    let (mut area, mut spare) = ([0u8; AREA], [0u8; AREA]);
    for second in 0..2 {
        let mut count = 0u32;
        // Slices are never null, and the two areas and the count are apart: what the call asks of its pointers.
        let number = unsafe {
            lampsaffron_ask(
                2, 2, 2, 4, 0,
                rules.as_ptr(), rules.len(),
                none.as_ptr(), 0,
                none.as_ptr(), 0,
                none.as_ptr(), 0,
                facts.as_ptr(), facts.len(),
                none.as_ptr(), 0,
                steps.as_ptr(), steps.len(),
                finals.as_ptr(), finals.len(),
                0, second, 64,
                area.as_mut_ptr(), area.len(),
                spare.as_mut_ptr(), spare.len(),
                &mut count,
            )
        };
        let pairs = (0..32).flat_map(|s| (0..32).map(move |t| (s, t)));
        let at = |(s, t)| (0..128).filter(|&concept| stands(&area, s, t, concept)).count();
        let marks: usize = pairs.map(at).sum();
        println!("(0, {second}): number {number}, count {count}, marks {marks}");
    }
    // What the sheet says of Owner: a path leads from an owner in state 0 back to it in state 3, and none back in state 2.
    for t in 2..4 {
        println!("(0, {t}, Owner): {}", if stands(&area, 0, t, 0) { "marked" } else { "not marked" });
    }
    // The sheet as it was stored while there were at most 16 states, and that area moved to the places of today.
    let (mut stored, mut moved) = ([0u8; AREA_OF_16], [0u8; AREA]);
    // As above; the area that is read and the one that is filled are apart.
    let (back, forth) = unsafe {
        (
            lampsaffron_area_to_16(area.as_ptr(), area.len(), stored.as_mut_ptr(), stored.len()),
            lampsaffron_area_from_16(stored.as_ptr(), stored.len(), moved.as_mut_ptr(), moved.len()),
        )
    };
    let sheet = if area == moved { "the same sheet" } else { "another sheet" };
    println!("the area of 16 states: number {back}; moved: number {forth}, {sheet}");
    // Both pairs in one call, which works the collection out once.
    let pairs: [u16; 4] = [0, 0, 0, 1];
    let (mut numbers, mut counts) = ([0u8; 2], [0u32; 2]);
    // As above; the entries are apart from the areas and from each other too.
    let fits = unsafe {
        lampsaffron_ask_all(
            2, 2, 2, 4, 0,
            rules.as_ptr(), rules.len(),
            none.as_ptr(), 0,
            none.as_ptr(), 0,
            none.as_ptr(), 0,
            facts.as_ptr(), facts.len(),
            none.as_ptr(), 0,
            steps.as_ptr(), steps.len(),
            finals.as_ptr(), finals.len(),
            pairs.as_ptr(), pairs.len(),
            64,
            area.as_mut_ptr(), area.len(),
            spare.as_mut_ptr(), spare.len(),
            numbers.as_mut_ptr(), numbers.len(),
            counts.as_mut_ptr(), counts.len(),
        )
    };
    assert!(fits);
    for (pair, (number, count)) in pairs.chunks(2).zip(numbers.iter().zip(counts)) {
        println!("({}, {}) in a row: number {number}, count {count}", pair[0], pair[1]);
    }
    // The first pair, and then individual 0 alone: does a path of the question lead from it to anything?
    let asks: [u16; 6] = [0, 0, 0, 1, 0, 0];
    // As above.
    let number = unsafe {
        lampsaffron_ask_row(
            2, 2, 2, 4, 0,
            rules.as_ptr(), rules.len(),
            none.as_ptr(), 0,
            none.as_ptr(), 0,
            none.as_ptr(), 0,
            facts.as_ptr(), facts.len(),
            none.as_ptr(), 0,
            steps.as_ptr(), steps.len(),
            finals.as_ptr(), finals.len(),
            asks.as_ptr(), asks.len(),
            64,
            area.as_mut_ptr(), area.len(),
            spare.as_mut_ptr(), spare.len(),
            numbers.as_mut_ptr(), numbers.len(),
            counts.as_mut_ptr(), counts.len(),
        )
    };
    assert_eq!(number, 0);
    println!("(0, 0) in a row of asks: number {}, count {}", numbers[0], counts[0]);
    println!("0 alone in a row of asks: number {}, count {}", numbers[1], counts[1]);
    // The same question from the marks of an expression: signs, test Deed, signs backward.
    let typed = [0x00u8, 0x41, 0x01];
    let (mut made_steps, mut made_finals) = ([0u16; STEPS], [0u16; FINALS]);
    let (mut states, mut steps_used, mut finals_used, mut count) = (0u16, 0u16, 0u16, 0u32);
    // As above; both rows and the three numbers are apart from each other.
    let number = unsafe {
        assert_eq!(0, lampsaffron_expression(
            typed.as_ptr(), typed.len(),
            made_steps.as_mut_ptr(), made_steps.len(),
            made_finals.as_mut_ptr(), made_finals.len(),
            &mut states, &mut steps_used, &mut finals_used,
        ));
        lampsaffron_ask(
            2, 2, 2, states, 0,
            rules.as_ptr(), rules.len(),
            none.as_ptr(), 0,
            none.as_ptr(), 0,
            none.as_ptr(), 0,
            facts.as_ptr(), facts.len(),
            none.as_ptr(), 0,
            made_steps.as_ptr(), steps_used as usize,
            made_finals.as_ptr(), finals_used as usize,
            0, 0, 64,
            area.as_mut_ptr(), area.len(),
            spare.as_mut_ptr(), spare.len(),
            &mut count,
        )
    };
    println!("(0, 0) by an expression of {states} states: number {number}, count {count}");
    // The list of the closed sheet, four numbers an entry.
    let mut list = vec![0u32; LIST];
    let mut entries = 0u32;
    // As above; the list and the number are apart from each other.
    let number = unsafe {
        lampsaffron_listing(
            2, 2, 2, 4, 0,
            rules.as_ptr(), rules.len(),
            none.as_ptr(), 0,
            none.as_ptr(), 0,
            none.as_ptr(), 0,
            facts.as_ptr(), facts.len(),
            none.as_ptr(), 0,
            steps.as_ptr(), steps.len(),
            finals.as_ptr(), finals.len(),
            list.as_mut_ptr(), list.len(),
            &mut entries,
        )
    };
    assert_eq!(number, 0);
    list.truncate(4 * entries as usize);
    let last = &list[list.len() - 4..];
    println!("the list of the sheet: {entries} entries, the last ({}, {}, {}, {})", last[0], last[1], last[2], last[3]);
    // That list held against the sheet, as it is and without its last entry.
    let departs = |list: &[u32]| {
        let mut entry = 0u32;
        // As above.
        let number = unsafe {
            lampsaffron_departs(
                2, 2, 2, 4, 0,
                rules.as_ptr(), rules.len(),
                none.as_ptr(), 0,
                none.as_ptr(), 0,
                none.as_ptr(), 0,
                facts.as_ptr(), facts.len(),
                none.as_ptr(), 0,
                steps.as_ptr(), steps.len(),
                finals.as_ptr(), finals.len(),
                list.as_ptr(), list.len(),
                &mut entry,
            )
        };
        (number, entry)
    };
    let (number, _) = departs(&list);
    println!("the list held against the sheet: number {number}");
    let (number, entry) = departs(&list[..list.len() - 4]);
    println!("without its last entry: number {number}, departs at entry {entry}");
    // Facts that clash, where nobody is both Owner and Deed: Owner(0) and signs(1, 0), for whom somebody signs is a Deed. Of these
    // the one that is typed first is kept; Deed(1) is kept in any order.
    let apart: [u16; 2] = [0, 1];
    let names_typed: [u16; 6] = [0, 0, 4711, 1, 1, 0];
    let roles_typed: [u16; 4] = [0, 1, 0, 4712];
    for order in [[0u16, 0, 1], [1, 0, 0]] {
        let mut kept = [0u8; 3];
        // As above; the row of marks is apart from all else.
        let number = unsafe {
            lampsaffron_salvage(
                2, 2, 2, 4, 0,
                rules.as_ptr(), rules.len(),
                apart.as_ptr(), apart.len(),
                none.as_ptr(), 0,
                none.as_ptr(), 0,
                names_typed.as_ptr(), names_typed.len(),
                roles_typed.as_ptr(), roles_typed.len(),
                steps.as_ptr(), steps.len(),
                finals.as_ptr(), finals.len(),
                order.as_ptr(), order.len(),
                kept.as_mut_ptr(), kept.len(),
            )
        };
        assert_eq!(number, 0);
        let told = |(kind, mark)| {
            format!("{} fact {}", if kind == 1 { "role" } else { "concept" }, if mark == 1 { "kept" } else { "dropped" })
        };
        println!("salvage: {}", order.into_iter().zip(kept).map(told).collect::<Vec<_>>().join(", "));
    }
}
