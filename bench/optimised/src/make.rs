//! The benchmark's files. A kind and a size give the same file everywhere.

use crate::draft::{concept, Draft};

const SEED: u64 = 1;

/// None where there is no such kind, or where a size is missing, superfluous or beyond what a file can have.
pub fn make(kind: &str, size: Option<usize>) -> Option<Vec<u8>> {
    let series = |most: usize| size.filter(|size| *size <= most);
    match (kind, size) {
        ("least", None) => return Some(b"010000000100\n".to_vec()),
        ("chain", None) => return Some(chain()),
        ("laps", None) => return Some(laps(&LAPS)),
        ("wide-laps", None) => return Some(laps(&WIDE_LAPS)),
        _ => {}
    }
    let sizes = match (kind, size) {
        ("medium", None) => MEDIUM,
        ("dense", None) => DENSE,
        ("layered", None) => LAYERED,
        ("wide", None) => WIDE,
        ("facts", _) => series(4_096).map(|n| Sizes { role_facts: n, concept_facts: n / 4, ..GROWING })?,
        ("rules", _) => series(512).map(|n| Sizes { rules: n, role_rules: n / 4, ..GROWING })?,
        ("states", _) => {
            series(32).filter(|n| *n > 0).map(|n| Sizes { states: n, steps: 32 * n, ..GROWING })?
        }
        ("asks", _) => series(256).map(|n| Sizes { asks: n, ..GROWING })?,
        _ => return None,
    };
    Some(thrown(&sizes))
}

struct Sizes {
    names: usize,
    roles: usize,
    individuals: usize,
    states: usize,
    /// Rules lead only from lower to higher layers. With one layer they lead anywhere.
    layers: usize,
    /// Role facts stay within a group of individuals.
    groups: usize,
    rules: usize,
    role_rules: usize,
    exclusions: usize,
    role_exclusions: usize,
    concept_facts: usize,
    role_facts: usize,
    steps: usize,
    finals: usize,
    asks: usize,
    /// How many asks of a hundred are of one individual.
    of_one: usize,
    /// Repeats fill every table.
    full: bool,
}

const MEDIUM: Sizes = Sizes {
    names: 16,
    roles: 8,
    individuals: 64,
    states: 8,
    layers: 4,
    groups: 2,
    rules: 48,
    role_rules: 8,
    exclusions: 32,
    role_exclusions: 8,
    concept_facts: 128,
    role_facts: 512,
    steps: 64,
    finals: 1,
    asks: 64,
    of_one: 0,
    full: false,
};

const LAYERED: Sizes = Sizes {
    names: 64,
    roles: 32,
    individuals: 255,
    states: 16,
    layers: 8,
    groups: 4,
    rules: 512,
    role_rules: 128,
    exclusions: 512,
    role_exclusions: 128,
    concept_facts: 1_024,
    role_facts: 4_096,
    steps: 512,
    finals: 1,
    asks: 256,
    of_one: 0,
    full: true,
};

const DENSE: Sizes = Sizes { layers: 1, groups: 1, finals: 4, ..LAYERED };

/// As many states as there are, and asks of both kinds.
const WIDE: Sizes = Sizes { states: 32, steps: 1_024, of_one: 50, ..LAYERED };

/// What the series change one size of.
const GROWING: Sizes = Sizes {
    states: 8,
    rules: 128,
    role_rules: 32,
    exclusions: 0,
    role_exclusions: 0,
    concept_facts: 256,
    role_facts: 1_024,
    steps: 256,
    asks: 64,
    full: false,
    ..LAYERED
};

fn thrown(sizes: &Sizes) -> Vec<u8> {
    let Sizes { names, roles, individuals, states, layers, groups, .. } = *sizes;
    let mut draft = Draft::new(SEED, [names, roles, individuals, states, 0]);
    let layered = layers > 1;
    // Where rules lead anywhere, nearly everybody has everything. So that some exclusions are harmless, the last
    // names and the last role are left out of rules and facts.
    let (used_names, used_roles) = if layered { (names, roles) } else { (names - names / 16, roles - 1) };
    let concepts = used_names + 2 * used_roles;
    let role_layer = |signed: usize| signed / 2 * layers / roles;
    let layer =
        |concept: usize| if concept < 64 { concept * layers / names } else { role_layer(concept - 64) };
    draft.throw(2, sizes.rules, |dice| {
        let [left, right] = [0; 2].map(|_| concept(dice.below(concepts), used_names));
        let upward = !layered || layer(left) < layer(right);
        upward.then(|| vec![2, left as u8, right as u8])
    });
    draft.throw(4, sizes.role_rules, |dice| {
        let [left, right] = [0; 2].map(|_| dice.below(2 * used_roles));
        let upward = !layered || role_layer(left) < role_layer(right);
        upward.then(|| vec![4, left as u8, right as u8])
    });
    draft.throw(6, sizes.concept_facts, |dice| {
        Some(vec![6, dice.below(used_names) as u8, dice.below(individuals) as u8])
    });
    draft.throw(7, sizes.role_facts, |dice| {
        let role = dice.below(used_roles);
        let [first, second] = [0; 2].map(|_| dice.below(individuals));
        // Two different ends: the files stay those that were measured before.
        let joins = first != second && first % groups == second % groups;
        joins.then(|| vec![7, role as u8, first as u8, second as u8])
    });
    draft.throw(8, sizes.steps, |dice| {
        let from = dice.below(states);
        // A layered file has a question that never goes back, so that individuals × states have many parts.
        let to = if layered { (from + dice.below(3)).min(states - 1) } else { dice.below(states) };
        let [from, to] = [from, to].map(|state| state as u8);
        Some(if dice.below(4) == 0 {
            vec![9, from, dice.below(names) as u8, to]
        } else {
            vec![8, from, dice.below(2 * roles) as u8, to]
        })
    });
    draft.throw(10, sizes.finals, |dice| {
        let state = if layered { states - 1 } else { dice.below(states) };
        Some(vec![10, state as u8])
    });
    draft.throw_exclusions(sizes.exclusions, sizes.role_exclusions);
    throw_asks(&mut draft, sizes.asks, sizes.of_one);
    if sizes.full {
        draft.fill();
    }
    draft.text()
}

fn throw_asks(draft: &mut Draft, asks: usize, of_one: usize) {
    let individuals = usize::from(draft.first[3]);
    draft.throw(11, asks, |dice| {
        let [first, second] = [0; 2].map(|_| dice.below(individuals) as u8);
        Some(if of_one > 0 && dice.percent(of_one) { vec![14, first] } else { vec![11, first, second] })
    });
}

/// Full tables that need 1,954 rounds: a ring of 31 children under one wider role, walked down in a ring of
/// 7 states and up in one of 9; a way back exists only where the three lengths agree.
fn chain() -> Vec<u8> {
    const DOWN: u8 = 7;
    const UP: u8 = 9;
    const RING: u8 = 31;
    let mut draft = Draft::new(SEED, [64, usize::from(RING) + 1, 255, usize::from(DOWN + UP), 0]);
    // The neighbour by the role itself and by its inverse.
    let (down, up) = (|role: u8| 64 + 2 * (role % RING), |role: u8| 65 + 2 * (role % RING));
    for role in 0..RING {
        draft.put(2, vec![2, up(role), down(role + 1)]);
        draft.put(4, vec![4, 2 * role, 2 * RING]);
    }
    // The turn from down to up is a test that only the children by one role pass.
    draft.put(2, vec![2, up(0), 0]);
    draft.put(8, vec![9, 0, 0, DOWN]);
    for state in 0..DOWN {
        draft.put(8, vec![8, state, 2 * RING, (state + 1) % DOWN]);
    }
    for state in 0..UP {
        draft.put(8, vec![8, DOWN + state, 2 * RING + 1, DOWN + (state + 1) % UP]);
    }
    draft.put(10, vec![10, DOWN]);
    draft.put(12, vec![12, 0xFF, 0xFF]);
    filled(draft, RING, 0)
}

/// With facts on the first roles in four groups of individuals, harmless exclusions, 256 asks and every table full.
fn filled(mut draft: Draft, roles: u8, of_one: usize) -> Vec<u8> {
    draft.throw(6, 1_024, |dice| Some(vec![6, dice.below(64) as u8, dice.below(255) as u8]));
    draft.throw(7, 4_096, |dice| {
        let [role, first, second] = [usize::from(roles), 255, 255].map(|end| dice.below(end));
        (first != second && first % 4 == second % 4).then(|| vec![7, role as u8, first as u8, second as u8])
    });
    draft.throw_exclusions(512, 128);
    throw_asks(&mut draft, 256, of_one);
    draft.fill();
    draft.text()
}

/// The question of a file of laps.
struct Laps {
    /// How long each cycle of states is, one after the other.
    cycles: &'static [u8],
    bridges: &'static [Bridge],
    /// How many asks of a hundred are of one individual.
    of_one: usize,
}

/// The steps of a bridge, each from a state to a state: with (s, t) down and (u, v) up the mark (t, u) leads to (s, v).
struct Bridge {
    down: &'static [(u8, u8)],
    up: &'static [(u8, u8)],
}

/// The most rounds that we could make a file need. The children by a ring of roles promise one another, and under one
/// wider role every state goes straight down and straight up: a mark (t, u) goes round the ring, one child a round. One
/// role of the ring turns the states in cycles instead, so that the mark comes back as the next of its orbit: that is a
/// lap. Two bridges start an orbit where another is through: their children have the same marks below them as the ring,
/// and lead a few of these to another place. All marks of all orbits come, and as good as each lap adds one.
fn laps(question: &Laps) -> Vec<u8> {
    let ring = 31 - question.bridges.len() as u8;
    const STRAIGHT: u8 = 31;
    let states: u8 = question.cycles.iter().sum();
    let mut draft = Draft::new(SEED, [64, 32, 255, usize::from(states), 0]);
    // The neighbour by the role itself and by its inverse.
    let (down, up) = (|role: u8| 64 + 2 * role, |role: u8| 65 + 2 * role);
    for role in 0..ring {
        draft.put(2, vec![2, up(role), down((role + 1) % ring)]);
        if role > 0 {
            draft.put(4, vec![4, 2 * role, 2 * STRAIGHT]);
        }
    }
    let mut first = 0;
    for &length in question.cycles {
        for place in 0..length {
            let (state, next) = (first + place, first + (place + 1) % length);
            draft.put(8, vec![8, state, 2 * STRAIGHT, state]);
            draft.put(8, vec![8, state, 2 * STRAIGHT + 1, state]);
            draft.put(8, vec![8, state, 0, next]);
            draft.put(8, vec![8, next, 1, state]);
        }
        first += length;
    }
    for (role, bridge) in (ring..).zip(question.bridges) {
        draft.put(2, vec![2, up(role), down(0)]);
        draft.put(2, vec![2, up(ring - 1), down(role)]);
        for &(from, to) in bridge.down {
            draft.put(8, vec![8, from, 2 * role, to]);
        }
        for &(from, to) in bridge.up {
            draft.put(8, vec![8, from, 2 * role + 1, to]);
        }
    }
    draft.put(10, vec![10, states - 1]);
    filled(draft, ring, question.of_one)
}

/// Sixteen states; found by trying.
const LAPS: Laps = Laps {
    cycles: &[3, 4, 4, 5],
    bridges: &[
        Bridge { down: &[(3, 3), (7, 7), (14, 14)], up: &[(0, 9), (5, 0), (9, 11)] },
        Bridge { down: &[(1, 9), (5, 7), (7, 8), (8, 10), (9, 5), (9, 14), (14, 1)], up: &[(5, 5), (12, 4)] },
    ],
    of_one: 0,
};

/// Thirty-two; found by trying too.
const WIDE_LAPS: Laps = Laps {
    cycles: &[3, 5, 9, 7, 8],
    bridges: &[
        Bridge {
            down: &[(0, 2), (2, 8), (3, 1), (13, 4), (17, 14), (25, 18), (31, 26)],
            up: &[(0, 1), (6, 7), (8, 16), (16, 29), (22, 21), (30, 29)],
        },
        Bridge { down: &[(1, 27)], up: &[(6, 2), (10, 6), (22, 16), (25, 22)] },
    ],
    of_one: 50,
};
