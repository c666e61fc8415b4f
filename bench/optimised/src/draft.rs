//! A file on its way: its frames table by table, thrown by dice, and what its elements and pairs have.

use crate::bits::Places;
use crate::order::{neighbour, Orders};
use crate::read::{read, NARROW};
use std::collections::{BTreeMap, BTreeSet};

/// Most records by frame kind; role steps and test steps share one table, kept here under 8.
const MOST: [(u8, usize); 8] =
    [(2, 512), (3, 512), (4, 128), (5, 128), (6, 1_024), (7, 4_096), (8, 1_024), (10, 32)];

/// splitmix64, one for each table, so that a table's size changes no other table.
pub struct Dice(u64);

impl Dice {
    pub fn of(seed: u64, table: u8) -> Dice {
        let mut dice = Dice(seed);
        dice.0 = dice.next() ^ u64::from(table);
        dice
    }

    fn next(&mut self) -> u64 {
        self.0 = self.0.wrapping_add(0x9E37_79B9_7F4A_7C15);
        let mut mixed = self.0;
        mixed = (mixed ^ (mixed >> 30)).wrapping_mul(0xBF58_476D_1CE4_E5B9);
        mixed = (mixed ^ (mixed >> 27)).wrapping_mul(0x94D0_49BB_1331_11EB);
        mixed ^ (mixed >> 31)
    }

    /// A number below `end`, which is above 0.
    pub fn below(&mut self, end: usize) -> usize {
        (self.next() % end as u64) as usize
    }

    /// A number from `least` to `most`.
    pub fn between(&mut self, least: usize, most: usize) -> usize {
        least + self.below(most + 1 - least)
    }

    pub fn percent(&mut self, chance: usize) -> bool {
        self.below(100) < chance
    }

    pub fn pick<T: Copy>(&mut self, from: &[T]) -> T {
        from[self.below(from.len())]
    }
}

/// A file on its way: line 1, and the frames of each table.
pub struct Draft {
    seed: u64,
    pub first: [u8; 6],
    tables: BTreeMap<u8, Vec<Vec<u8>>>,
}

impl Draft {
    pub fn new(seed: u64, counts: [usize; 5]) -> Draft {
        let [names, roles, individuals, states, start] = counts.map(|count| count as u8);
        Draft { seed, first: [1, names, roles, individuals, states, start], tables: BTreeMap::new() }
    }

    pub fn put(&mut self, table: u8, frame: Vec<u8>) {
        self.tables.entry(table).or_default().push(frame);
    }

    /// The frames of a table, which has none any more.
    pub fn take(&mut self, table: u8) -> Vec<Vec<u8>> {
        self.tables.remove(&table).unwrap_or_default()
    }

    pub fn lines(&self) -> usize {
        1 + self.tables.values().map(Vec::len).sum::<usize>()
    }

    /// Different frames, as many as wanted, or as many as are found in a long time.
    pub fn throw(&mut self, table: u8, wanted: usize, mut frame: impl FnMut(&mut Dice) -> Option<Vec<u8>>) {
        let mut dice = Dice::of(self.seed, table);
        let mut seen = BTreeSet::new();
        for _ in 0..1_000 * wanted {
            if seen.len() == wanted {
                break;
            }
            if let Some(frame) = frame(&mut dice).filter(|frame| seen.insert(frame.clone())) {
                self.put(table, frame);
            }
        }
    }

    /// Repeated records mean nothing more, but they fill the tables. In files of at most sixteen states the tables of
    /// the question are half full: such files are measured side by side with what they took before.
    pub fn fill(&mut self) {
        let narrow = self.first[4] <= NARROW;
        for (table, most) in MOST {
            let most = if narrow && matches!(table, 8 | 10) { most / 2 } else { most };
            let mut dice = Dice::of(self.seed, table + 100);
            if let Some(frames) = self.tables.get_mut(&table) {
                let different = frames.len();
                while frames.len() < most {
                    frames.push(frames[dice.below(different)].clone());
                }
            }
        }
    }

    /// Line 1, then all others in any order.
    pub fn text(&self) -> Vec<u8> {
        let mut frames: Vec<&[u8]> = self.tables.values().flatten().map(Vec::as_slice).collect();
        let mut dice = Dice::of(self.seed, 0);
        for last in (1..frames.len()).rev() {
            frames.swap(last, dice.below(last + 1));
        }
        frames.insert(0, &self.first);
        let line = |frame: &[u8]| frame.iter().map(|byte| format!("{byte:02X}")).collect::<String>() + "\n";
        frames.into_iter().map(line).collect::<String>().into_bytes()
    }

    /// Exclusions that nothing breaks, so that the rounds and the walk are worked and measured.
    pub fn throw_exclusions(&mut self, concepts: usize, roles: usize) {
        let shown = Shown::of(&self.text());
        let (names, signed) = (usize::from(self.first[1]), 2 * usize::from(self.first[2]));
        self.throw(3, concepts, |dice| {
            let (left, right) =
                (concept(dice.below(names + signed), names), concept(dice.below(names + signed), names));
            let broken = shown.elements.iter().any(|has| has >> left & has >> right & 1 == 1);
            (!broken).then(|| vec![3, left as u8, right as u8])
        });
        self.throw(5, roles, |dice| {
            let (left, right) = (dice.below(signed), dice.below(signed));
            let broken = shown.pairs.iter().any(|has| has >> left & has >> right & 1 == 1);
            (!broken).then(|| vec![5, left as u8, right as u8])
        });
    }
}

/// Basic concepts counted through: the names, then ∃R for each signed role.
pub fn concept(place: usize, names: usize) -> usize {
    if place < names {
        place
    } else {
        64 + place - names
    }
}

/// The concepts of every element and the signed roles of every pair, each kind of unnamed one once.
pub struct Shown {
    pub elements: Vec<u128>,
    pub pairs: Vec<u64>,
}

impl Shown {
    pub fn of(text: &[u8]) -> Shown {
        let (file, _) = read(text.to_vec()).expect("a sound file");
        let orders = Orders::of(&file);
        let mut elements = Vec::new();
        for individual in 0..usize::from(file.individuals) {
            let names = Places(file.typed_names[individual]);
            let typed = names.chain(Places(file.typed_roles[individual]).map(neighbour));
            elements.push(typed.fold(0, |has, typed| has | orders.concepts[typed]));
        }
        let mut joined: BTreeMap<(u8, u8), u64> = BTreeMap::new();
        for fact in &file.facts {
            let role = usize::from(fact.role);
            *joined.entry((fact.first, fact.second)).or_default() |= orders.roles[role];
            *joined.entry((fact.second, fact.first)).or_default() |= orders.roles[role ^ 1];
        }
        let mut pairs: Vec<u64> = joined.into_values().collect();
        let mut known = 0u64;
        let mut next = 0;
        while next < elements.len() {
            let children = (elements[next] >> 64) as u64 & !known;
            known |= children;
            for role in Places(children) {
                elements.push(orders.concepts[neighbour(role ^ 1)]);
                pairs.extend([orders.roles[role], orders.roles[role ^ 1]]);
            }
            next += 1;
        }
        Shown { elements, pairs }
    }
}
