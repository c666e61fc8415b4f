//! What a part of the comparison has hit, and whether each number was hit often enough.

use std::collections::BTreeMap;

/// A number hit in fewer cases than this fails the comparison.
pub const LEAST_HITS: u64 = 50;

/// What must be hit often enough in a part: numbers, numbers of cases with 17 to 32 states, and what else is to be met.
pub struct Wanted<'a> {
    pub numbers: &'a [u8],
    pub wide: &'a [u8],
    pub met: &'a [&'static str],
}

#[derive(Default)]
pub struct Tally {
    pub cases: u64,
    pub failed: u64,
    /// Cases the built-out model was too large for.
    pub skipped: u64,
    numbers: BTreeMap<u8, u64>,
    /// Those of cases with 17 to 32 states.
    wide: BTreeMap<u8, u64>,
    kinds: BTreeMap<&'static str, u64>,
    rounds: BTreeMap<u32, u64>,
    faulty_lines: BTreeMap<u32, u64>,
    depths: BTreeMap<usize, u64>,
    orders: BTreeMap<(u8, u8), u64>,
    met: BTreeMap<&'static str, u64>,
}

impl Tally {
    pub fn kind(&mut self, kind: &'static str) {
        *self.kinds.entry(kind).or_default() += 1;
    }

    /// A number counts once for a case, however many asks of the case had it.
    pub fn number(&mut self, number: u8) {
        *self.numbers.entry(number).or_default() += 1;
    }

    /// Likewise where 17 to 32 states are declared, or made of an expression.
    pub fn wide(&mut self, number: u8) {
        *self.wide.entry(number).or_default() += 1;
    }

    pub fn rounds(&mut self, rounds: u32) {
        *self.rounds.entry(bucket(rounds as usize)).or_default() += 1;
    }

    pub fn faulty_line(&mut self, line: usize) {
        *self.faulty_lines.entry(bucket(line)).or_default() += 1;
    }

    pub fn depth(&mut self, depth: usize) {
        *self.depths.entry(depth).or_default() += 1;
    }

    /// This number was given where that one stood as well.
    pub fn order(&mut self, given: u8, also: u8) {
        *self.orders.entry((given, also)).or_default() += 1;
    }

    /// Something that a collection, an output, an ask of one individual, a row of pairs, of counts or of marks was, once for a case.
    pub fn met(&mut self, met: &'static str) {
        *self.met.entry(met).or_default() += 1;
    }

    pub fn add(&mut self, other: Tally) {
        fn add<K: Ord>(into: &mut BTreeMap<K, u64>, from: BTreeMap<K, u64>) {
            for (key, count) in from {
                *into.entry(key).or_default() += count;
            }
        }
        self.cases += other.cases;
        self.failed += other.failed;
        self.skipped += other.skipped;
        add(&mut self.numbers, other.numbers);
        add(&mut self.wide, other.wide);
        add(&mut self.kinds, other.kinds);
        add(&mut self.rounds, other.rounds);
        add(&mut self.faulty_lines, other.faulty_lines);
        add(&mut self.depths, other.depths);
        add(&mut self.orders, other.orders);
        add(&mut self.met, other.met);
    }

    pub fn print(&self) {
        let skipped = match self.skipped {
            0 => String::new(),
            some => format!(", {some} left out: model too large"),
        };
        println!("  cases {}, different {}{skipped}", self.cases, self.failed);
        print_row("kinds", &self.kinds, |kind| kind.to_string());
        print_row("numbers (cases that had them)", &self.numbers, |number| number.to_string());
        print_row("of 17 to 32 states", &self.wide, |number| number.to_string());
        print_row("rounds", &self.rounds, range);
        print_row("faulty line", &self.faulty_lines, range);
        print_row("depth of the model", &self.depths, |depth| depth.to_string());
        print_row("order met", &self.orders, |(given, also)| format!("{given} before {also}"));
        print_row("met", &self.met, |met| met.to_string());
    }

    /// Those of the numbers, of all cases and of those with 17 to 32 states, and of what else is to be met, that were hit too
    /// seldom.
    pub fn too_seldom(&self, wanted: &Wanted) -> Vec<String> {
        let seldom = |hits: Option<&u64>| hits.copied().unwrap_or(0) < LEAST_HITS;
        let numbers = wanted.numbers.iter().filter(|number| seldom(self.numbers.get(number)));
        let wide = wanted.wide.iter().filter(|number| seldom(self.wide.get(number)));
        let met = wanted.met.iter().filter(|what| seldom(self.met.get(*what)));
        let numbers = numbers.map(|number| format!("number {number}"));
        let wide = wide.map(|number| format!("number {number} of 17 to 32 states"));
        numbers.chain(wide).chain(met.map(|what| format!("\"{what}\""))).collect()
    }
}

/// 0 for 0, else k for 2^(k-1) to 2^k - 1.
fn bucket(value: usize) -> u32 {
    usize::BITS - value.leading_zeros()
}

fn range(bucket: &u32) -> String {
    match bucket {
        0 => "0".to_string(),
        1 => "1".to_string(),
        _ => format!("{}-{}", 1u64 << (bucket - 1), (1u64 << bucket) - 1),
    }
}

fn print_row<K>(title: &str, row: &BTreeMap<K, u64>, name: impl Fn(&K) -> String) {
    if !row.is_empty() {
        let entries: Vec<String> = row.iter().map(|(key, count)| format!("{}: {count}", name(key))).collect();
        println!("  {title}: {}", entries.join(", "));
    }
}
