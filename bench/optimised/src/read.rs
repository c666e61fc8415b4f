//! The reader: one pass over the input, eight characters at a time, each record put at once where it is used.

use crate::bits::{Relation, States};
use crate::expression;
use crate::list::entry;

/// No line beyond the 7,716th is reached but those of a list, and a line is decided by its first 65 characters, or by its first
/// 131 where it begins with 0D; no more than two of these are reached.
pub const MOST_READ: usize = 7_716 * 65 + MOST_LISTED * (ENTRY + 1) + 2 * 66;

/// The most entries of a list, and the characters of one.
const MOST_LISTED: usize = 131_072;
const ENTRY: usize = 16;

/// A file of more states than this is worked in thirty-two bits, and no file has more than those.
pub const NARROW: u8 = u16::MOST as u8;
const MOST_STATES: u8 = u32::MOST as u8;

#[derive(Clone, Copy, Debug, PartialEq, Eq)]
pub struct Fault {
    pub line: u32,
    pub number: u8,
}

/// No individual has this number: the second of an ask of one individual, for any element at all.
pub const ANY: u8 = 255;

/// A role fact; the role as a signed one.
#[derive(Clone, Copy)]
pub struct Fact {
    pub role: u8,
    pub first: u8,
    pub second: u8,
}

/// A fact of either kind.
#[derive(Clone, Copy)]
pub enum Typed {
    Name { name: u8, who: u8 },
    Role(Fact),
}

/// A whole file but its question. Rows are direct here; nothing is closed yet.
pub struct File {
    pub names: u8,
    /// Twice the declared roles.
    pub signed: u8,
    pub individuals: u8,
    pub states: u8,
    pub start: u8,
    /// Bit D of row C: a rule C, D.
    pub concept_rules: [u128; 128],
    /// Either side of an exclusion stands in the row of the other.
    pub concept_exclusions: [u128; 128],
    /// Rules and exclusions of roles, each with its inverses.
    pub role_rules: [u64; 64],
    pub role_exclusions: [u64; 64],
    /// The names and the signed roles of the facts about each individual.
    pub typed_names: [u64; 256],
    pub typed_roles: [u64; 256],
    /// How many role facts each individual is in.
    pub degrees: [u16; 256],
    pub facts: Vec<Fact>,
    /// Two individuals, or one and `ANY`.
    pub asks: Vec<(u8, u8)>,
    allowance: Option<u32>,
    /// The entries of the list, each as one number; the line of the first.
    pub list: Vec<u64>,
    pub listed_from: u32,
    /// Whether there is any exclusion of roles.
    pub excludes_roles: bool,
    /// Whether the file chooses salvage.
    pub salvages: bool,
}

impl File {
    pub fn empty() -> File {
        File {
            names: 0,
            signed: 0,
            individuals: 0,
            states: 0,
            start: 0,
            concept_rules: [0; 128],
            concept_exclusions: [0; 128],
            role_rules: [0; 64],
            role_exclusions: [0; 64],
            typed_names: [0; 256],
            typed_roles: [0; 256],
            degrees: [0; 256],
            facts: Vec::new(),
            asks: Vec::new(),
            allowance: None,
            list: Vec::new(),
            listed_from: 0,
            excludes_roles: false,
            salvages: false,
        }
    }

    /// No fact is typed any more.
    pub fn without_facts(&mut self) {
        (self.typed_names, self.typed_roles, self.degrees) = ([0; 256], [0; 256], [0; 256]);
        self.facts.clear();
    }

    #[inline(always)]
    pub fn put_fact(&mut self, fact: Typed) {
        match fact {
            Typed::Name { name, who } => self.typed_names[usize::from(who)] |= 1 << (name & 63),
            Typed::Role(fact) => {
                let Fact { role, first, second } = fact;
                self.typed_roles[usize::from(first)] |= 1 << (role & 63);
                self.typed_roles[usize::from(second)] |= 2 << (role & 63);
                self.degrees[usize::from(first)] += 1;
                self.degrees[usize::from(second)] += 1;
                self.facts.push(fact);
            }
        }
    }

    /// Without a frame 0C as many rounds as can be needed: concepts × states × (states − 1).
    pub fn allowance(&self) -> u32 {
        let states = u32::from(self.states);
        let most = (u32::from(self.names) + u32::from(self.signed)) * states * (states - 1);
        self.allowance.unwrap_or(most)
    }

    #[inline(always)]
    fn has_concept(&self, number: u8) -> bool {
        number < self.names || number.wrapping_sub(64) < self.signed
    }
}

/// The question: its steps and its final states.
pub struct Question<S: States> {
    /// For each signed role and each name, the steps on just it.
    pub role_steps: [Relation<S>; 64],
    pub test_steps: [Relation<S>; 64],
    pub finals: S,
}

impl<S: States> Question<S> {
    pub fn empty() -> Question<S> {
        Question { role_steps: [Relation::EMPTY; 64], test_steps: [Relation::EMPTY; 64], finals: S::NONE }
    }
}

const EVERY: u64 = 0x0101_0101_0101_0101;
const TOP: u64 = 0x80 * EVERY;

/// The top bit of each character that is not one of 0-9 and A-F.
#[inline(always)]
fn no_digit(characters: u64) -> u64 {
    // Nothing is carried from one character to the next: both numbers added are below 80.
    let low = characters & !TOP;
    let at_least = |least: u64| low + (0x80 - least) * EVERY;
    let figure = at_least(0x30) & !at_least(0x3A);
    let letter = at_least(0x41) & !at_least(0x47);
    (!(figure | letter) | characters) & TOP
}

/// The four bytes that eight digits write, at places 0, 16, 32 and 48; between them there is nothing of use.
#[inline(always)]
fn bytes(characters: u64) -> u64 {
    let digits = (characters & (0x0F * EVERY)) + 9 * (characters >> 6 & EVERY);
    digits << 4 | digits >> 8
}

#[inline(always)]
fn word(input: &[u8], at: usize) -> u64 {
    u64::from_le_bytes(input[at..at + 8].try_into().expect("eight characters"))
}

/// The characters of a line by its kind, without a deed number and with an allowance of two bytes; 0 where there is no such kind after the first line.
const LENGTHS: [u8; 256] = {
    let mut lengths = [0; 256];
    let mut kind = 2;
    while kind <= 12 {
        lengths[kind] = match kind {
            7..=9 => 8,
            10 => 4,
            _ => 6,
        };
        kind += 1;
    }
    lengths[14] = 4;
    lengths[15] = 2;
    lengths
};

/// The characters of two more bytes, which may end a fact or an allowance. A deed number is looked at for its digits only: no answer depends on it.
const MORE: usize = 4;

/// Behind two more bytes that stand there; the same place where none do.
#[inline(always)]
fn behind_more(input: &[u8], at: usize) -> usize {
    if no_digit(word(input, at)) << (64 - 8 * MORE) == 0 {
        at + MORE
    } else {
        at
    }
}

/// Room for reading eight characters at once behind the last line, and the end that line may lack.
pub const BEHIND: usize = 16;

/// Reads line 1 into an empty file, and gives the input's end, where the input has room behind it from now on.
#[inline(never)]
pub fn begin(input: &mut Vec<u8>, file: &mut File) -> Result<usize, Fault> {
    if input.is_empty() {
        return Err(Fault { line: 1, number: 11 });
    }
    let lacks_its_end = input.last() != Some(&b'\n');
    if lacks_its_end {
        input.push(b'\n');
    }
    let end = input.len();
    input.resize(end + BEHIND, 0);
    first_line(input, end, file).map_err(|number| Fault { line: 1, number })?;
    Ok(end)
}

/// Reads all other lines.
#[inline(never)]
pub fn go_on<S: States>(
    input: &[u8],
    end: usize,
    file: &mut File,
    question: &mut Question<S>,
) -> Result<(), Fault> {
    let mut line = 1;
    other_lines(input, end, file, question, &mut line).map_err(|number| Fault { line, number })
}

/// A whole file, of any number of states.
pub fn read(mut input: Vec<u8>) -> Result<(File, Question<u32>), Fault> {
    let (mut file, mut question) = (File::empty(), Question::empty());
    let end = begin(&mut input, &mut file)?;
    go_on(&input, end, &mut file, &mut question)?;
    Ok((file, question))
}

fn first_line(input: &[u8], end: usize, file: &mut File) -> Result<(), u8> {
    let (left, right) = (word(input, 0), word(input, 8));
    let digits = no_digit(left) == 0 && no_digit(right) << 32 == 0;
    let bytes = (bytes(left), bytes(right));
    if !digits || bytes.0 as u8 != 1 || input[12] != b'\n' {
        return Err(broken_line(&input[..end]));
    }
    file.names = (bytes.0 >> 16) as u8;
    let roles = (bytes.0 >> 32) as u8;
    file.individuals = (bytes.0 >> 48) as u8;
    file.states = bytes.1 as u8;
    file.start = (bytes.1 >> 16) as u8;
    if file.names > 64 || roles > 32 {
        return Err(4);
    }
    if file.states == 0 || file.states > MOST_STATES || file.start >= file.states {
        return Err(4);
    }
    file.signed = 2 * roles;
    Ok(())
}

/// How many characters a line may have, by how it begins.
fn most_characters(line: &[u8]) -> usize {
    if line.starts_with(b"0D") {
        130
    } else {
        64
    }
}

/// What is wrong with a line that is no frame of its place: 9, 10, then 11. These bytes begin with the line.
#[cold]
#[inline(never)]
fn broken_line(from_here: &[u8]) -> u8 {
    let line = from_here.split(|byte| *byte == b'\n').next().expect("a line");
    let digit = |byte: &u8| matches!(byte, b'0'..=b'9' | b'A'..=b'F');
    if line.is_empty() || line.len() > most_characters(line) || line.len() % 2 == 1 || !line.iter().all(digit)
    {
        return 9;
    }
    let wanted = match line[..2] {
        [b'0', b'1'] => 12,
        [b'0', b'0'] => 0,
        [b'0', low @ b'2'..=b'9'] => LENGTHS[usize::from(low - b'0')],
        // Any number of marks.
        [b'0', b'D'] => line.len() as u8,
        [b'0', low @ b'A'..=b'F'] => LENGTHS[usize::from(low - b'A' + 10)],
        [b'1', b'0'] => ENTRY as u8,
        _ => 0,
    };
    let by_more = matches!(line[..2], [b'0', b'6' | b'7' | b'C']) && line.len() == usize::from(wanted) + MORE;
    if line.len() == usize::from(wanted) || by_more {
        11
    } else {
        10
    }
}

/// The marks of a frame 0D, where these bytes begin with a line that is one.
fn marks(from_here: &[u8]) -> Option<Vec<u8>> {
    let line = from_here.split(|byte| *byte == b'\n').next()?;
    let digit = |byte: &u8| matches!(byte, b'0'..=b'9' | b'A'..=b'F');
    let whole = line.len() <= most_characters(line) && line.len() % 2 == 0 && line.iter().all(digit);
    let value = |byte: u8| (byte & 15) + 9 * (byte >> 6);
    let bytes = |line: &[u8]| line.chunks(2).map(|pair| value(pair[0]) << 4 | value(pair[1])).collect();
    whole.then(|| bytes(line.get(2..).unwrap_or_default()))
}

#[inline(never)]
fn other_lines<S: States>(
    input: &[u8],
    end: usize,
    file: &mut File,
    question: &mut Question<S>,
    line: &mut u32,
) -> Result<(), u8> {
    let mut rules = 0;
    let mut exclusions = 0;
    let mut role_rules = 0;
    let mut role_exclusions = 0;
    let mut concept_facts = 0;
    let mut steps = 0;
    let mut finals = 0;
    let mut expressed = false;
    let (names, signed, individuals, states) = (file.names, file.signed, file.individuals, file.states);
    let mut at = 13;
    while at < end {
        *line += 1;
        let characters = word(input, at);
        let bytes = bytes(characters);
        let (kind, x, y, z) = (bytes as u8, (bytes >> 16) as u8, (bytes >> 32) as u8, (bytes >> 48) as u8);
        if kind == 16 {
            return list(&input[at..end + BEHIND], file, line);
        }
        if kind == 13 {
            let marks = marks(&input[at..end]).ok_or_else(|| broken_line(&input[at..end]))?;
            if expressed || steps + finals > 0 {
                return Err(11);
            }
            expression::put(&marks, file, question)?;
            expressed = true;
            at += 2 * marks.len() + 3;
            continue;
        }
        let length = usize::from(LENGTHS[usize::from(kind)]);
        if length == 0 || no_digit(characters) << (64 - 8 * length) != 0 {
            return Err(broken_line(&input[at..end]));
        }
        let mut behind = at + length;
        if matches!(kind, 6 | 7 | 12) && input[behind] != b'\n' {
            behind = behind_more(input, behind);
        }
        if input[behind] != b'\n' {
            return Err(broken_line(&input[at..end]));
        }
        let begin = at;
        at = behind + 1;
        match kind {
            2 => {
                put(&mut rules, 512, file.has_concept(x) && file.has_concept(y))?;
                file.concept_rules[usize::from(x & 127)] |= 1 << (y & 127);
            }
            3 => {
                put(&mut exclusions, 512, file.has_concept(x) && file.has_concept(y))?;
                file.concept_exclusions[usize::from(x & 127)] |= 1 << (y & 127);
                file.concept_exclusions[usize::from(y & 127)] |= 1 << (x & 127);
            }
            4 => {
                put(&mut role_rules, 128, x < signed && y < signed)?;
                file.role_rules[usize::from(x & 63)] |= 1 << (y & 63);
                file.role_rules[usize::from((x ^ 1) & 63)] |= 1 << ((y ^ 1) & 63);
            }
            5 => {
                put(&mut role_exclusions, 128, x < signed && y < signed)?;
                file.excludes_roles = true;
                for flip in [0, 1] {
                    let (x, y) = ((x ^ flip) & 63, (y ^ flip) & 63);
                    file.role_exclusions[usize::from(x)] |= 1 << y;
                    file.role_exclusions[usize::from(y)] |= 1 << x;
                }
            }
            6 => {
                put(&mut concept_facts, 1_024, x < names && y < individuals)?;
                file.put_fact(Typed::Name { name: x, who: y });
            }
            7 => {
                if file.facts.len() == 4_096 {
                    return Err(5);
                }
                // Names of roles are below half of the signed ones.
                if x >= signed / 2 || y >= individuals || z >= individuals {
                    return Err(6);
                }
                file.put_fact(Typed::Role(Fact { role: 2 * x, first: y, second: z }));
            }
            8..=10 if expressed => return Err(11),
            8 => {
                put(&mut steps, 1_024, x < states && y < signed && z < states)?;
                question.role_steps[usize::from(y & 63)].add(x, z);
            }
            9 => {
                put(&mut steps, 1_024, x < states && y < names && z < states)?;
                question.test_steps[usize::from(y & 63)].add(x, z);
            }
            10 => {
                put(&mut finals, 32, x < states)?;
                question.finals |= S::one(usize::from(x));
            }
            11 | 14 => {
                if file.asks.len() == 256 {
                    return Err(5);
                }
                if x >= individuals || kind == 11 && y >= individuals {
                    return Err(8);
                }
                file.asks.push((x, if kind == 11 { y } else { ANY }));
            }
            15 if file.salvages => return Err(11),
            15 => file.salvages = true,
            _ => {
                if file.allowance.is_some() {
                    return Err(11);
                }
                file.allowance = Some(if behind == begin + length {
                    u32::from(u16::from_be_bytes([x, y]))
                } else {
                    u32::from_be_bytes([x, y, z, self::bytes(word(input, begin + 8)) as u8])
                });
            }
        }
    }
    Ok(())
}

/// The lines of the list, which ends the file; these bytes begin with the first.
#[inline(never)]
fn list(input: &[u8], file: &mut File, line: &mut u32) -> Result<(), u8> {
    let end = input.len() - BEHIND;
    file.listed_from = *line;
    let mut at = 0;
    while at < end {
        let (left, right) = (word(input, at), word(input, at + 8));
        let (front, back) = (bytes(left), bytes(right));
        if (no_digit(left) | no_digit(right)) != 0 || front as u8 != 0x10 || input[at + ENTRY] != b'\n' {
            return Err(broken_line(&input[at..end]));
        }
        if file.list.len() == MOST_LISTED {
            return Err(5);
        }
        let (from, to, concept) = ((back >> 16) as u8, (back >> 32) as u8, (back >> 48) as u8);
        if from >= file.states || to >= file.states || !file.has_concept(concept) {
            return Err(6);
        }
        let round = [(front >> 16) as u8, (front >> 32) as u8, (front >> 48) as u8, back as u8];
        file.list.push(entry(u32::from_be_bytes(round), from, to, concept));
        at += ENTRY + 1;
        *line += 1;
    }
    Ok(())
}

/// One more record of a table: 5 where it has no room, then 6 where a number is not declared.
#[inline(always)]
fn put(count: &mut u16, most: u16, declared: bool) -> Result<(), u8> {
    if *count == most {
        return Err(5);
    }
    if !declared {
        return Err(6);
    }
    *count += 1;
    Ok(())
}
