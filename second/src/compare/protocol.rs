//! The line protocol of PROTOCOL.md: one library call per line in hexadecimal, one line back.

use super::calls::{Asks, CountRow, Lent, Row};
use super::listings::{Departs, Listed};
use super::moved::Moved;
use super::sifted::Sifted;
use super::twice::Twice;
use super::typed::Typed;
use crate::area::{from_16, to_16, AREA};
use crate::library::{
    ask, ask_all, ask_from, ask_row, departs, entry_numbers, list_of, made_of, marks, salvage, same_records,
    Call, Made, LONGEST_LIST,
};
use crate::listing::Entry;

/// Bytes behind each area that the call must not touch; they are filled with the complement of the area's fill. So it is
/// behind the entries of a row.
pub const GUARD: usize = 64;

/// The longest area that is lent: as long as a byte for each mark would need it.
pub const MOST_AREA: usize = 8 * AREA;

/// The most entries that are lent for a row's numbers, and for its counts.
pub const MOST_ENTRIES: usize = 1_024;

/// The most counts that a row has room for: twice as many as two bytes can tell apart, and more than rounds can be needed.
pub const MOST_ROOM: usize = 2 << 16;

/// The most numbers that are lent for steps, and for finals.
pub const MOST_MADE: usize = 8_192;

/// The most numbers that a row for a list has, or a list: some more than the longest list.
pub const MOST_LIST: usize = LONGEST_LIST + 1_024;

/// The longest row for the marks of facts: more than there can be facts.
pub const MOST_KEPT: usize = 8_192;

/// What stands before the call where a number is to be told, and where a count is.
const UNTOLD: u16 = 0xFFFF;
const UNCOUNTED: u32 = u32::MAX;

/// A line that asks for a row begins with it; it is no digit.
const ROW: char = 'R';

/// Likewise a line that asks for a row of both kinds of ask.
const MIXED: char = 'Q';

/// Likewise a line that asks of one individual whether a path leaves it.
const ONE: char = 'L';

/// Likewise one that asks how many marks each round makes.
const ROUNDS: char = 'N';

/// Likewise a line that asks for the tables of an expression.
const EXPRESSION: char = 'M';

/// Likewise a line that has an area moved: a stored one to the places of today, or one of today to the stored places.
const FROM_16: char = 'S';
const TO_16: char = 'T';

/// Likewise a line that asks whether two collections are the same as sets.
const TWICE: char = 'P';

/// Likewise one that asks for the list of a sheet, and one that asks where a list departs from it.
const LISTED: char = 'U';
const DEPARTS: char = 'V';

/// Likewise one that asks which facts salvage keeps.
const SALVAGE: char = 'W';

/// The reply line to any line.
pub fn reply(line: &str) -> String {
    let replied = match line.chars().next() {
        Some(EXPRESSION) => read_expression(&line[1..]).map(|typed| answer_expression(&typed).1),
        Some(kind @ (FROM_16 | TO_16)) => {
            read_moved(kind == TO_16, &line[1..]).map(|moved| answer_moved(&moved).1)
        }
        Some(TWICE) => read_twice(&line[1..]).map(|calls| answer_twice(&calls).1),
        Some(LISTED) => read_listed(&line[1..]).map(|listed| answer_listed(&listed).1),
        Some(DEPARTS) => read_departs(&line[1..]).map(|departs| answer_departs(&departs).1),
        Some(SALVAGE) => read_sifted(&line[1..]).map(|sifted| answer_sifted(&sifted).1),
        _ => read_request(line).map(|lent| answer(&lent).1),
    };
    replied.unwrap_or("!".to_string())
}

pub fn request(lent: &Lent) -> String {
    let call = &lent.call;
    let mut line = collection(call);
    match &lent.asks {
        Asks::Pair(pair) => line += &digits(pair),
        Asks::From(first) => {
            line.insert(0, ONE);
            line += &digits(&[*first]);
        }
        Asks::Row(row) | Asks::Mixed(row) => {
            line.insert(0, if matches!(lent.asks, Asks::Row(_)) { ROW } else { MIXED });
            line += &counted(&row.asked);
        }
        Asks::Rounds(_) => line.insert(0, ROUNDS),
    }
    line += &format!("{:08X}", call.allowance);
    let ([area, spare], [first, second]) = (lent.lengths, lent.fills);
    line += &format!("{area:08X}{spare:08X}{first:02X}{second:02X}");
    match &lent.asks {
        Asks::Pair(_) | Asks::From(_) => line,
        Asks::Row(row) | Asks::Mixed(row) => {
            let Row { entries: [numbers, counts], fill, .. } = row;
            line + &format!("{numbers:04X}{counts:04X}{fill:02X}")
        }
        Asks::Rounds(CountRow { room, fill }) => line + &format!("{room:08X}{fill:02X}"),
    }
}

/// The counts and the tables.
fn collection(call: &Call) -> String {
    let tables = call.tables.iter().map(|table| counted(table));
    digits(&call.counts) + &tables.collect::<String>()
}

fn digits(numbers: &[u16]) -> String {
    numbers.iter().map(|number| format!("{number:04X}")).collect()
}

fn counted(numbers: &[u16]) -> String {
    digits(&[numbers.len() as u16]) + &digits(numbers)
}

/// None when the line isn't a request.
pub fn read_request(line: &str) -> Option<Lent> {
    let kind = [ROW, MIXED, ONE, ROUNDS].into_iter().find(|kind| line.starts_with(*kind));
    let mut digits = kind.map_or(line, |_| &line[1..]);
    let mut call = take_collection(&mut digits)?;
    let mut asks = match kind {
        None => Asks::Pair(take_numbers(&mut digits)?),
        Some(ONE) => Asks::From(take(&mut digits, 4)? as u16),
        Some(ROUNDS) => Asks::Rounds(CountRow { room: 0, fill: 0 }),
        Some(kind) => {
            let row = Row { asked: take_counted(&mut digits)?, entries: [0; 2], fill: 0 };
            if kind == ROW {
                Asks::Row(row)
            } else {
                Asks::Mixed(row)
            }
        }
    };
    call.allowance = take(&mut digits, 8)? as u32;
    let lengths = [take(&mut digits, 8)?, take(&mut digits, 8)?];
    let fills = [take(&mut digits, 2)? as u8, take(&mut digits, 2)? as u8];
    let held = match &mut asks {
        Asks::Pair(_) | Asks::From(_) => true,
        Asks::Row(row) | Asks::Mixed(row) => {
            row.entries = take_numbers(&mut digits)?.map(usize::from);
            row.fill = take(&mut digits, 2)? as u8;
            row.entries.iter().all(|entries| *entries <= MOST_ENTRIES)
        }
        Asks::Rounds(row) => {
            row.room = take(&mut digits, 8)?;
            row.fill = take(&mut digits, 2)? as u8;
            row.room <= MOST_ROOM
        }
    };
    let fits = held && digits.is_empty() && lengths.iter().all(|length| *length <= MOST_AREA);
    fits.then_some(Lent { kind: "", call, asks, lengths, fills, planted: Vec::new() })
}

/// With an allowance of 0.
fn take_collection(digits: &mut &str) -> Option<Call> {
    let counts = take_numbers(digits)?;
    let mut tables: [Vec<u16>; 8] = Default::default();
    for table in &mut tables {
        *table = take_counted(digits)?;
    }
    Some(Call { counts, tables, allowance: 0 })
}

fn take_numbers<const N: usize>(digits: &mut &str) -> Option<[u16; N]> {
    let mut numbers = [0; N];
    for number in &mut numbers {
        *number = take(digits, 4)? as u16;
    }
    Some(numbers)
}

fn take_counted(digits: &mut &str) -> Option<Vec<u16>> {
    let length = take(digits, 4)?;
    (0..length).map(|_| Some(take(digits, 4)? as u16)).collect()
}

fn take(digits: &mut &str, width: usize) -> Option<usize> {
    let (head, tail) = (digits.get(..width)?, digits.get(width..)?);
    *digits = tail;
    let capital = head.bytes().all(|byte| matches!(byte, b'0'..=b'9' | b'A'..=b'F'));
    capital.then(|| usize::from_str_radix(head, 16).ok()).flatten()
}

/// The answers that module `library` gives, None where a row is refused, and the reply line. Of how many marks
/// each round makes there is one, whose count is how many rounds are told.
pub fn answer(lent: &Lent) -> (Option<Vec<(u8, u32)>>, String) {
    let [mut area, mut spare] = [0, 1].map(|which| vec![lent.fills[which]; lent.lengths[which]]);
    let (answers, told) = match &lent.asks {
        Asks::Pair(pair) => {
            let (number, count) = ask(&lent.call, *pair, &mut area, &mut spare);
            (Some(vec![(number, count)]), format!("{number:02X}{count:08X}"))
        }
        Asks::From(first) => {
            let (number, count) = ask_from(&lent.call, *first, &mut area, &mut spare);
            (Some(vec![(number, count)]), format!("{number:02X}{count:08X}"))
        }
        Asks::Row(row) => {
            let answers = ask_all(&lent.call, &row.asked, row.entries, &mut area, &mut spare);
            let told = told(row, u8::from(answers.is_some()), answers.as_deref());
            (answers, told)
        }
        Asks::Mixed(row) => {
            let answers = ask_row(&lent.call, &row.asked, row.entries, &mut area, &mut spare);
            let number = answers.as_ref().err().copied().unwrap_or(0);
            let told = told(row, number, answers.as_deref().ok());
            (answers.ok(), told)
        }
        Asks::Rounds(row) => {
            let (number, added) = marks(&lent.call, row.room, &mut area, &mut spare);
            let (rounds, behind) = put_into(row, added.as_deref());
            (Some(vec![(number, rounds)]), format!("{number:02X}{rounds:08X}{behind}"))
        }
    };
    let guards = lent.fills.map(|fill| hash(&[!fill; GUARD]));
    let behind = format!("{:016X}{:016X}{:016X}{:016X}", hash(&area), hash(&spare), guards[0], guards[1]);
    (answers, told + &behind)
}

/// What the call gives, then the entries of numbers and of counts, each with what lies behind it. Without answers they are
/// as they were filled.
fn told(row: &Row, given: u8, answers: Option<&[(u8, u32)]>) -> String {
    let filled = u32::from_le_bytes([row.fill; 4]);
    let (numbers, counts): (Vec<u8>, Vec<u32>) = match answers {
        Some(answers) => answers.iter().copied().unzip(),
        None => (vec![row.fill; row.entries[0]], vec![filled; row.entries[1]]),
    };
    let numbers: String = numbers.iter().map(|number| format!("{number:02X}")).collect();
    let counts: String = counts.iter().map(|count| format!("{count:08X}")).collect();
    let behind = hash(&[!row.fill; GUARD]);
    format!("{given:02X}{numbers}{behind:016X}{counts}{behind:016X}")
}

/// How many rounds are told, and the hashes of the row and of what lies behind it. Without counts all is as it was before.
fn put_into(row: &CountRow, counts: Option<&[u32]>) -> (u32, String) {
    let mut after = vec![u32::from_le_bytes([row.fill; 4]); row.room];
    let told = counts.map_or(UNCOUNTED, |counts| {
        after[..counts.len()].copy_from_slice(counts);
        counts.len() as u32
    });
    (told, format!("{:016X}{:016X}", hash_counts(&after), hash(&[!row.fill; GUARD])))
}

pub fn request_expression(typed: &Typed) -> String {
    let marks: String = typed.marks.iter().map(|mark| format!("{mark:02X}")).collect();
    let (many, [steps, finals]) = (typed.marks.len(), typed.rows);
    format!("{EXPRESSION}{many:04X}{marks}{steps:04X}{finals:04X}{:02X}", typed.fill)
}

/// What stands behind the letter; None when the line isn't a request.
fn read_expression(mut digits: &str) -> Option<Typed> {
    let many = take(&mut digits, 4)?;
    let marks = (0..many).map(|_| Some(take(&mut digits, 2)? as u8)).collect::<Option<_>>()?;
    let rows = take_numbers(&mut digits)?.map(usize::from);
    let fill = take(&mut digits, 2)? as u8;
    let fits = digits.is_empty() && rows.iter().all(|numbers| *numbers <= MOST_MADE);
    fits.then_some(Typed { kind: "", marks, rows, fill, planted: None })
}

/// What module `library` makes of the marks, and the reply line. Without tables all is as it was before the call.
pub fn answer_expression(typed: &Typed) -> (Result<Made, u8>, String) {
    let made = made_of(&typed.marks, typed.rows);
    let mut rows = typed.rows.map(|numbers| vec![u16::from_le_bytes([typed.fill; 2]); numbers]);
    let mut told = [UNTOLD; 3];
    if let Ok(made) = &made {
        for (row, table) in rows.iter_mut().zip(&made.tables) {
            row[..table.len()].copy_from_slice(table);
        }
        told = [made.states, made.tables[0].len() as u16, made.tables[1].len() as u16];
    }
    let number = made.as_ref().err().copied().unwrap_or(0);
    let [steps, finals] = rows.map(|row| hash_numbers(&row));
    let behind = hash(&[!typed.fill; GUARD]);
    let told = digits(&told);
    (made, format!("{number:02X}{told}{steps:016X}{finals:016X}{behind:016X}{behind:016X}"))
}

pub fn request_moved(moved: &Moved) -> String {
    let kind = if moved.back { TO_16 } else { FROM_16 };
    let bytes: String = moved.before.iter().map(|byte| format!("{byte:02X}")).collect();
    let (before, after, fill) = (moved.before.len(), moved.after, moved.fill);
    format!("{kind}{before:08X}{bytes}{after:08X}{fill:02X}")
}

/// What stands behind the letter; None when the line isn't a request.
fn read_moved(back: bool, mut digits: &str) -> Option<Moved> {
    let many = take(&mut digits, 8).filter(|many| *many <= MOST_AREA)?;
    let before = (0..many).map(|_| Some(take(&mut digits, 2)? as u8)).collect::<Option<_>>()?;
    let after = take(&mut digits, 8).filter(|many| *many <= MOST_AREA)?;
    let fill = take(&mut digits, 2)? as u8;
    digits.is_empty().then_some(Moved { kind: "", back, before, after, fill })
}

/// The number that module `area` gives, and the reply line.
pub fn answer_moved(moved: &Moved) -> (u8, String) {
    let mut after = vec![moved.fill; moved.after];
    let number = match moved.back {
        true => to_16(&moved.before, &mut after),
        false => from_16(&moved.before, &mut after),
    };
    let (before, after) = (hash(&moved.before), hash(&after));
    let behind = hash(&[!moved.fill; GUARD]);
    (number, format!("{number:02X}{before:016X}{after:016X}{behind:016X}{behind:016X}"))
}

pub fn request_twice(twice: &Twice) -> String {
    let [one, other] = &twice.calls;
    format!("{TWICE}{}{}", collection(one), collection(other))
}

/// What stands behind the letter; None when the line isn't a request.
fn read_twice(mut digits: &str) -> Option<[Call; 2]> {
    let calls = [take_collection(&mut digits)?, take_collection(&mut digits)?];
    digits.is_empty().then_some(calls)
}

/// The number that module `library` gives, and the reply line.
pub fn answer_twice([one, other]: &[Call; 2]) -> (u8, String) {
    let number = same_records(one, other);
    (number, format!("{number:02X}"))
}

pub fn request_listed(listed: &Listed) -> String {
    format!("{LISTED}{}{:08X}{:02X}", collection(&listed.call), listed.room, listed.fill)
}

/// What stands behind the letter; None when the line isn't a request.
fn read_listed(mut digits: &str) -> Option<Listed> {
    let call = take_collection(&mut digits)?;
    let room = take(&mut digits, 8).filter(|room| *room <= MOST_LIST)?;
    let fill = take(&mut digits, 2)? as u8;
    digits.is_empty().then_some(Listed { kind: "", call, room, fill, planted: Vec::new() })
}

/// What module `library` gives, and the reply line. Without a list all is as it was before the call.
pub fn answer_listed(listed: &Listed) -> (Result<Vec<Entry>, u8>, String) {
    let list = list_of(&listed.call, listed.room);
    let number = list.as_ref().err().copied().unwrap_or(0);
    let mut row = vec![u32::from_le_bytes([listed.fill; 4]); listed.room];
    let mut told = UNCOUNTED;
    if let Ok(list) = &list {
        let numbers: Vec<u32> = list.iter().flat_map(entry_numbers).collect();
        row[..numbers.len()].copy_from_slice(&numbers);
        told = list.len() as u32;
    }
    let (row, behind) = (hash_counts(&row), hash(&[!listed.fill; GUARD]));
    (list, format!("{number:02X}{told:08X}{row:016X}{behind:016X}"))
}

pub fn request_departs(departs: &Departs) -> String {
    let list: String = departs.list.iter().map(|number| format!("{number:08X}")).collect();
    format!("{DEPARTS}{}{:08X}{list}", collection(&departs.call), departs.list.len())
}

/// What stands behind the letter; None when the line isn't a request.
fn read_departs(mut digits: &str) -> Option<Departs> {
    let call = take_collection(&mut digits)?;
    let many = take(&mut digits, 8).filter(|many| *many <= MOST_LIST)?;
    let list = (0..many).map(|_| Some(take(&mut digits, 8)? as u32)).collect::<Option<_>>()?;
    digits.is_empty().then_some(Departs { kind: "", call, list, planted: Vec::new() })
}

/// The number that module `library` gives, and the reply line with the place where the list departs.
pub fn answer_departs(asked: &Departs) -> (u8, String) {
    let (number, place) = match departs(&asked.call, &asked.list) {
        Err(number) => (number, UNCOUNTED),
        Ok(None) => (0, UNCOUNTED),
        Ok(Some(place)) => (15, place as u32),
    };
    (number, format!("{number:02X}{place:08X}"))
}

pub fn request_sifted(sifted: &Sifted) -> String {
    let (call, order) = (collection(&sifted.call), counted(&sifted.order));
    format!("{SALVAGE}{call}{order}{:04X}{:02X}", sifted.room, sifted.fill)
}

/// What stands behind the letter; None when the line isn't a request.
fn read_sifted(mut digits: &str) -> Option<Sifted> {
    let call = take_collection(&mut digits)?;
    let order = take_counted(&mut digits)?;
    let room = take(&mut digits, 4).filter(|room| *room <= MOST_KEPT)?;
    let fill = take(&mut digits, 2)? as u8;
    digits.is_empty().then_some(Sifted { kind: "", call, order, room, fill, planted: Vec::new() })
}

/// What module `library` gives, and the reply line. Where the call is refused the row is as it was before.
pub fn answer_sifted(sifted: &Sifted) -> (Result<Vec<bool>, u8>, String) {
    let kept = salvage(&sifted.call, &sifted.order, sifted.room);
    let number = kept.as_ref().err().copied().unwrap_or(0);
    let mut row = vec![sifted.fill; sifted.room];
    for (place, kept) in row.iter_mut().zip(kept.iter().flatten()) {
        *place = u8::from(*kept);
    }
    let behind = hash(&[!sifted.fill; GUARD]);
    let row = hash(&row);
    (kept, format!("{number:02X}{row:016X}{behind:016X}"))
}

/// Each count as four bytes, the low one first.
fn hash_counts(counts: &[u32]) -> u64 {
    hash(&counts.iter().flat_map(|count| count.to_le_bytes()).collect::<Vec<u8>>())
}

/// Each number as two bytes, the low one first.
fn hash_numbers(numbers: &[u16]) -> u64 {
    hash(&numbers.iter().flat_map(|number| number.to_le_bytes()).collect::<Vec<u8>>())
}

/// FNV-1a with 64 bits.
pub fn hash(bytes: &[u8]) -> u64 {
    let mix = |hash: u64, byte: &u8| (hash ^ u64::from(*byte)).wrapping_mul(0x0000_0100_0000_01B3);
    bytes.iter().fold(0xCBF2_9CE4_8422_2325, mix)
}
