//! PROTOCOL.md's ten examples, read and answered as it is written there.

use second::area::{AREA, STORED};
use second::compare::protocol::{answer, hash, read_request, reply, request};
use second::library::ask;

/// The lines of the document's code blocks, for a pair, a row, marks, one individual, the marks of rounds, an area moved, two
/// collections, the list of a sheet, where one departs and which facts are kept: the request, broken over several, and the
/// reply.
fn examples() -> [(String, String); 10] {
    let document = include_str!("../PROTOCOL.md");
    let blocks: Vec<&str> = document.split("```").collect();
    [1, 5, 9, 13, 17, 21, 25, 29, 33, 37]
        .map(|at| (blocks[at].replace('\n', ""), blocks[at + 2].replace('\n', "")))
}

#[test]
fn the_examples_are_answered_as_written() {
    let [pair, row, _, one, rounds, ..] = examples();
    let answers = [vec![(1, 2)], vec![(1, 2), (0, 2), (8, 0)], vec![(1, 2)], vec![(0, 2)]];
    for ((line, reply), answers) in [pair, row, one, rounds].into_iter().zip(answers) {
        let lent = read_request(&line).expect("a request");
        assert_eq!(request(&lent), line);
        assert_eq!(answer(&lent), (Some(answers), reply));
    }
    for (line, expected) in examples() {
        assert_eq!(reply(&line), expected);
    }
}

/// FNV-1a of so many numbers, these in front and the others as they were filled.
fn row(front: &[u16], fill: u16, numbers: usize) -> String {
    let row = front.iter().copied().chain(vec![fill; numbers - front.len()]);
    format!("{:016X}", hash(&row.flat_map(u16::to_le_bytes).collect::<Vec<u8>>()))
}

#[test]
fn the_tables_of_an_expression_stand_in_front() {
    // signs, test Deed, signs backward: three steps of four numbers, and one final.
    let steps = [0, 0, 0, 1, 1, 1, 1, 2, 0, 2, 1, 3];
    let behind = format!("{:016X}", hash(&[0x55; 64])).repeat(2);
    let made = row(&steps, 0xAAAA, 4_096) + &row(&[3], 0xAAAA, 32) + &behind;
    assert_eq!(reply(&examples()[2].0), format!("000004000C0001{made}"));
    // Longer rows stay as they were behind the tables.
    let made = row(&steps, 0xAAAA, 8_192) + &row(&[3], 0xAAAA, 8_192) + &behind;
    assert_eq!(reply("M000300410120002000AA"), format!("000004000C0001{made}"));
}

#[test]
fn marks_without_tables_leave_all_as_it_was() {
    let behind = format!("{:016X}", hash(&[0x55; 64])).repeat(2);
    let kept = |steps, finals| row(&[], 0xAAAA, steps) + &row(&[], 0xAAAA, finals) + &behind;
    let refused = |number: &str, steps, finals| format!("{number}FFFFFFFFFFFF{}", kept(steps, finals));
    assert_eq!(reply("M0003004101"), "!");
    assert_eq!(reply("M00030041010FFF0020AA"), refused("05", 4_095, 32));
    assert_eq!(reply("M00030041011000001FAA"), refused("05", 4_096, 31));
    assert_eq!(reply("M000000000000AA"), refused("05", 0, 0));
    assert_eq!(reply("M000010000020AA"), refused("0C", 4_096, 32));
    assert_eq!(reply(&format!("M0009{}10000020AA", "80".repeat(9))), refused("0D", 4_096, 32));
    assert_eq!(reply(&format!("M0020{}10000020AA", "00".repeat(32))), refused("0E", 4_096, 32));
}

/// The request for the marks of rounds with other digits in one place.
fn rounds_asked(from: &str, to: &str) -> String {
    let (line, _) = examples()[4].clone();
    assert_eq!(line.matches(from).count(), 1, "{from}");
    line.replace(from, to)
}

/// FNV-1a of a row of so many counts, these in front and the others as they were filled.
fn row_of_counts(front: &[u32], fill: u32, room: usize) -> String {
    let row = front.iter().copied().chain(vec![fill; room - front.len()]);
    format!("{:016X}", hash(&row.flat_map(u32::to_le_bytes).collect::<Vec<u8>>()))
}

/// The reply to it where these counts stand in front of a row, filled with AA, that has so much room.
fn rounds_told(number: &str, counts: &[u32], room: usize, areas: [Vec<u8>; 2]) -> String {
    let [area, spare] = areas.map(|area| hash(&area));
    let [behind_row, behind_area, behind_spare] = [0x55, 0xFF, 0x00].map(|guard| hash(&[guard; 64]));
    let row = row_of_counts(counts, 0xAAAA_AAAA, room);
    let behind = format!("{behind_row:016X}{area:016X}{spare:016X}{behind_area:016X}{behind_spare:016X}");
    format!("{number}{row}{behind}")
}

#[test]
fn the_marks_of_rounds_stand_in_front() {
    let told = |allowance: &str, room: &str, number: &str, counts: &[u32]| {
        let tail = |allowance: &str, room: &str| format!("{allowance}000040000000400000FF{room}AA");
        let asked = rounds_asked(&tail("00000040", "00000040"), &tail(allowance, room));
        // Both areas as an answer to a pair leaves them.
        let [mut area, mut spare] = [vec![0; AREA], vec![0xFF; AREA]];
        ask(&read_request(&asked).expect("a request").call, [0, 0], &mut area, &mut spare);
        let room = usize::from_str_radix(room, 16).expect("hexadecimal");
        assert_eq!(reply(&asked), rounds_told(number, counts, room, [area, spare]), "{allowance}, {room}");
    };
    told("00000040", "00000040", "0000000002", &[2, 2]);
    told("00000002", "00000002", "0000000002", &[2, 2]);
    told("0000FFFF", "0000FFFF", "0000000002", &[2, 2]);
    told("00010000", "00010000", "0000000002", &[2, 2]);
    told("0001F000", "0001F000", "0000000002", &[2, 2]);
    told("00000003", "00010002", "0000000002", &[2, 2]);
    told("00000001", "00020000", "0300000001", &[2]);
    told("00000000", "00000000", "0300000000", &[]);
}

#[test]
fn without_the_marks_of_rounds_all_is_as_it_was() {
    let kept = |number, room, [area, spare]: [usize; 2]| {
        rounds_told(&format!("{number}FFFFFFFF"), &[], room, [vec![0; area], vec![0xFF; spare]])
    };
    // Room for one too few, none, and one too few beside an undeclared final state.
    assert_eq!(reply(&rounds_asked("00000040AA", "0000003FAA")), kept("05", 63, [AREA; 2]));
    assert_eq!(reply(&rounds_asked("00000040AA", "00000000AA")), kept("05", 0, [AREA; 2]));
    let undeclared = rounds_asked("0001000300000040", "0001000400000040");
    assert_eq!(reply(&undeclared), kept("06", 64, [AREA; 2]));
    assert_eq!(reply(&undeclared.replace("00000040AA", "0000003FAA")), kept("05", 63, [AREA; 2]));
    // An area of another length; 33 states, which come before it.
    let shorter = rounds_asked("00004000000040", "00003FFF000040");
    assert_eq!(reply(&shorter), kept("05", 64, [AREA - 1, AREA]));
    let many_states = shorter.replace("N0002000200020004", "N0002000200020021");
    assert_eq!(reply(&many_states), kept("04", 64, [AREA - 1, AREA]));
    // What the unnamed deed is, and has, is excluded; also where no round is allowed.
    let excluded = rounds_asked("004100010000", "00410001000200010041");
    assert_eq!(reply(&excluded), kept("02", 64, [AREA; 2]));
    assert_eq!(
        reply(&excluded.replace("000000400000400000", "000000000000400000")),
        kept("02", 64, [AREA; 2])
    );
    assert_eq!(reply(&excluded.replace("00000040AA", "0000003FAA")), kept("05", 63, [AREA; 2]));
}

#[test]
fn areas_are_moved_and_moved_back() {
    let moved = |kind: &str, before: &[u8], after: usize| {
        let bytes: String = before.iter().map(|byte| format!("{byte:02X}")).collect();
        reply(&format!("{kind}{:08X}{bytes}{after:08X}AA", before.len()))
    };
    let told = |number: &str, before: &[u8], after: &[u8]| {
        let behind = format!("{:016X}", hash(&[0x55; 64])).repeat(2);
        format!("{number}{:016X}{:016X}{behind}", hash(before), hash(after))
    };
    // The mark (2, 3, 69) at its two places; and one of state 16.
    let (mut stored, mut today) = (vec![0; STORED], vec![0; AREA]);
    (stored[568], today[1_080]) = (0b0010_0000, 0b0010_0000);
    assert_eq!(moved("S", &stored, AREA), told("00", &stored, &today));
    assert_eq!(moved("T", &today, STORED), told("00", &today, &stored));
    today[256] = 1;
    assert_eq!(moved("T", &today, STORED), told("06", &today, &[0xAA; STORED]));
    assert_eq!(moved("T", &today, STORED - 1), told("05", &today, &[0xAA; STORED - 1]));
    assert_eq!(moved("S", &today, STORED), told("05", &today, &[0xAA; STORED]));
}

#[test]
fn a_row_that_does_not_fit_leaves_all_as_it_was() {
    let (line, _) = &examples()[1];
    // Two entries for the counts of three pairs.
    let lent = read_request(&line.replace("00030003AA", "00030002AA")).expect("a request");
    let untouched = [hash(&[0; AREA]), hash(&[0xFF; AREA]), hash(&[0xFF; 64]), hash(&[0; 64])];
    let behind = hash(&[0x55; 64]);
    let areas: String = untouched.iter().map(|hash| format!("{hash:016X}")).collect();
    let reply = format!("00AAAAAA{behind:016X}{}{behind:016X}{areas}", "AA".repeat(8));
    assert_eq!(answer(&lent), (None, reply));
}

#[test]
fn what_is_no_request() {
    let lines = examples().map(|(line, _)| line);
    let [line, row, marks, one, rounds, moved, twice, listed, departs, sifted] = lines;
    assert!(read_request("").is_none());
    assert!(read_request("R").is_none());
    let cut = &marks[..marks.len() - 1];
    // A letter that is a digit, too; more numbers than a driver holds; fewer marks than are told, or more.
    for other in ["", "M", "MM", cut, &marks[1..], &format!("{marks}0"), &marks.replacen('M', "E", 1)] {
        assert_eq!(reply(other), "!");
    }
    for (from, to) in
        [("10000020", "20010020"), ("10000020", "10002001"), ("M0003", "M0004"), ("M0003", "M0002")]
    {
        assert_eq!(reply(&marks.replacen(from, to, 1)), "!");
    }
    // A pair where one individual is asked, or one where a pair is.
    for other in [format!("L{line}"), one[1..].to_string(), one.replacen('L', "R", 1), one.to_lowercase()] {
        assert!(read_request(&other).is_none());
    }
    // Rounds where a pair is asked, or one individual where rounds are; another letter, which is a digit too; more room than
    // a driver holds; no byte to fill it with.
    for other in [
        format!("N{line}"),
        rounds[1..].to_string(),
        rounds.replacen('N', "L", 1),
        rounds.replacen('N', "B", 1),
        format!("{rounds}0"),
        rounds.replace("00000040AA", "00020001AA"),
        rounds.replace("00000040AA", "0040AA"),
        rounds[..rounds.len() - 2].to_string(),
    ] {
        assert!(read_request(&other).is_none());
    }
    assert!(read_request(&rounds.replace("00000040AA", "00020000AA")).is_some());
    assert!(read_request(&line.replacen("0002", "R", 1)).is_none());
    assert!(read_request(&format!("R{line}")).is_none());
    assert!(read_request(&row[1..]).is_none());
    // More entries than a driver holds.
    assert!(read_request(&row.replace("00030003AA", "00030401AA")).is_none());
    assert!(read_request(&line[1..]).is_none());
    assert!(read_request(&format!("{line}0")).is_none());
    assert!(read_request(&line.to_lowercase()).is_none());
    // Fewer bytes of an area that is moved than are told, or more; a digit missing; an area longer than a driver holds.
    for (from, to) in
        [("S00000001", "S00000002"), ("S00000001", "S00000000"), ("AA", "A"), ("00000002AA", "00020001AA")]
    {
        assert_eq!(reply(&moved.replacen(from, to, 1)), "!");
    }
    assert_eq!(reply(&moved.replacen('S', "T", 1))[..2], *"05");
    // An area longer than a driver holds.
    assert!(read_request(&line.replace("0000400000004000", "0002000100004000")).is_none());
    // One collection alone, or a digit too many; a pair where two collections are.
    for other in [twice[..69].to_string(), format!("{twice}0"), format!("P{line}"), twice.to_lowercase()] {
        assert_eq!(reply(&other), "!", "{other}");
    }
    // No byte to fill a row with; fewer numbers of a list than are told, or more; more than a driver holds; one for the other.
    for other in [
        listed[..listed.len() - 2].to_string(),
        format!("{departs}0"),
        departs[..departs.len() - 8].to_string(),
        departs.replacen("00000004", "00080401", 1),
        listed.replacen('U', "V", 1),
        departs.replacen('V', "U", 1),
        sifted[..sifted.len() - 2].to_string(),
        sifted.replacen('W', "U", 1),
        format!("{sifted}0"),
    ] {
        assert_eq!(reply(&other), "!", "{other}");
    }
}

#[test]
fn two_collections_are_the_same_whatever_their_order_and_their_repeats() {
    let (line, _) = &examples()[6];
    let other = |from: &str, to: &str| {
        assert_eq!(line.matches(from).count(), 1, "{from}");
        reply(&line.replacen(from, to, 1))
    };
    // Another rule, no rule, another count; the start state is not below the states, in the first or the second.
    assert_eq!(other("00020000000100010000000200000001", "00020000000100010000000200010000"), "00");
    assert_eq!(other("00020000000100010000000200000001", "000200000001000100000000"), "00");
    assert_eq!(other("00020000000100010000000200000001", "00020000000200010000000200000001"), "00");
    assert_eq!(other("00020000000100010000000200000001", "00020000000100010001000200000001"), "04");
    assert_eq!(other("P00020000000100010000", "P00020000000100010001"), "04");
    // The refusal of the first is given, though that of the second is smaller.
    let broken = line.replacen("000400000001", "000300000001", 1).replacen(
        "000000010000000000000000",
        "00000000000000000000",
        1,
    );
    assert_eq!(reply(&broken), "05");
    let second = broken.replacen("00020000000100010000000200000001", "00020000000100010001000200000001", 1);
    assert_eq!(reply(&second), "05");
}

/// The list of the base collection, four numbers for each entry.
fn base_list() -> Vec<[u32; 4]> {
    let round_0 = (0..4).flat_map(|state| [0, 1, 64, 65, 66, 67].map(|concept| [0, state, state, concept]));
    round_0.chain([[1, 1, 2, 1], [1, 1, 2, 65], [2, 0, 3, 0], [2, 0, 3, 64]]).collect()
}

/// What the list of a sheet is asked with, and other digits in one place.
fn listed(from: &str, to: &str) -> String {
    let (line, _) = examples()[7].clone();
    assert_eq!(line.matches(from).count(), 1, "{from}");
    line.replacen(from, to, 1)
}

#[test]
fn a_list_stands_in_front_of_a_row_that_could_take_the_longest() {
    let front = base_list().concat();
    let behind = format!("{:016X}", hash(&[0x55; 64]));
    let told = |room: usize| format!("000000001C{}{behind}", row_of_counts(&front, 0xAAAA_AAAA, room));
    assert_eq!(examples()[7].1, told(524_288));
    assert_eq!(reply(&listed("00080000AA", "00080400AA")), told(525_312));
    assert_eq!(reply(&listed("00080000AA", "00080401AA")), "!");
    let kept = |number: &str, room: usize| {
        format!("{number}FFFFFFFF{}{behind}", row_of_counts(&[], 0xAAAA_AAAA, room))
    };
    // One number too few, as many as this list has, and none; 33 states come before that.
    assert_eq!(reply(&listed("00080000AA", "0007FFFFAA")), kept("05", 524_287));
    assert_eq!(reply(&listed("00080000AA", "00000070AA")), kept("05", 112));
    assert_eq!(reply(&listed("00080000AA", "00000000AA")), kept("05", 0));
    let many_states = listed("U0002000200020004", "U0002000200020021");
    assert_eq!(reply(&many_states.replace("00080000AA", "00000000AA")), kept("04", 0));
    // A final state that is not declared, and a contradiction; a row that is too short comes before either.
    for (from, to, number) in
        [("0001000300080000", "0001000400080000", "06"), ("004100010000", "00410001000200010041", "02")]
    {
        assert_eq!(reply(&listed(from, to)), kept(number, 524_288));
        assert_eq!(reply(&listed(from, to).replace("00080000AA", "00000070AA")), kept("05", 112));
    }
}

#[test]
fn a_list_departs_or_is_refused() {
    // The same collection, and any list.
    let asked = |from: &str, to: &str, list: &[u32]| {
        let collection = listed(from, to).replacen('U', "V", 1);
        let list: String = list.iter().map(|number| format!("{number:08X}")).collect();
        reply(&collection.replace("00080000AA", &format!("{:08X}{list}", list.len() / 8)))
    };
    let base = |list: &[[u32; 4]]| asked("1267", "1267", list.as_flattened());
    let right = base_list();
    let changed = |at: usize, entry: [u32; 4]| {
        let mut list = right.clone();
        list[at] = entry;
        base(&list)
    };
    assert_eq!(base(&right), "00FFFFFFFF");
    assert_eq!(base(&right[..27]), "0F0000001B");
    assert_eq!(base(&right[1..]), "0F00000000");
    assert_eq!(base(&[]), "0F00000000");
    assert_eq!(base(&[&right[..], &right[27..]].concat()), "0F0000001C");
    assert_eq!(changed(24, [2, 1, 2, 1]), "0F00000018");
    assert_eq!(changed(24, [u32::MAX, 1, 2, 1]), "0F00000018");
    // A broken entry, and more than there may be; it comes before what is not declared.
    assert_eq!(asked("1267", "1267", &right.concat()[..111]), "05FFFFFFFF");
    assert_eq!(asked("1267", "1267", &[9; 5]), "05FFFFFFFF");
    assert_eq!(asked("1267", "1267", &vec![0; 4 * 131_072]), "0F00000001");
    assert_eq!(asked("1267", "1267", &vec![0; 4 * 131_073]), "05FFFFFFFF");
    // Not declared; in two bytes the last would be.
    for entry in
        [[0, 4, 0, 0], [0, 0, 4, 0], [0, 0, 0, 2], [0, 0, 0, 68], [0, 0x1_0000, 0, 0], [0, 0, 0, 0x1_0000]]
    {
        assert_eq!(changed(27, entry), "06FFFFFFFF", "{entry:?}");
    }
    // In a contradiction no list departs, and yet each is tested.
    let clash = |list: &[u32]| asked("004100010000", "00410001000200010041", list);
    assert_eq!(clash(&[]), "02FFFFFFFF");
    assert_eq!(clash(&right.concat()), "02FFFFFFFF");
    assert_eq!(clash(&[0, 0, 0, 2]), "06FFFFFFFF");
    assert_eq!(clash(&[0, 0, 0]), "05FFFFFFFF");
    // 33 states come before a broken entry.
    assert_eq!(asked("U0002000200020004", "U0002000200020021", &[0]), "04FFFFFFFF");
}

#[test]
fn the_hash_is_fnv_1a() {
    assert_eq!(hash(b""), 0xCBF2_9CE4_8422_2325);
    assert_eq!(hash(b"a"), 0xAF63_DC4C_8601_EC8C);
}

#[test]
fn the_marks_of_facts_stand_in_front_of_a_row() {
    let (line, _) = examples()[9].clone();
    let asked =
        |from: &str, to: &str| line.strip_suffix(from).map(|front| format!("{front}{to}")).expect("its end");
    let behind = format!("{:016X}", hash(&[0x55; 64]));
    let told = |number: &str, row: &[u8]| format!("{number}{:016X}{behind}", hash(row));
    let order = "00030000000100000003AA";
    assert_eq!(reply(&asked("0003AA", "0005AA")), told("00", &[1, 0, 0, 0xAA, 0xAA]));
    // The role fact first: it clashes with the rules alone.
    assert_eq!(reply(&asked(order, "00030001000000000003AA")), told("00", &[0, 1, 0]));
    // Too little room, a fact less, a fact more, another kind, and another number.
    assert_eq!(reply(&asked("0003AA", "0002AA")), told("05", &[0xAA; 2]));
    assert_eq!(reply(&asked(order, "0002000000010003AA")), told("05", &[0xAA; 3]));
    assert_eq!(reply(&asked(order, "000400000001000000000004AA")), told("05", &[0xAA; 4]));
    assert_eq!(reply(&asked(order, "00030000000100010003AA")), told("05", &[0xAA; 3]));
    assert_eq!(reply(&asked(order, "00030000000100020003AA")), told("05", &[0xAA; 3]));
    assert_eq!(reply(&asked("0003AA", "2001AA")), "!");
}
