//! The list of a closed sheet, worked by hand: what the lister writes, which lists the desk and the copyist accept, and where
//! the others depart.

use second::copy::copy;
use second::desk::desk;
use second::listing::list;

/// What a program writes of these lines.
fn of(program: fn(&[u8]) -> Vec<u8>, words: &str) -> String {
    let input: String = words.split_whitespace().map(|line| format!("{line}\n")).collect();
    let output = String::from_utf8(program(input.as_bytes())).expect("text");
    output.lines().collect::<Vec<&str>>().join(" ")
}

const B: &str = "010202020400 020040 024101 060000 08000001 09010102 08020103 0A03 0B0000 0B0001";
const COPY_OF_B: &str = "010202020400 020040 024101 0600000000 08000001 08020103 09010102 0A03";
const ANSWERS_TO_B: &str = "8A00010002 8A00020002 8B0000010002 8B0001000002";

/// The list of B: of Owner and Deed, of ∃signs and ∃holds and of their inverses each state with itself, in the order of the
/// states; then what the test makes of a deed, and then the way down to it and up.
const LIST_OF_B: [&str; 28] = [
    "1000000000000000",
    "1000000000000001",
    "1000000000000040",
    "1000000000000041",
    "1000000000000042",
    "1000000000000043",
    "1000000000010100",
    "1000000000010101",
    "1000000000010140",
    "1000000000010141",
    "1000000000010142",
    "1000000000010143",
    "1000000000020200",
    "1000000000020201",
    "1000000000020240",
    "1000000000020241",
    "1000000000020242",
    "1000000000020243",
    "1000000000030300",
    "1000000000030301",
    "1000000000030340",
    "1000000000030341",
    "1000000000030342",
    "1000000000030343",
    "1000000001010201",
    "1000000001010241",
    "1000000002000300",
    "1000000002000340",
];

/// B, and these lines at its end: its list begins on line 11 and ends on line 38.
fn b_with(list: &[&str]) -> String {
    format!("{B} {}", list.join(" "))
}

/// The list of B with one change.
fn changed(change: impl FnOnce(&mut Vec<&str>)) -> String {
    let mut list = LIST_OF_B.to_vec();
    change(&mut list);
    b_with(&list)
}

#[test]
fn the_list_of_the_worked_file() {
    assert_eq!(of(list, B), format!("{COPY_OF_B} {}", LIST_OF_B.join(" ")));
    let right = b_with(&LIST_OF_B);
    assert_eq!(of(desk, &right), ANSWERS_TO_B);
    assert_eq!(of(copy, &right), COPY_OF_B);
    assert_eq!(of(list, &right), of(list, B));
    assert_eq!(of(list, &of(list, B)), of(list, B));
    // A collection without a mark has a list of none, and no file with a frame 10 is right then.
    assert_eq!(of(list, "010000020100"), "010000020100");
    assert_eq!(of(desk, "010000020100 1000000000000000"), "8F000206");
}

#[test]
fn a_list_that_departs_gives_the_first_line_where_it_does() {
    let departs = |input: &str, line: u16| {
        let expected = format!("8F{line:04X}0F");
        for program in [desk, copy, list] {
            assert_eq!(of(program, input), expected, "{input}");
        }
    };
    departs(&b_with(&LIST_OF_B[..27]), 38);
    departs(&b_with(&LIST_OF_B[..1]), 12);
    departs(&b_with(&LIST_OF_B[1..]), 11);
    departs(&changed(|list| list.push("1000000002000341")), 39);
    departs(&changed(|list| list.push("1000000002000340")), 39);
    departs(&changed(|list| list.insert(0, "1000000000000000")), 12);
    departs(&changed(|list| list[25] = "1000000001010242"), 36);
    departs(&changed(|list| list[25] = "1000000002010241"), 36);
    departs(&changed(|list| list[26] = "1001000002000300"), 37);
    departs(&changed(|list| list.swap(3, 4)), 14);
    departs(&changed(|list| list.swap(0, 27)), 11);
    departs(&changed(|list| list.retain(|line| *line != LIST_OF_B[24])), 35);
    // Nothing of the other lines is written, with an ask or none.
    departs(&b_with(&LIST_OF_B[..27]).replace(" 0B0000 0B0001", ""), 36);
}

#[test]
fn a_departure_comes_after_the_faults_of_lines() {
    let departs = || LIST_OF_B[..26].join(" ");
    assert_eq!(of(desk, &format!("{B} {}", departs())), "8F00250F");
    for (line, number) in [
        ("1000000002000", "09"),
        ("100000000200030a", "09"),
        ("10000000020003", "0A"),
        ("100000000200030000", "0A"),
        ("10", "0A"),
        ("11", "0A"),
        ("0F00", "0A"),
        ("0F", "0B"),
        ("0B0000", "0B"),
        ("0B00FF", "0B"),
        ("020000", "0B"),
        ("0C0001", "0B"),
        ("0D00", "0B"),
        ("01FFFFFFFFFF", "0B"),
        ("1000000002040300", "06"),
        ("1000000002000400", "06"),
        ("1000000002000302", "06"),
        ("1000000002000344", "06"),
        ("10FFFFFFFFFFFFFF", "06"),
    ] {
        assert_eq!(of(desk, &format!("{B} {} {line}", departs())), format!("8F0025{number}"), "{line}");
        // The list would depart on line 11, and the faulty line is a later one.
        assert_eq!(of(desk, &format!("{B} {} {line}", LIST_OF_B[1])), format!("8F000C{number}"), "{line}");
    }
    // Each round that four bytes can hold is read.
    assert_eq!(of(desk, &format!("{B} {} 10FFFFFFFF000300", departs())), "8F00250F");
    // On line 1, and with a list that begins before the collection is whole.
    assert_eq!(of(desk, LIST_OF_B[0]), "8F00010B");
    assert_eq!(of(desk, "10FFFFFFFFFFFFFF"), "8F00010B");
    assert_eq!(of(desk, "1000"), "8F00010A");
    assert_eq!(
        of(desk, &b_with(&LIST_OF_B).replace("0A03 0B0000", "0A03 1000000000000000 0B0000")),
        "8F000A0B"
    );
}

#[test]
fn a_departure_comes_after_contradiction_and_before_the_allowance() {
    let clash = |list: &[&str]| format!("{B} 030141 {}", list.join(" "));
    for typed in [&LIST_OF_B[..], &LIST_OF_B[3..5], &["10FFFFFFFF030343"]] {
        assert_eq!(of(desk, &clash(typed)), "8B0000020000 8B0001020000");
        let copied = COPY_OF_B.replace(" 0600000000", " 030141 0600000000");
        assert_eq!(of(copy, &clash(typed)), copied);
        assert_eq!(of(list, &clash(typed)), copied);
    }
    assert_eq!(of(desk, &clash(&["10FFFFFFFF030344"])), "8F000C06");
    // The list is held against the whole sheet, whatever the allowance.
    let spent = |list: &[&str]| format!("{B} 0C0001 {}", list.join(" "));
    assert_eq!(of(desk, &spent(&LIST_OF_B)), "8A00010002 8B0000030001 8B0001030001");
    assert_eq!(of(desk, &spent(&LIST_OF_B[..26])), "8F00260F");
    assert_eq!(of(list, &spent(&[])), format!("{COPY_OF_B} 0C00000001 {}", LIST_OF_B.join(" ")));
}

/// All of 128 concepts are below name 0, which is tested from each of so many states to each other: in round 1 every mark stands.
/// With one ask, on the last line.
fn every_mark(states: u8) -> String {
    let ends = |from: u8| (0..states).filter(move |to| *to != from).map(move |to| (from, to));
    let rules = (1..128).map(|concept| format!(" 02{concept:02X}00"));
    let tests = (0..states).flat_map(ends).map(|(from, to)| format!(" 09{from:02X}00{to:02X}"));
    let all: String = rules.chain(tests).collect();
    format!("01402001{states:02X}00 060000{all} 0A00 0B0000")
}

fn list_of_every_mark(states: u8) -> Vec<String> {
    let entry = |from: u8, to: u8, concept: u8| {
        format!("10{:08X}{from:02X}{to:02X}{concept:02X}", u8::from(from != to))
    };
    let pairs = (0..states).flat_map(|from| (0..states).map(move |to| (from, to)));
    let (first, rest): (Vec<_>, Vec<_>) = pairs.partition(|(from, to)| from == to);
    let all = first.into_iter().chain(rest);
    all.flat_map(|(from, to)| (0..128).map(move |concept| entry(from, to, concept))).collect()
}

#[test]
fn a_full_list_and_lines_above_65535() {
    let (file, whole) = (every_mark(32), list_of_every_mark(32));
    assert_eq!(whole.len(), 131_072);
    let with = |list: &[String]| format!("{file} {}", list.join(" "));
    assert_eq!(of(desk, &with(&whole)), "8A000000010001F000 8B00000100000001");
    assert!(of(list, &file).ends_with(&whole.join(" ")));
    // 1 line, a fact, 127 rules, 992 tests, a final and an ask: the list begins on line 1,124.
    assert_eq!(file.split(' ').count(), 1_123);
    // Line 65,535 has two bytes, and line 65,536 four, whatever the number.
    assert_eq!(of(desk, &with(&whole[..64_411])), "8FFFFF0F");
    assert_eq!(of(desk, &with(&whole[..64_412])), "8F000100000F");
    let and = |list: &[String], line: &str| with(&[list, &[line.to_string()]].concat());
    for (line, number) in
        [("11", "0A"), ("0F", "0B"), ("100", "09"), ("0B0000", "0B"), ("1000000001202000", "06")]
    {
        assert_eq!(of(desk, &and(&whole[..64_411], line)), format!("8FFFFF{number}"));
        assert_eq!(of(desk, &and(&whole[..64_412], line)), format!("8F00010000{number}"));
    }
    // The last entry on line 132,195, and one more, which comes before a departure and before what is not declared.
    assert_eq!(of(desk, &with(&whole[..131_071])), "8F000204630F");
    assert_eq!(of(desk, &and(&whole[1..], &whole[0])), "8F04640F");
    for more in [&whole[131_071][..], &whole[0], "10FFFFFFFFFFFFFF"] {
        assert_eq!(of(desk, &and(&whole, more)), "8F0002046405");
        let twice = [&whole[..1], &whole[..131_071]].concat();
        assert_eq!(of(desk, &and(&twice, more)), "8F0002046405");
    }
    assert_eq!(of(desk, &and(&whole, "1000000000000")), "8F0002046409");
    assert_eq!(of(desk, &and(&whole, "10000000000000")), "8F000204640A");
    assert_eq!(of(desk, &and(&whole, "0E00")), "8F000204640B");
    assert_eq!(of(desk, &and(&whole[..131_071], "10FFFFFFFFFFFFFF")), "8F0002046306");
}
