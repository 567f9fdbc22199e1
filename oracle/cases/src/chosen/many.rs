//! Many integers in one call (change request 7): each width at its limits, each refusal and reason at its item, what comes before what,
//! lists, buffers and counts of every length, and tapes that no reader gives.
use super::integers::WIDTHS;
use super::Lines;
use crate::limits::sized;
use crate::line;
use crate::many::Many;
use crate::tapes::{PAST_32_BITS, PAST_64_BITS, WIDTH};

pub fn lines(lines: &mut Lines, call: u8) {
    match call {
        b'I' => of_any_tape(lines),
        b'n' => of_text(lines),
        _ => {}
    }
}

const INTEGER: u32 = 11;

/// Texts side by side, each an integer entry of its width, all of them asked for in order into buffers as long as the list.
fn of(entries: &[(&str, u32)]) -> Many {
    let (mut text, mut tape) = (Vec::new(), Vec::new());
    for &(bytes, width) in entries {
        let gap = u32::from(!text.is_empty());
        text.extend_from_slice(if gap == 1 { b" " } else { b"" });
        let start = text.len() as u32;
        text.extend_from_slice(bytes.as_bytes());
        tape.extend_from_slice(&[INTEGER, start, text.len() as u32, width, gap]);
    }
    let count = entries.len() as u64;
    asked(Many { rooms: [0, 0], count, list: Vec::new(), text, tape }, &(0..count as u32).collect::<Vec<u32>>())
}

/// The same with another list, and buffers of its length.
fn asked(many: Many, list: &[u32]) -> Many {
    Many { rooms: [list.len() as u64; 2], list: list.to_vec(), ..many }
}

/// The same with one number of an entry changed: 0 is its kind, 1 its start, 2 its end, 3 its detail, 4 its gap.
fn with(mut many: Many, entry: usize, place: usize, number: u32) -> Many {
    many.tape[WIDTH * entry + place] = number;
    many
}

/// As worked in the requests' reading.
const WORKED: &[(&str, u32)] = &[
    ("-5", 1),
    ("-0", 1),
    ("-0u8", 5),
    ("300", 6),
    ("b'a'", 5),
    ("-9223372036854775808", 4),
    ("1.5", 5),
    ("b'\\x4'", 5),
];

/// Asked in each of the eight widths, and in two that are none.
const EVERY_WIDTH: &[&str] = &["5", "-5", "5u8", "-5i16", "300", "b'a'", "-0", "70000u32"];

/// Forms of one number, as u8.
const FORMS: &[&str] = &[
    "9", "+9", "09", "0000000000000000000000009", "9_", "0_9", "9__", "0x9", "0x0_9", "0b1001", "0b10_01", "0o11",
    "+0x9", "9u8", "+9u8", "0x9u8", "0b1001u8", "0o1_1_u8", "9u8x", "9u9", "9u", "9i128", "9é", "9u8é", "9.5", "9..2",
    "9)", "9\u{85}", "9/**/", "b'\\t'", "b'\\x09'", "b'9'", "b'''", "b'\\''", "b'\\\\'", "b'\"'", "b'\n'", "b'\0'",
    "b'9'u8", "b'9'é", "b'\\xfF'", "b'\\x80'",
];

/// What is not read as u8.
const REFUSED: &[&str] = &[
    "", "+", "-", " 9", "\n9", "/**/9", "(9)", "'9'", "\"9\"", "x", "é", "u8", "+u8", "i8", "--9", "+-9", "0x", "0xu8",
    "0b", "_9", "-_9", "_", "0x_9", "0x_u8", "a", "9a", "9f", "25f", "0b2", "0b19", "0o8", "0b2u8", "256", "256u8",
    "99f", "-1", "-1u8", "0x100", "0b1_0000_0000", "0o400", "18446744073709551616", "128i8", "9i8", "9u16", "9i64",
    "0x9u64", "65536u16", "b", "b'", "b''", "b'a", "b'ab'", "b'é'", "b'\\", "b'\\'", "b\"9\"", "-b'9'", "b'\\x",
    "b'\\x4'", "b'\\xg1'", "b'\\x1g'", "b'\\q'", "b'\\é'", "b'\\u", "b'\\u41'", "b'\\u{", "b'\\u{}'", "b'\\u{41'",
    "b'\\u{g}'", "b'\\u{1234567}'", "b'\\u{D800}'", "b'\\u{110000}'", "b'\\u{41}'", "b'\\u{e9}'",
];

/// Details that are no width: next to the widths, codes, and widths that a byte or two more would hide.
const NO_WIDTHS: &[u32] = &[0, 9, 10, 15, 16, 17, 20, 21, 24, 32, 64, 255, 256, 257, 261, 65_541, 1 << 31, u32::MAX];

/// Kinds that are not 11.
const NO_INTEGERS: &[u32] =
    &[0, 1, 2, 3, 4, 5, 6, 7, 8, 9, 10, 12, 13, 14, 15, 16, 17, 27, 267, 65_547, u32::MAX - 10, u32::MAX];

fn of_any_tape(lines: &mut Lines) {
    let mut ask = |many: Many| lines.add(|l| line::integers_of(l, &many));
    for one in WORKED {
        ask(of(&[*one]));
    }
    ask(of(WORKED));
    ask(of(&WORKED[..7]));
    widths(&mut ask);
    items(&mut ask);
    orders(&mut ask);
    counts(&mut ask);
    rooms(&mut ask);
    starts(&mut ask);
    lists(&mut ask);
    unasked(&mut ask);
    texts(&mut ask);
    long(&mut ask);
    NO_CASES.iter().for_each(|l| lines.plain(l));
}

/// Each width at its limits and past them, with a suffix and without; then all that is read in one call.
fn widths(ask: &mut impl FnMut(Many)) {
    let mut all = Vec::new();
    for (width, &(name, least, largest)) in (1..).zip(WIDTHS) {
        for value in [least - 1, least, -largest, largest, largest + 1] {
            ask(of(&[(&value.to_string(), width)]));
            ask(of(&[(&format!("{value}{name}"), width)]));
        }
        ask(of(&[(&format!("0x{largest:x}"), width)]));
        ask(of(&[(&format!("-0x{:X}{name}", least.unsigned_abs()), width)]));
        ask(of(&[(&format!("-0{name}"), width), ("-0", width), ("0", width), ("-00", width)]));
        all.extend([(least.to_string(), width), (largest.to_string(), width), (format!("1{name}"), width)]);
    }
    let all: Vec<(&str, u32)> = all.iter().map(|(text, width)| (text.as_str(), *width)).collect();
    ask(of(&all));
    let many = of(&all);
    let turned: Vec<u32> = many.list.iter().rev().copied().collect();
    ask(asked(many, &turned));
    for text in EVERY_WIDTH {
        (0..=9).for_each(|width| ask(of(&[(text, width)])));
    }
}

/// What is read and what is not: alone; and as the item 2, of the entry 1, with a good one before it twice.
fn items(ask: &mut impl FnMut(Many)) {
    FORMS.iter().for_each(|text| ask(of(&[(text, 5)])));
    ask(of(&FORMS.iter().map(|text| (*text, 5)).collect::<Vec<_>>()));
    for text in REFUSED {
        ask(of(&[(text, 5)]));
        ask(asked(of(&[("-77", 1), (text, 5), ("8", 5)]), &[0, 2, 1, 2]));
    }
    for &width in NO_WIDTHS {
        ask(of(&[("7", width)]));
        ask(asked(of(&[("-77", 1), ("7", width), ("8", 5)]), &[0, 2, 1, 2]));
    }
    for &kind in NO_INTEGERS {
        ask(with(of(&[("7", 5)]), 0, 0, kind));
        ask(asked(with(of(&[("-77", 1), ("7", 5), ("8", 5)]), 1, 0, kind), &[0, 2, 1, 2]));
    }
}

/// A good entry, then one for each cause: kind, width, start past the end, suffix, 7, 8, 9, 10, 13, 15. The item 99 is no entry.
fn causes() -> Many {
    let entries = [
        ("-1", 1),
        ("7", 5),
        ("7", 9),
        ("7", 5),
        ("7u8", 6),
        ("+", 5),
        ("_1", 5),
        ("2f", 5),
        ("256", 5),
        ("b'\\q'", 5),
        ("b''", 5),
    ];
    with(with(of(&entries), 1, 0, 9), 3, 1, 4_000)
}

/// Of two items that are refused the first is told, into buffers long enough and of none; at one entry 28 comes before 27, and 27 before reading.
fn orders(ask: &mut impl FnMut(Many)) {
    let refused = [1, 2, 3, 4, 5, 6, 7, 8, 9, 10, 99];
    for (n, &first) in refused.iter().enumerate() {
        ask(Many { rooms: [0, 0], ..asked(causes(), &[first]) });
        for second in
            [refused[(n + 1) % refused.len()], refused[(n + 3) % refused.len()], refused[(n + 7) % refused.len()]]
        {
            ask(asked(causes(), &[0, first, second]));
            ask(Many { rooms: [0, 2], ..asked(causes(), &[0, 0, first, 0, second]) });
        }
        // the item behind those that the buffers have room for
        ask(Many { rooms: [2, 2], ..asked(causes(), &[0, 0, first]) });
        ask(Many { rooms: [9, 0], ..asked(causes(), &[0, first]) });
        ask(Many { rooms: [0, 9], ..asked(causes(), &[0, first]) });
        // 23 before each
        ask(Many { count: 12, ..asked(causes(), &[0, first]) });
    }
    let seven = || of(&[("7u8", 5)]);
    ask(with(with(seven(), 0, 1, 9), 0, 0, 9));
    ask(with(with(seven(), 0, 1, 9), 0, 3, 0));
    ask(with(with(seven(), 0, 1, 4), 0, 3, 9));
    ask(with(with(seven(), 0, 0, 12), 0, 3, 9));
    ask(with(with(seven(), 0, 1, 3), 0, 0, 9));
    ask(with(with(seven(), 0, 1, 3), 0, 3, 9));
    ask(with(seven(), 0, 1, 3));
    ask(with(of(&[("b'\\q'", 9)]), 0, 2, 0));
    ask(with(of(&[("b'\\q'", 1)]), 0, 2, 0));
    ask(with(of(&[("256u8", 6)]), 0, 2, 0));
    ask(Many { count: 0, ..seven() });
    ask(Many { count: 0, ..with(seven(), 0, 0, 9) });
}

/// Counts below, at and above the room of tapes of every length; lists that ask for nothing, for the first entry, for one that is none.
fn counts(ask: &mut impl FnMut(Many)) {
    let two = || of(&[("7", 5), ("-8", 1)]);
    for numbers in [0, 1, 4, 5, 6, 9, 10, 11] {
        let tape: Vec<u32> = two().tape.iter().copied().chain([99]).take(numbers).collect();
        for count in 0..=3 {
            ask(Many { count, tape: tape.clone(), ..asked(two(), &[]) });
            ask(Many { count, tape: tape.clone(), ..asked(two(), &[0]) });
            ask(Many { count, tape: tape.clone(), ..asked(two(), &[1, 0]) });
        }
    }
    for count in [256, 65_536, PAST_32_BITS, 1 << 32, (1 << 32) + 1, PAST_64_BITS, PAST_64_BITS + 1, 1 << 63, u64::MAX]
    {
        ask(Many { count, ..asked(two(), &[]) });
        ask(Many { count, ..two() });
        ask(Many { count, rooms: [0, 0], ..asked(two(), &[4, 0]) });
    }
    for entry in [2, 3, 255, 256, 257, 65_536, PAST_32_BITS as u32, 1 << 31, u32::MAX - 1, u32::MAX] {
        ask(asked(two(), &[entry]));
        ask(asked(two(), &[1, 1, 0, entry, 0]));
    }
}

/// Each buffer one too short, as long and one longer, by itself; none and the longest.
fn rooms(ask: &mut impl FnMut(Many)) {
    let two = || of(&[("7", 5), ("-8", 1)]);
    for list in [&[][..], &[1], &[1, 0], &[0, 0, 1], &[1, 0, 1, 0, 1, 1, 1]] {
        let length = list.len() as u64;
        let near = [0, length.saturating_sub(1), length, length + 1, u64::MAX];
        for first in near {
            near.iter().for_each(|&second| ask(Many { rooms: [first, second], ..asked(two(), list) }));
        }
    }
    for room in [1, 255, 256, 65_535, 65_536, (1 << 32) - 1, 1 << 32, (1 << 32) + 1, 1 << 63] {
        ask(Many { rooms: [room, 2], ..two() });
        ask(Many { rooms: [2, room], ..two() });
    }
}

/// Each start in a text with characters of one to four bytes, and past its end.
fn starts(ask: &mut impl FnMut(Many)) {
    let text = "1é2€3𝄞45";
    for start in (0..=text.len() as u32 + 2).chain([65_535, 65_536, 65_537, 1 << 31, u32::MAX]) {
        ask(Many { text: text.into(), ..asked(with(of(&[("1", 5), ("2", 5)]), 1, 1, start), &[0, 0, 1]) });
    }
}

/// In order, turned round, mixed, again and again.
const LISTS: &[&[u32]] = &[
    &[0, 1, 2],
    &[0, 2, 1],
    &[1, 0, 2],
    &[1, 2, 0],
    &[2, 0, 1],
    &[2, 1, 0],
    &[0, 0, 0],
    &[1, 1, 1, 1],
    &[0, 1, 0, 1],
    &[2, 2, 1, 1, 0, 0],
    &[1],
    &[2, 0],
    &[0, 1, 2, 2, 1, 0],
    &[3, 0],
    &[0, 3],
    &[0, 1, 2, 3],
    &[3, 2, 1, 0],
    &[4, 3],
    &[3, 4],
    &[0, 0, 0, 0, 0, 4],
    &[2, 1, 0, 2, 3, 4],
];

fn lists(ask: &mut impl FnMut(Many)) {
    LISTS.iter().for_each(|list| ask(asked(of(&[("7", 5), ("-300", 2), ("b'a'", 5), ("b'\\u{}'", 5)]), list)));
    // a width is its own entry's, not that of the one before in the list or on the tape
    let mixed = || of(&[("5", 1), ("5", 8), ("-5", 4), ("200", 5), ("-200", 2), ("70000", 3)]);
    ask(mixed());
    ask(asked(mixed(), &[5, 4, 3, 2, 1, 0]));
    ask(asked(mixed(), &[0, 3, 0, 4, 0, 5, 1]));
    // every entry below the number of the item it is, and above it
    ask(asked(mixed(), &[1, 2, 3, 4, 5]));
    ask(asked(mixed(), &[0, 0, 1, 2, 3, 4]));
}

/// An entry's end and gap, the tape's order, entries that no item asks for: nothing of that is judged.
fn unasked(ask: &mut impl FnMut(Many)) {
    let three = || of(&[("7", 5), ("-8", 1), ("900", 6)]);
    for number in [0, 1, 5, 65_537, u32::MAX] {
        for entry in 0..3 {
            ask(with(three(), entry, 2, number));
            ask(with(three(), entry, 4, number));
        }
    }
    for place in 0..WIDTH {
        ask(asked(with(three(), 1, place, u32::MAX), &[0, 2]));
        ask(Many { count: 2, ..asked(with(three(), 2, place, u32::MAX), &[0, 1]) });
    }
    ask(with(with(with(three(), 0, 1, 5), 1, 1, 2), 2, 1, 0));
    ask(with(with(with(three(), 0, 1, 2), 1, 1, 2), 2, 1, 2));
    // inside another entry: its digits further on, and behind a sign or a base
    ask(with(with(of(&[("0x12", 5), ("-34", 5)]), 0, 1, 2), 1, 1, 6));
    ask(with(of(&[("\"12\"", 5), ("//3", 5)]), 0, 1, 1));
    ask(with(of(&[("1e5", 5), ("1.25", 5)]), 1, 1, 6));
    // numbers behind the last entry
    let mut longer = three();
    longer.tape.extend([INTEGER, 0, 1, 5]);
    ask(longer);
}

/// 1 and 2, before all else; the largest text, with integers at its ends.
fn texts(ask: &mut impl FnMut(Many)) {
    let one = || of(&[("7", 5)]);
    for (text, count, list) in [
        (&b"\xff"[..], 1, &[0][..]),
        (b"7\xc3", 1, &[0]),
        (b"7 \xe2\x82 8", 1, &[0]),
        (b"7\xed\xa0\x80", 2, &[0]),
        (b"\x80", 9, &[]),
        (b"77\xc0\x80", 0, &[0]),
        (b"777\xf5", 1, &[5]),
    ] {
        ask(Many { text: text.to_vec(), count, ..asked(one(), list) });
        ask(Many { text: text.to_vec(), count, rooms: [0, 0], ..with(asked(one(), list), 0, 0, 3) });
    }
    let largest = || sized("7", " ", "-5", 65_536);
    for start in [65_534, 65_536, 65_537] {
        ask(Many { text: largest(), ..asked(with(of(&[("7", 5), ("-5", 1)]), 1, 1, start), &[0, 1]) });
    }
    ask(Many { text: sized("", "0", "255", 65_536), ..one() });
    ask(Many { text: sized("", "é", "7", 65_537), ..one() });
    ask(Many { text: sized("7", " ", "", 65_537), count: 9, rooms: [0, 0], ..asked(one(), &[]) });
    ask(Many { text: [sized("7", " ", "", 65_537), vec![0xff]].concat(), ..one() });
    ask(Many { text: [sized("7", " ", "", 65_535), vec![0xff]].concat(), ..one() });
}

/// Some 4,000 node numbers in one call, the last of them refused, buffers one too short; and the longest list.
fn long(ask: &mut impl FnMut(Many)) {
    let numbers: Vec<String> = (0..800).map(|n: i32| (n * n * 7 - 70_000).to_string()).collect();
    let width = |number: &String| match (number.starts_with('-'), number.trim_start_matches('-').parse().unwrap_or(0)) {
        (true, 0..=128) => 1,
        (true, 129..=32_768) => 2,
        (true, _) => 3,
        (false, 0..=255) => 5,
        (false, 256..=65_535) => 6,
        (false, _) => 7,
    };
    let entries: Vec<(&str, u32)> = numbers.iter().map(|number| (number.as_str(), width(number))).collect();
    let many = || of(&entries);
    let list: Vec<u32> = (0..4_000).map(|item| item * 37 % 800).collect();
    ask(many());
    ask(asked(many(), &list));
    ask(Many { rooms: [4_000, 3_999], ..asked(many(), &list) });
    ask(asked(many(), &[&list[..], &[800]].concat()));
    ask(asked(with(many(), 799, 3, 5), &list));
    ask(asked(of(&[("7", 5), ("256", 5)]), &[&[0; 300][..], &[1]].concat()));
    let longest = || asked(of(&[("7", 5), ("256", 5)]), &[&[0; 65_535][..], &[1]].concat());
    ask(longest());
    ask(Many { rooms: [65_536, 65_535], ..with(longest(), 1, 3, 6) });
    ask(asked(of(&[("7", 5)]), &[0; 65_537]));
}

const NO_CASES: &[&str] = &[
    "I", "I ", "I 1", "I 1 1", "I 1 1 1", "I 1 1 1 0", "I 1 1 1 0 37", "I 1 1 1 0 37 ", "I 1 1 1 0 37 11,0,1,5,0 ",
    "I 1 1 1 0 37 11,0,1,5,0 0", "I 1 1 0 37 11,0,1,5,0", "I 1 1 1 37 11,0,1,5,0", "I 1 1 1 0 11,0,1,5,0 37",
    "I 1 1 1 37 0 11,0,1,5,0", "I  1 1 1 0 37 11,0,1,5,0", "I 1 1 1 0  37 11,0,1,5,0", "I 1 1 1  37 11,0,1,5,0",
    "I 1 1 1 0, 37 11,0,1,5,0", "I 1 1 1 ,0 37 11,0,1,5,0", "I 1 1 1 , 37 11,0,1,5,0", "I 1 1 1 0,,0 37 11,0,1,5,0",
    "I 1 1 1 -,0 37 11,0,1,5,0", "I 1 1 1 -- 37 11,0,1,5,0", "I 1 1 1 -1 37 11,0,1,5,0", "I 1 1 1 0;0 37 11,0,1,5,0",
    "I 1 1 1 a 37 11,0,1,5,0", "I 1 1 1 0x0 37 11,0,1,5,0", "I 1 1 1 4294967296 37 11,0,1,5,0",
    "I 1 1 1 0,4294967296 37 11,0,1,5,0", "I 1 1 1 18446744073709551616 37 11,0,1,5,0", "I 1 1 1 0 3 11,0,1,5,0",
    "I 1 1 1 0 3A 11,0,1,5,0", "I 1 1 1 0 zz 11,0,1,5,0", "I 1 1 1 0 37 11,0,1,5,", "I 1 1 1 0 37 11,0,,5,0",
    "I 1 1 1 0 37 11,0,1,5,4294967296", "I 1 1 1 0 37 11 0 1 5 0", "I 18446744073709551616 1 1 0 37 11,0,1,5,0",
    "I 1 18446744073709551616 1 0 37 11,0,1,5,0", "I 1 1 18446744073709551616 0 37 11,0,1,5,0",
    "I - 1 1 0 37 11,0,1,5,0", "I 1 1 - 0 37 11,0,1,5,0", "I mark 1 1 0 37 11,0,1,5,0", "II 1 1 1 0 37 11,0,1,5,0",
    "I 001 0001 01 00,000 37 11,00,1,05,0", "I 1 1 1 0 37 11,0,1,5,0,", "I 0 0 0 - - -", "I 0 0 0 - - ",
];

/// Texts for `n`: what is an integer among all that a text may have, in the order in which it stands.
const READ: &[&str] = &[
    "7",
    "-5",
    "-0",
    "+0",
    "-0u8",
    "-0i64",
    "300",
    "b'a'",
    "-9223372036854775808",
    "9223372036854775807",
    "9223372036854775808",
    "18446744073709551615",
    "18446744073709551616",
    "-9223372036854775809",
    "1.5",
    "1",
    " 1 ",
    "1 2",
    "2 1",
    "2 2 2",
    "[1,2,3]",
    "(1,-2,3)",
    "{1:-1,2:-2}",
    "Lock(id: 7)",
    "(a:1,a:2)",
    "[1,2",
    ")1(",
    "1,,2",
    "1 a 2",
    "a",
    "a1",
    "a 1",
    "r#1",
    "r#a 1",
    "\"1\"",
    "\"1\" 1",
    "'1' 1",
    "b\"1\" 1",
    "r\"1\" 1",
    "r#\"1\"# 1",
    "1.5 2",
    "2 1.5",
    "1e5 1",
    ".5 1",
    "5. 1",
    "inf 1",
    "-inf 1",
    "NaN 1",
    "1f32 1",
    "300a 1",
    "256a",
    "1 /*2*/ 3",
    "1//2\n3",
    "1//2",
    "/**/1",
    "\u{85}1\u{2028}2",
    "#![enable(implicit_some)] 1",
    "#![type=\"1\"]1",
    "0 255 256 65535 65536 4294967295 4294967296",
    "-1 -128 -129 -32768 -32769 -2147483648 -2147483649",
    "1i8 1i16 1i32 1i64 1u8 1u16 1u32 1u64",
    "-1i8 -1i16 -1i32 -1i64",
    "127i8 -128i8 32767i16 -32768i16",
    "2147483647i32 -2147483648i32 9223372036854775807i64 -9223372036854775808i64",
    "255u8 65535u16 4294967295u32",
    "0x0 0xff 0x100 0xFFFF 0xffff_ffff 0xFFFFFFFFFFFFFFFF",
    "-0x80 -0x81 -0x8000 -0x8000000000000000",
    "0b1 0o7 0b11111111 0o400",
    "1_000 1_ 1__0 0x1_ 0b1_0u16",
    "007 000 -007",
    "+7 +0x7 +7u16",
    "b'a' b'\\n' b'\\x41' b'\\xff' b'\\'' b'\\\\' b'\\0'",
    "b'''",
    "b'a'b'b'b'c'",
    "b'a'1",
    "1u8é 2",
    "256u8é",
    "1i128",
    "1u9",
    "1u8x",
    "1u",
    "5u8,6u8",
    "7)8(9",
    "1:2",
    "(-1)",
    "[-1,+1]",
    "\"a\"-1",
    "'a'+1",
    "1\u{301}",
    "ŵ1 1ŵ",
    "0X1",
    "0B1",
];

/// Texts that are not read: the read's refusal, whatever stands before it.
const UNREAD: &[&str] = &[
    "1 @", "1 /", "1 /*", "1 /*/**/", "@ 1", "1 \"", "1 \"\\q\"", "1 '", "1 ''", "1 'ab'", "1 b'", "1 b''", "1 b'ab'",
    "1 b'é'", "1 b'\\x4'", "1 b'\\q'", "1 b'\\u41'", "1 b'\\u{}'", "1 b'\\u{1234567}'", "1 b'\\u{D800}'",
    "1 b'\\u{41}'", "1 '\\xC3'", "1 \"\\xC3\"", "1 b\"", "1 br#", "1 r#", "1 0x", "1 +", "1 -", "1 _1", "1 -_1",
    "1 0x_", "1 0b2", "1 0b2u8", "1 256u8", "1 -1u8", "1 300ai8", "1 1_.5", "1 1.5.5", "1 1e", "1 .", "1 #", "1 #![",
    "1 #![x]", "1 #![enable(x)]", "1 99999999999999999999a", "1 99999999999999999999u64", "1 -129i8 2", "1 128i8 \"",
];

fn of_text(lines: &mut Lines) {
    let mut list = |text: &[u8]| lines.add(|l| line::integers(l, text));
    list(b"");
    READ.iter().chain(UNREAD).for_each(|text| list(text.as_bytes()));
    // every text but those that are not read, one behind the other
    list(READ.join(" ").as_bytes());
    for bad in [
        &b"\xff"[..],
        b"1 \xff",
        b"1\xc3",
        b"\xc3\xa91 \xe2\x82",
        b"1 \xed\xa0\x80 2",
        b"1 /*\xf8*/",
        b"\"\xc0\x80\" 1",
    ] {
        list(bad);
    }
    let nodes: Vec<String> = (0..4_000).map(|n| (n * 7_919 % 65_521).to_string()).collect();
    list(format!("({})", nodes.join(",")).as_bytes());
    list(format!("({},", nodes.join(",")).as_bytes());
    list(format!("({},\"", nodes.join(",")).as_bytes());
    list(&sized("1", " ", "-1", 65_536));
    list(&sized("", "0", "255", 65_536));
    list(&sized("", "1,", "", 65_536));
    list(&sized("1", " ", "", 65_537));
    for line in [
        "n", "n ", "n  37", "n 37 ", "n 37 37", "n 3", "n 4A", "n zz", "n --", "n 0x37", "n 7", "nn 37", " n 37",
        "N 37",
    ] {
        lines.plain(line);
    }
}
