//! `i`: typed integers at the edges of eight widths, and odd texts.
use super::{utf8, Lines};
use crate::limits::sized;
use crate::line;

/// Widths by their numbers, from 1: the name, the least and the largest value.
pub(super) const WIDTHS: &[(&str, i128, i128)] = &[
    ("i8", i8::MIN as i128, i8::MAX as i128),
    ("i16", i16::MIN as i128, i16::MAX as i128),
    ("i32", i32::MIN as i128, i32::MAX as i128),
    ("i64", i64::MIN as i128, i64::MAX as i128),
    ("u8", 0, u8::MAX as i128),
    ("u16", 0, u16::MAX as i128),
    ("u32", 0, u32::MAX as i128),
    ("u64", 0, u64::MAX as i128),
];

/// Asked in every width.
const EVERY_WIDTH: &[&str] = &[
    "0", "-0", "+0", "7", "-1", "+1", "00000000000000000000000001", "1_0", "1__", "0b'", "b'a'", "0x", "0b", "0o",
    "0x1u8", "5i8", "5u64", "1.5",
];

/// Asked as u8 and as i8.
const ODD: &[&str] = &[
    "", " 5", "a", "_1", "_", "-_1", "+", "-", "+-1", "--1", "5é", "5u8é", "5i8é", "5\u{85}", "5u8\u{85}", "u8", "i8",
    "+u8", "-i8", "0xu8", "0x_u8", "0x_", "0b2", "0b2u8", "0b12", "0b1f32", "0o8", "0o78i8", "0xg", "0X1", "0B1",
    "0O1", "99f", "25f", "25fu8", "256au8", "256a", "300ai8", "300i8", "300ai8é", "256u16", "128i16", "65536u16",
    "1u8x", "1u8_", "1i128", "1u128", "1u9", "1u", "1i", "5i8x", "1u6", "1usize", "1f32", "1e5", "1..2", "1_u8",
    "1__u8", "1_2_", "255_", "25_6", "2_5_5u8", "0xFF", "0xff", "0xfF", "0x100", "0xFu8", "0b1111_1111",
    "0b1_0000_0000", "0o377", "0o400", "-0x80", "-0x81", "-0b1", "-0o200", "0b", "0bu8", "0b_1", "0o_1", "0x_1", "00",
    "00_", "0_0", "-0u8", "-0i8", "-1u8", "-128i8", "-129i8", "128i8", "b''", "b'", "b", "b'a", "b'ab'", "b'\\'",
    "b'\\''", "b'\\\\'", "b'\\n'", "b'\\x4'", "b'\\x41'", "b'\\xFF'", "b'\\xfg'", "b'\\u{41}'", "b'\\u{}'",
    "b'\\u{e9}'", "b'\\q'", "b'é'", "b'a'u8", "b'a'é", "b'''", "b'\"'", "b'\n'", "b'\\\n'", "b'\\", "b'\\x", "b'\\u{",
    "b\"a\"", "-b'a'", "inf", "NaN", "é", "€5", "/5", "\u{85}5", "\0", "18446744073709551616", "99999999999999999999a",
    "99999999999999999999g", "1é", "1u8é8",
];

const PLACES: &[(u64, &str)] = &[
    (0, "é5"),
    (1, "é5"),
    (2, "é5"),
    (3, "é5"),
    (4, "é5"),
    (1, "(12)"),
    (2, "(12)"),
    (3, "(12)"),
    (4, "(12)"),
    (5, "(12)"),
    (65_536, "1"),
    (1 << 32, "1"),
    ((1 << 32) + 1, "12"),
    (u64::MAX, "1"),
];

const NO_CASES: &[&str] = &[
    "i", "i 5", "i 5 0", "i 0 0 -", "i 9 0 -", "i 5 0 - -", "i 5  0 -", "i 5 0 3", "i 5 0 3A", "i 05x 0 -",
    "i u8 0 35", "i 5 18446744073709551616 -", "i 5 mark -", "i 5 -1 35",
];

pub fn lines(lines: &mut Lines) {
    for (number, &(name, least, largest)) in (1..).zip(WIDTHS) {
        for value in [least - 1, least, largest, largest + 1, largest * 10] {
            edge(lines, number, name, value);
        }
        EVERY_WIDTH.iter().for_each(|text| at_start(lines, number, text));
    }
    for text in ODD {
        at_start(lines, 5, text);
        at_start(lines, 1, text);
    }
    for &(place, text) in PLACES {
        lines.add(|l| line::integer(l, 5, place, text.as_bytes()));
    }
    for text in utf8::texts("1", "").iter().step_by(3) {
        lines.add(|l| line::integer(l, 5, 9, text));
    }
    lines.add(|l| line::integer(l, 5, 0, &sized("", "0", "255", 65_536)));
    lines.add(|l| line::integer(l, 5, 0, &sized("", "0", "1", 65_537)));
    NO_CASES.iter().for_each(|l| lines.plain(l));
}

fn at_start(lines: &mut Lines, width: u64, text: &str) {
    lines.add(|l| line::integer(l, width, 0, text.as_bytes()));
}

/// A value in decimal, with its suffix, with another, and in base 16.
fn edge(lines: &mut Lines, width: u64, name: &str, value: i128) {
    let sign = if value < 0 { "-" } else { "" };
    let size = value.unsigned_abs();
    at_start(lines, width, &format!("{value}"));
    at_start(lines, width, &format!("{value}{name}"));
    at_start(lines, width, &format!("{value}i16"));
    at_start(lines, width, &format!("{sign}0x{size:x}{name})"));
}
