//! `c` and `C`: contents of strings and byte strings, over one entry and over any tape.
use super::{utf8, Lines};
use crate::limits::sized;
use crate::line;
use crate::tapes::{PAST_32_BITS, PAST_64_BITS};

/// What may stand between the quotes; each in a string and in a byte string.
const INSIDE: &[&str] = &[
    "", "a", "ab c", "é", "€", "𝄞", "\n", "\r\n", "\0", "'", "#", "//", "/*", "\u{85}", "\u{2028}", r"\n", r"\r",
    r"\t", r"\0", r"\\", r"\'", "\\\"", r"a\nb", r"\\n", "\\\\\\\"", r"\x41", r"\x00", r"\x7F", r"\x80", r"\xFF",
    r"\xC3\xA9", r"\xe2\x82\xac", r"\xF0\x9D\x84\x9E", r"\xC3", r"\xC3a", r"\xC3\n", r"\xC3\x41", r"\xC3\xA9\xA9",
    r"\xC0\x80", r"\xED\xA0\x80", r"\xF4\x90\x80\x80", r"\xFF\xFF\xFF\xFF", r"\xE2\x82", r"\xE2\x82\x41",
    r"\xE2\x82\xAC\x41", r"\x", r"\x4", r"\xg1", r"\x1g", r"\xé", r"\x1é", r"\X41", r"\u{41}", r"\u{e9}", r"\u{20AC}",
    r"\u{1d11e}", r"\u{10FFFF}", r"\u{110000}", r"\u{D7FF}", r"\u{D800}", r"\u{DFFF}", r"\u{E000}", r"\u{0}",
    r"\u{000041}", r"\u{0000041}", r"\u{}", r"\u", r"\u{", r"\u41", r"\u{41", r"\u{41]", r"\u{g}", r"\u{é}", r"\u{4é}",
    r"\u{FFFFFF}", r"\q", r"\é", r"\𝄞", r"\ ", r"\(", "\\\n", "\\\n ", "\\\n \t\r\n a", "a\\\n  b", "\\\r\n",
    "\\\r\n b", "\\\r", "\\\ra", "\\\r\r\n", "\\\n\u{b}", "\\\n\u{c}", "\\\n\u{85}", "\\\n\\\n", "\\\n\\n",
    "a\\\n\n\nb", "\\\t", "é\\né", r"\n\n\n\n\n\n\n\n", r"\xC3\xA9\n",
];

/// As they stand, of either kind.
const WHOLE: &[&str] = &[
    "", "x", "\"", "\"a", "\"\\", "\"\\\"", "\"\\\"\\", "\"\\\"\\x4", "\"\\\"\\xC3", "\"a\\nb\\\"c", "\"\\q", "r",
    "ra", "r\"", "r\"a", "r\"\"", "r\"a\"", "r\"\\\"", "r#", "r#a", "r#\"", "r#\"a", "r#\"a\"", "r#\"a\"#", "r#\"\"#",
    "r#\"\"\"#", "r#\"\"##", "r#\"\\n\"#", "r##\"a\"#", "r##\"a\"#\"##", "r##x", "r###\"\"###", "r# \"a\"#", "R\"a\"",
    "b", "bx", "b\"", "b\"a", "b\"\"", "br", "brx", "br\"", "br\"\"", "br\"a\"", "br#", "br##", "br#\"a\"#",
    "br#\"é\"#", "br#x", "br\"\\\"", "rb\"a\"", "b'a'", "'a'", "b \"a\"", "\"a\"b\"c\"", " \"a\"", "é", "\"\"\"",
    "(\"a\")",
];

const STARTS: &[(u32, u32, &str)] = &[
    (14, 0, "é\"a\""),
    (14, 1, "é\"a\""),
    (14, 2, "é\"a\""),
    (14, 3, "é\"a\""),
    (14, 4, "é\"a\""),
    (14, 5, "é\"a\""),
    (14, 6, "é\"a\""),
    (15, 1, "\"b\"a\""),
    (14, 2, "\"b\"a\""),
    (14, u32::MAX, "\"a\""),
    (14, 65_536, "\"a\""),
    (1, 9, "\"a\""),
    (1, 3, "\"a\""),
];

const NO_CASES: &[&str] = &[
    "c", "c 14 0", "c 14 -", "c 14 0 - -", "c 4294967296 0 2222", "c 14 4294967296 2222", "c 14 0 222", "c 14 0 2222 ",
    "c 14 18446744073709551616 2222", "c x 0 2222",
];

pub fn of_one_entry(lines: &mut Lines) {
    for inside in INSIDE {
        one(lines, 14, 0, format!("\"{inside}\"").as_bytes());
        one(lines, 15, 0, format!("b\"{inside}\"").as_bytes());
    }
    for whole in WHOLE {
        one(lines, 14, 0, whole.as_bytes());
        one(lines, 15, 0, whole.as_bytes());
    }
    for &(kind, start, text) in STARTS {
        one(lines, kind, start, text.as_bytes());
    }
    for kind in (0..=17).chain([30, 270, 271, 65_550, u32::MAX]) {
        one(lines, kind, 0, b"\"a\"");
        one(lines, kind, 9, b"\"a\"");
    }
    for text in utf8::texts("\"", "\"").iter().skip(2).step_by(3) {
        one(lines, 14, 0, text);
    }
    one(lines, 14, 0, &sized("\"", "\\n", "\"", 65_536));
    one(lines, 14, 0, &sized("\"", "a", "\"", 65_537));
    NO_CASES.iter().for_each(|l| lines.plain(l));
}

fn one(lines: &mut Lines, kind: u32, start: u32, text: &[u8]) {
    lines.add(|l| line::contents(l, kind, start, text));
}

const TAPES: &[&[u32]] = &[
    &[],
    &[14],
    &[14, 0],
    &[14, 0, 3],
    &[14, 0, 3, 1],
    &[14, 0, 3, 1, 0],
    &[14, 3, 2, 0, 3],
    &[14, 4, 2, 0, 4],
    &[13, 0, 3, 1, 0],
    &[15, 0, 3, 1, 0],
    &[14, 0, 3, 1, 0, 14],
    &[14, 9, 3, 1, 9, 14, 0, 3, 1],
    &[14, 0, 3, 1, 0, 14, 9, 3, 1, 6],
    &[14, 9, 3, 1, 9, 14, 0, 3, 1, 0],
    &[0, 0, 0, 0, 0, 14, 0, 0, 0, 0, 99, 99, 99, 99, 99],
    &[14, u32::MAX, u32::MAX, u32::MAX, u32::MAX],
    &[u32::MAX, 0, 0, 0, 0],
];

const NO_TAPES: &[&str] = &[
    "C 0 1 9 2222", "C 0 1 9 2222 ", "C 0 1 9 2222 ,", "C 0 1 9 2222 14,0,0,0,", "C 0 1 9 2222 14,,0,0,0",
    "C 0 1 9 2222 14 0 0 0 0", "C 0 1 9 2222 14,0,0,0,4294967296", "C 0 1 9 2222 4294967296,0,0,0,0",
    "C 0 1 9 222 14,0,0,0,0", "C 18446744073709551616 1 9 2222 14,0,0,0,0", "C 0 1 9 2222 14,0,0,0,0 -",
    "C 0 1 9 2222 14,0,0,0,-1", "C 0 1 9 2222 a",
];

pub fn of_any_tape(lines: &mut Lines) {
    for tape in TAPES {
        for entry in [0, 1, 2] {
            for count in [0, 1, 2, 3] {
                any(lines, entry, count, 9, b"\"a\"", tape);
            }
        }
        for huge in [PAST_32_BITS, 1 << 32, PAST_64_BITS, 1 << 63, u64::MAX] {
            any(lines, huge, huge, 9, b"\"a\"", tape);
            any(lines, 0, huge, 9, b"\"a\"", tape);
            any(lines, huge, u64::MAX, 9, b"\"a\"", tape);
        }
    }
    buffers(lines);
    any(lines, 5, 1, 9, b"\xff", &[]);
    any(lines, 5, 1, 9, &sized("", " ", "", 65_537), &[]);
    NO_TAPES.iter().for_each(|l| lines.plain(l));
}

/// Buffers around the decoded length, escaped or not.
fn buffers(lines: &mut Lines) {
    for text in ["\"\"", "\"abc\"", "\"\\n\\n\\n\"", "\"\\xC3\\xA9a\"", "\"\\u{10ffff}\"", "\"\\q\"", "\"\\\n\""] {
        for buffer in 0..=5 {
            any(lines, 0, 1, buffer, text.as_bytes(), &[14, 0, 0, 0, 0]);
            any(lines, 0, 1, buffer, format!("b{text}").as_bytes(), &[15, 0, 0, 0, 0]);
        }
    }
}

fn any(lines: &mut Lines, entry: u64, count: u64, buffer: u64, text: &[u8], tape: &[u32]) {
    lines.add(|l| line::contents_of(l, entry, count, buffer, text, tape));
}
