//! `r` and `R`: texts into tapes.
use super::{utf8, Lines};
use crate::limits::sized;
use crate::line;

const MARKS_AND_NAMES: &[&str] = &[
    "", " ", "(", ")", "[", "]", "{", "}", ",", ":", "()[]{},:", "( ) [ ]", "a", "Z", "_", "_a", "a1", "a_", "__",
    "a b", "a(b)", "a,b", "true", "Some(1)", "None", "r", "b", "br", "rb", "r a", "b a", "ra", "ba", "bra", "r1", "b1",
    "br1", "r#a", "r#a b", "r#1", "r#.", "r#+", "r#-", "r#a.b-c+d", "r#a,b", "r#_", "r#", "r# a", "r#(", "r##", "r##a",
    "r#\"", "r#r#a", "a#", "a\"b\"", "a'b'", "a.b", "a-b", "a-g", "a-1", "a+1", "a/b", "a//b", "a/**/b", "@", "a@",
    "*", ";", "=", "!", "$", "%", "&", "<", ">", "?", "^", "`", "|", "~", "\\", "\0", "\u{7f}", "a\0", "é", "aé", "_é",
    "r#é", "r#aé", "r#a.é", "bé", "ré", "bré", "€", "𝄞", "a\u{85}b", "a\u{2028}b", "\u{200e}a\u{200f}", "a\u{a0}",
    "\u{feff}a", "i8", "u8", "f32", "e5", "x1", "Lock(id: 7)", "[7, 8, 9]", "{a: 1, \"b\": [2]}", "A(B(C(D())))",
    "(a:1,b:2,)",
];

const NUMBERS: &[&str] = &[
    "0", "1", "9", "00", "007", "127", "128", "255", "256", "65535", "65536", "4294967295", "4294967296",
    "9223372036854775807", "9223372036854775808", "18446744073709551615", "18446744073709551616", "-0", "-1", "-128",
    "-129", "-32768", "-32769", "-2147483648", "-2147483649", "-9223372036854775808", "-9223372036854775809", "+1",
    "+0", "+", "-", "+-", "--1", "+-1", "- 1", "1_0", "1__0", "1_", "_1", "-_1", "0_", "0x", "0xF", "0xf", "0xfF_f",
    "0x_f", "0xg", "0X1", "0b1", "0b2", "0b_1", "0b", "0b12", "0B1", "0o7", "0o8", "0o", "0O7", "-0x80", "+0b1",
    "0x1ffffffffffffffff", "0xffffffffffffffff", "-0x8000000000000000", "-0x8000000000000001", "1u8", "1i8", "1u16",
    "1i16", "1u32", "1i32", "1u64", "1i64", "255u8", "256u8", "128i8", "-128i8", "-129i8", "-1u8", "-0u8", "0xFFu8",
    "0x1FFu8", "1u8x", "1u8_", "1u9", "1u", "1i128", "1u128", "1usize", "1u8 ", "1u8,", "1u8é", "1é", "256u8é",
    "300ai8é", "0xu8é", "0x_u8é", "0b2u8é", "1u8\u{85}", "0xu8", "+u8", "-i8", "0x_u8", "0b2u8", "256au8", "25au8",
    "30au16", "300ai8", "99999999999999999999a", "1.", ".5", "1.5", "-1.5", "+1.5", "-.5", "+.5", "1.5.5", ".", "-.",
    "+.", "..", "1..", "1..2", "1.5..2", "-..", "1e..", "1e5", "1E5", "1e+5", "1e-5", "1e", "1e+", "1e5e5", "1.5e",
    "1e5.", "1e.5", "1ef32", "-e5", "e5", "1.e5", ".e5", "1e400", "1e-400", "1-2", "5-a", "1+2", "0xe+1", "0x1.5",
    "0b1.5", "1u8-1", "inf-1", "1_.5", "1.5_", "1e_5", "1e+_5", "1.e_5", "1._5", "+_1.5", "-_.5", "_.5", "1.5e_",
    "12_f32", "1.f32", "1.5f32", "1.5f64", "1f32", "1f64", "-1f32", "1f3", "1f", "1f32x", "1.5f16", "1.5f", "1.5f32x",
    "1.5f32_", "0x1f32", "0b1f32", ".f32", "-.f32", "1e5f32", "1e5f64", "1.5f32é", ".f32é", "1f32é", "1.5fé", "1.5é",
    "1a", "25f", "1d", "1e5u8", "300a", "1g", "1x", "inf", "NaN", "inff32", "inff64", "NaNf32", "NaNf64", "+inf",
    "-inf", "+NaN", "-NaN", "-inff32", "+NaNf64", "inf_", "infx", "inf1", "infinity", "-infx", "-infinity", "-NaNf32x",
    "NaNf32x", "inff16", "Inf", "nan", "NAN", "infé", "-infé", "+NaNf32é", "inff32é", "inf inf", "inf,", "inf(1)",
    "0xé", "+é", ".é", "-\u{85}1",
];

const QUOTED: &[&str] = &[
    "\"\"", "\"a\"", "\"a\"\"b\"", "\"é€𝄞\"", "\"\n\"", "\"//\"", "\"/*\"", "\"\\n\"", "\"\\\"\"", "\"\\\\\"",
    "\"\\\n a\"", "\"\\x41\"", "\"\\xC3\\xA9\"", "\"\\u{10FFFF}\"", "\"\\q\"", "\"\\q", "\"", "\"a", "\"\\", "\"\\\"",
    "\"a\\nb\\\"c", "\"\\\"\\", "\"\\\"\\x4", "\"\\\"\\xC3", "\"\\é\"", "\"\\x4\"", "\"\\u{é}\"", "\"\\u{1\"",
    "\"\\u41\"", "\"\\u{}\"", "\"\\u{0000041}\"", "\"\\u{D800}\"", "\"\\xC3\"", "\"\\xC3\\x41\"",
    "\"\\xFF\\xFF\\xFF\\xFF\"", "\"\\\r\"", "r\"\"", "r\"a\"", "r\"\\\"", "r\"", "r\"a", "r#\"a\"#", "r#\"\"\"#",
    "r#\"a\"", "r##\"a\"#", "r##\"a\"##", "r#\"a\"##", "r##x", "r##é", "b\"\"", "b\"a\"", "b\"é\"", "b\"\\xFF\"",
    "b\"\\u{e9}\"", "b\"\\q\"", "b\"", "b\"a", "b \"a\"", "br\"\"", "br\"a\"", "br\"", "br#\"a\"#", "br#\"é\"#", "br#",
    "br##", "br##\"\"#", "br#x", "br#é", "br\"\\\"", "''", "'", "'a'", "'a", "'é'", "'𝄞'", "'é", "'''", "'\\''",
    "'\\'", "'\\\\'", "'\"'", "'\\\"'", "'\\n'", "'\\0'", "'\\x41'", "'\\x7F'", "'\\x80'", "'\\xC3'", "'\\xC3\\xA9'",
    "'\\u{e9}'", "'\\u{10ffff}'", "'\\u{d7ff}'", "'\\u{d800}'", "'\\u{", "'\\u{}'", "'\\u{110000}'", "'\\q'", "'\\\n'",
    "'ab'", "'\n'", "' '", "'a''b'", "b''", "b'", "b'a'", "b'a", "b'\\''", "b'\\'", "b'\\xFF'", "b'\\x4'",
    "b'\\u{41}'", "b'\\u{}'", "b'é'", "b'ab'", "b'''", "b'\"'", "b'a'u8", "b'a'b", "b'\\q'",
];

const COMMENTS: &[&str] = &[
    "//", "// a", "//a\nb", "a//b", "a//b\nc", "/**/", "/*a*/b", "a/*b", "/*/*/", "/*/", "/", "/a", "/é", "a/", "*/",
    "a*/", "1/2", "1//2", "1/**/2", "\"a\"/**/\"b\"", "(/*(*/)", "-/**/1", "1./**/5", "r/**/#a", "b/**/\"a\"",
    "a\n\n/x", "[1,/*2,*/3]", "[1,//2,\n3]", "/*\"*/\"", "'/*'",
    "\t\r\n\u{b}\u{c}\u{85}\u{200e}\u{200f}\u{2028}\u{2029}a",
];

const ATTRIBUTES: &[&str] = &[
    "#", "#!", "#![", "#[", "#a", "#é", "#/", "#/x", "#[/x", "# ! [ enable ( implicit_some ) ]", "#![]", "#![a]",
    "#![é]", "#![enable]", "#![enable", "#![enable(", "#![enable()]", "#![enable(,)]", "#![enable(5)]",
    "#![enable(r#)]", "#![enable(implicit_some)]", "#![enable(unwrap_newtypes)]",
    "#![enable(unwrap_variant_newtypes)]", "#![enable(explicit_struct_names)]",
    "#![enable(unwrap_newtypes,implicit_some)]", "#![enable(implicit_some,)]", "#![enable(implicit_some,,)]",
    "#![enable(,implicit_some)]", "#![enable(implicit_some unwrap_newtypes)]", "#![enable(implicit_some 5)]",
    "#![enable(implicit_some,5)]", "#![enable(implicit_some,.)]", "#![enable(implicit_some.)]",
    "#![enable(implicit_some", "#![enable(implicit_some,", "#![enable(implicit_some)", "#![enable(implicit_some]",
    "#![enable(implicit_some]/x", "#![enable(implicit_some)]/x", "#![enable(implicit_some)]/",
    "#![enable(implicit_some)]/*", "#![enable(implicit_some)]//a", "#![enable(implicit_some)] a",
    "#![enable(implicit_some)]a", "#![enable(implicit_some))]", "#![enable(implicit_some,implicit_some)]",
    "#![enable(r#implicit_some)]", "#![enable(r#implicit_some.)]", "#![enable(Implicit_Some)]",
    "#![enable(IMPLICIT_SOME)]", "#![enable(implicit_somee)]", "#![enable(nope)]", "#![enable(b'a')]",
    "#![enable(r\"a\")]", "#![enable(\"implicit_some\")]", "#![enable(_)]", "#![enable(-)]",
    "#![enable/*a*/(/*b*/implicit_some/*c*/,/*d*/)/*e*/]/*f*/", "#![enable//a\n(implicit_some)]",
    "#![enables(implicit_some)]", "#![enable_(implicit_some)]", "#![enable=\"a\"]", "#![enableé]", "#![enable(é)]",
    "#![enable(nopé)]", "#![enable(implicit_some é)]", "#![enable(implicit_some,é)]", "#![enable(implicit_some.é)]",
    "#![enable(5é)]", "#![enable é]", "#![enable(implicit_some)é]", "#![enable(implicit_some)]é",
    "#![/*é*/enable(/*é*/implicit_someé)]", "#![type=\"a\"]", "#![type = \"a\"]", "#![schema=\"a\"]",
    "#![schema=r#\"a\"#]", "#![type=\"\\n\"]", "#![type=\"\\q\"]", "#![type=\"a]", "#![type=a]", "#![type = a]",
    "#![type = rx]", "#![type=]", "#![type=", "#![type", "#![type]", "#![type(a)]", "#![type=\"a\"", "#![type=\"a\")",
    "#![type=\"a\"]a", "#![type=\"a\"]/x", "#![type=b\"a\"]", "#![type='a']", "#![type=é]", "#![type=\"é\"]",
    "#![types=\"a\"]", "#![typé=\"a\"]", "#![schema /*,*/ = /*]*/ \"]\" /*[*/ ]", "#![type=\"a\" \"b\"]",
    "#![type=\"a\"]#![schema=\"b\"]", "#![enable(implicit_some)]#![enable(unwrap_newtypes)]1",
    "1 #![enable(implicit_some)]", "[#![type=\"a\"]]", "#![enable(implicit_some)] // a\n #![type=\"b\"] x",
];

const NO_CASES: &[&str] = &["r", "r ", "r  -", "r - -", "r 2", "r 2A", "r 0g", "rr -", "r\t-", "r mark", "r -2f"];

const NO_ROOMS: &[&str] = &[
    "R", "R 0", "R -", "R - -", "R 0 - -", "R 18446744073709551616 -", "R -1 -", "R mark -", "R 4 2", "R 4 2A",
    "R  4 -",
];

fn texts() -> impl Iterator<Item = &'static str> {
    [MARKS_AND_NAMES, NUMBERS, QUOTED, COMMENTS, ATTRIBUTES].into_iter().flatten().copied()
}

pub fn lines(lines: &mut Lines) {
    for text in texts() {
        lines.add(|l| line::read(l, text.as_bytes()));
    }
    for text in utf8::texts("a ", " b").iter().chain(&utf8::texts("\"", "\"")) {
        lines.add(|l| line::read(l, text));
    }
    lines.add(|l| line::read(l, &sized("//", "x", "\n7", 65_536)));
    lines.add(|l| line::read(l, &sized("\"", "\\n", "\"", 65_536)));
    lines.add(|l| line::read(l, &sized("", " ", "", 65_537)));
    lines.add(|l| line::read(l, &sized("", ",", "", 65_536)));
    lines.add(|l| line::read(l, &sized("/*", "x", "*/", 65_536)));
    NO_CASES.iter().for_each(|l| lines.plain(l));
}

/// Rooms around what small texts need.
pub fn with_rooms(lines: &mut Lines) {
    for (n, text) in texts().enumerate() {
        let rooms: &[u64] = if n % 8 == 0 { &[0, 4, 5, 9, 10, 14, 15] } else { &[5] };
        for &room in rooms {
            lines.add(|l| line::read_into(l, room, text.as_bytes()));
        }
    }
    for room in 0..=35 {
        lines.add(|l| line::read_into(l, room, b"Lock(id: 7)"));
    }
    for text in utf8::texts("a ", " b").iter().skip(2).step_by(3) {
        lines.add(|l| line::read_into(l, 0, text));
    }
    lines.add(|l| line::read_into(l, 327_679, &sized("", "[", "", 65_536)));
    lines.add(|l| line::read_into(l, 0, &sized("", "[", "", 65_537)));
    NO_ROOMS.iter().for_each(|l| lines.plain(l));
}
