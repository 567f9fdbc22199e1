//! `s`: comments, whitespace, cursors.
use super::{utf8, Lines};
use crate::limits::sized;
use crate::line;

const MARK: u64 = u64::MAX;

/// The whitespace, and characters next to it or like it that are none.
pub const BLANKS: &str = "\t\n\u{b}\u{c}\r \u{85}\u{200e}\u{200f}\u{2028}\u{2029}";
pub const NO_BLANKS: &str =
    "\0\u{8}\u{e}\u{1b}\u{1c}\u{1f}!\u{7f}\u{80}\u{84}\u{86}\u{a0}\u{1680}\u{180e}\u{2000}\u{200b}\
    \u{200c}\u{200d}\u{2010}\u{2027}\u{202a}\u{202f}\u{205f}\u{2060}\u{3000}\u{feff}";

pub const LINE_COMMENTS: &[&str] = &[
    "//", "//\n", "// ", "//a", "//a\n", "//a\nb", "//\r", "//\r\n", "//a\rb\n", "//a\rb", "//é", "//é\n", "//\u{85}a",
    "//\u{2028}a\n", "//\u{2029}", "////", "///\n", "///", "//*\n*/", "//*\n", "//*/\n", "///*\n*/", "//a\n//b",
    "//a\n//b\n", "//\n\n//", "//\n//\n//\n", " //a", " //a\n ", "\n//", "//\"\n\"", "//\0\n", "//a\n/", "//a\n/b",
    "//a\n/*", "//a\n/**/", "//a\n\u{85}//", "//\n\r\n\t//x", "//𝄞\n𝄞", "//\\\n", "//a\u{b}\u{c}\n.",
];

pub const BLOCK_COMMENTS: &[&str] = &[
    "/**/", "/***/", "/****/", "/*****/", "/*/", "/*/*/", "/*/**/", "/*/**/*/", "/*/**/*/*/", "/**/*/", "/*/*/*/",
    "/*/*/*/*/", "/*//*/", "/*//*/*/", "/*/ */", "/* /*/", "/* / */", "/* * */", "/* // */", "/* // \n*/", "/*\n*/",
    "/*\r\n*/", "/*\"*/\"*/", "/*'*/'*/", "/*é*/", "/*€*/", "/*𝄞*/", "/*\u{85}*/a", "/*\u{2028}*/", "/**", "/***",
    "/****", "/*a", "/*a*", "/*a/", "/*a*/b", "/*a* /", "/*a**/", "/*a//*/", "/*a//*/*/", "/*/*//*/", "/*/*//*/*/",
    "/*/*//*/*/*/", "/*//", "/*///*/", "/*///*/*/", "/*//**/*/", "/**//**/", "/**/ /**/ a", "/*a*//", "/*a*//*",
    "/*a*//b", "/*a*//*b*/", "/*a*///b", "/*a*///b\n", "/*/*/**/*/*/", "/*/*/**/*/*", "/*/*/**/*/*/*/", "/*/*a*/b*/c",
    "/*a/*b*/c", "/*a/*b*/c*/d", "/*/*/*/*/*/*/", "/*/*/*/*", "/*\0*/", "/*\\*/", "/*\n//*/\n", "/*\n//*/*/\n", "/* *",
    "/* * /", "/*/**", "/*/***/", "/*/***/*/", "/*/*é*/€*/𝄞", "/*é", "/*𝄞*", "/*/*/é",
];

pub const REFUSED: &[&str] = &[
    "/", "/a", "/é", "/€", "/𝄞", "/ /", "/ *", "/\n", "/\\", "/\0", "/\u{7f}", "/\u{85}", "/\u{2028}", " /", "\n/x",
    "//\n/", "//\n/é", "/**//x", "/**//", "/**/ /", "/**/\u{85}/€", "/+", "/#",
];

const STAYING: &[&str] = &[
    "", "a", "1", "(", "\"", "'", "#", "*", "*/", "**/", "*//", "\\", "é", "€", "𝄞", "a//", "a /*", "_/", "-//x",
    "é//", "\0 ", "a b", "+/**/", "\u{feff} ",
];

/// Texts over which every small cursor is asked.
const SMALL: &[&str] = &["", "a", "é", " a", "//a", " é/"];

/// Cursors over longer texts: cursor, place before the whitespace, its length.
const CURSORS: &[(u64, u64, u64, &str)] = &[
    (5, 0, 3, "abcde"),
    (5, 0, 4, "abcde"),
    (5, 0, 5, "abcde"),
    (5, 5, 5, "abcde"),
    (5, 5, 0, "abcde"),
    (5, 2, 3, "abcde"),
    (5, 2, 2, "abcde"),
    (5, 0, MARK, "abcde"),
    (5, 5, MARK, "abcde"),
    (2, 0, MARK, "//a"),
    (3, 0, MARK, "//a"),
    (3, 0, 3, "//a"),
    (3, 3, MARK, "//a"),
    (2, 1, 2, "abcd"),
    (2, 1, 1, "abcd"),
    (2, 1, 0, "abcd"),
    (2, 0, 0, "abcd"),
    (2, 2, 2, "abcd"),
    (2, 2, 0, "abcd"),
    (3, 0, 1, "a  //x"),
    (1, 0, 0, "a  //x"),
    (1, 0, 1, "a  //x"),
    (1, 1, 0, "a  //x"),
    (1, 0, MARK, "a  //x"),
    (1, 0, MARK, "a  //x\n"),
    (1, 0, 0, "a  //x\n"),
    (4, 1, 3, "a   b"),
    (4, 1, 2, "a   b"),
    (2, 1, 1, "a   b"),
    (5, 1, 3, "a   b"),
    (5, 1, 3, "a   b c"),
    (5, 5, 3, "a   b c"),
    (1, 1, 1, "a/*b*/ c"),
    (1, 0, 0, "a/*b*/ c"),
    (3, 1, 2, "a/*b*/ c"),
    (4, 1, 3, "a/*b*/ c"),
    (6, 1, 5, "a/*b*/ c"),
    (7, 1, 6, "a/*b*/ c"),
    (8, 1, 6, "a/*b*/ c"),
    (2, 0, 0, "é /*€*/𝄞"),
    (3, 2, 1, "é /*€*/𝄞"),
    (5, 2, 1, "é /*€*/𝄞"),
    (6, 2, 1, "é /*€*/𝄞"),
    (7, 2, 1, "é /*€*/𝄞"),
    (8, 2, 1, "é /*€*/𝄞"),
    (8, 6, 1, "é /*€*/𝄞"),
    (8, 1, 1, "é /*€*/𝄞"),
    (10, 2, 8, "é /*€*/𝄞"),
    (11, 2, 8, "é /*€*/𝄞"),
    (13, 2, 8, "é /*€*/𝄞"),
    (14, 10, 4, "é /*€*/𝄞"),
    (14, 12, 2, "é /*€*/𝄞"),
    (15, 2, 8, "é /*€*/𝄞"),
    (1, 0, 0, "//x"),
    (1, 0, 0, "/*x"),
    (1, 0, 0, "a/x"),
    (1, 0, 0, "a/"),
    (2, 0, 0, "a/"),
    (3, 0, 0, "a/"),
];

/// Numbers that are unfit wherever they stand.
const HUGE: &[u64] =
    &[65_536, 1 << 31, (1 << 32) - 1, 1 << 32, (1 << 32) + 1, 1 << 63, u64::MAX - 2, u64::MAX - 1, u64::MAX];

const NO_CASES: &[&str] = &[
    "", " ", "s", "s ", "x 0 0 0 -", "S 0 0 0 -", "ss 0 0 0 -", " s 0 0 0 -", "s  0 0 0 -", "s 0  0 0 -", "s 0 0 0  -",
    "s 0 0 0 - ", "s 0 0 0", "s 0 0 0 ", "s 0 0 -", "s 0 0 0 0 -", "s 0 0 0 - -", "s 0 0 0 2F", "s 0 0 0 2",
    "s 0 0 0 2f2", "s 0 0 0 0g", "s 0 0 0 --", "s 0 0 0 -2f", "s 0 0 0 2f-", "s 0 0 0 0x2f", "s mark 0 0 -",
    "s 0 mark 0 -", "s 0 0 MARK -", "s 0 0 marks -", "s -1 0 0 -", "s +1 0 0 -", "s 1a 0 0 -", "s 0x1 0 0 -",
    "s 18446744073709551616 0 0 -", "s 0 18446744073709551616 0 -", "s 0 0 18446744073709551616 -",
    "s 0 0 99999999999999999999999 -", "s\t0 0 0 -", "s 0 0 0 2f\t", "s,0,0,0,-", "s 0 0 - -",
];

pub fn lines(lines: &mut Lines) {
    for list in [LINE_COMMENTS, BLOCK_COMMENTS, REFUSED, STAYING] {
        list.iter().for_each(|text| at_start(lines, text.as_bytes()));
    }
    blanks(lines);
    cursors(lines);
    utf8::texts(" ", "/").iter().for_each(|text| at_start(lines, text));
    long(lines);
    NO_CASES.iter().for_each(|l| lines.plain(l));
}

fn at_start(lines: &mut Lines, text: &[u8]) {
    lines.add(|l| line::skip(l, 0, 0, 0, text));
}

fn blanks(lines: &mut Lines) {
    for c in BLANKS.chars().chain(NO_BLANKS.chars()) {
        at_start(lines, format!("{c}").as_bytes());
        at_start(lines, format!(" {c}a").as_bytes());
    }
    at_start(lines, BLANKS.as_bytes());
    at_start(lines, format!("{BLANKS}a{BLANKS}").as_bytes());
}

fn cursors(lines: &mut Lines) {
    for text in SMALL {
        let end = text.len() as u64;
        for cursor in 0..=end + 1 {
            for pre in [0, cursor / 2, cursor, cursor + 1] {
                for len in [0, cursor.saturating_sub(pre), cursor + 1, MARK] {
                    lines.add(|l| line::skip(l, cursor, pre, len, text.as_bytes()));
                }
            }
        }
    }
    for &(cursor, pre, len, text) in CURSORS {
        lines.add(|l| line::skip(l, cursor, pre, len, text.as_bytes()));
    }
    for &huge in HUGE {
        lines.add(|l| line::skip(l, huge, 0, 0, b" a"));
        lines.add(|l| line::skip(l, 1, huge, 0, b" a"));
        lines.add(|l| line::skip(l, 1, 0, huge, b" a"));
        lines.add(|l| line::skip(l, huge, huge, huge, b" a"));
    }
}

/// The size limit: three long lines and no more, since they are long.
fn long(lines: &mut Lines) {
    let fits = sized("/*", "/* */", "*/", 65_536);
    lines.add(|l| line::skip(l, 65_536, 0, 65_536, &fits));
    lines.add(|l| line::skip(l, 0, 0, 0, &fits));
    let mut over = sized("", " ", "", 65_537);
    over[65_536] = 0xff;
    lines.add(|l| line::skip(l, 0, 1, 0, &over));
}
