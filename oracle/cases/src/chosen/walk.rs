//! `w` and `W`: documents by module 10, and what is none.
use super::{utf8, Lines};
use crate::entries::{kinds, spelt};
use crate::limits::sized;
use crate::line;
use crate::tapes::{PAST_64_BITS, WIDTH};
use crate::walks::Walk;

/// Texts that are documents, by what stands in them.
const DOCUMENTS: &[&str] = &[
    "1", "-1.5", "'c'", "\"s\"", "b\"s\"", "r\"s\"", "b'c'", "inf", "NaN", "a", "r#a", "true", "()", "[]", "{}", "a()",
    "r#a()", "a ( )", "(1)", "(1,)", "(1,2)", "(1,2,)", "(a)", "(a,)", "(a,b)", "(a(1))", "(a(1),b)", "(a,b(c:1))",
    "(a:1)", "(a:1,)", "(a:1,b:2)", "(a:1,b:2,)", "(r#a:1,b:2)", "(true:1)", "a(b:1)", "a(b)", "a(b,)", "a(1,b)",
    "a(b(c(d())))", "[1]", "[1,]", "[1,2]", "[a]", "[a,]", "[a()]", "[[],[]]", "[(),{},a()]", "{1:2}", "{1:2,}",
    "{1:2,3:4}", "{a:b}", "{a(1):2}", "{[1]:[2]}", "{():()}", "{{}:{}}", "{(a:1):(b:2)}", "{\"a\":1,'b':2,}",
    "(a:(b:(c:1)))", "(a:[1,2],b:{3:4},)", "(a:b(c))", "(a:b(c:1,),)", "((a))", "((a:1))", "((a:1),2)",
    "(1,a(b:2),[c],{d:e})", "Lock(id: 7)", "[7, 8, 9]", "#![type=\"s\"]1", "#![type=\"s\"]#![schema=\"t\"]a()",
    "#![enable(implicit_some)] (a: 1)", "/*c*/a/*d*/(/*e*/)//f",
];

/// Texts that are none.
const OTHERS: &[&str] = &[
    "", " ", "//c", "/*c*/", "#![type=\"s\"]", "#![type=\"s\"]#![type=\"s\"]", "1#![type=\"s\"]", "[#![type=\"s\"]1]",
    "(#![type=\"s\"])", "a#![type=\"s\"]", "a(#![type=\"s\"]b:1)", "(a:#![type=\"s\"]1)", "{1:#![type=\"s\"]2}",
    "#![type=\"s\"],", "#![type=\"s\"])", "1 2", "a b", "a 1", "1 a", "a r#b", "\"a\"\"b\"", "()()", "a()()", "[][]",
    "{}{}", "1,", "a,", "(),", "1:", "a:", "a:1", "():", ",", ":", ")", "]", "}", "(", "[", "{", "a(", "a[", "a{",
    "a[1]", "a{}", "r#a[]", "\"s\"()", "1()", "1[]", "1(", "()1", "[]a", "[,]", "(,)", "{,}", "a(,)", "[1,,]", "(1,,)",
    "(a:1,,)", "{1:2,,}", "[1 2]", "(1 2)", "(a b)", "(a:1 b:2)", "{1:2 3:4}", "[1:2]", "[a:1]", "[1,a:2]", "[:]",
    "(a:1,b)", "(a:1,b,)", "(a:1,2)", "(a:1,2:3)", "(a:1,b(2))", "(a:1,(b:2))", "(a:1,b:)", "(a:1,:2)", "(a:1,b c)",
    "(a,b:1)", "(a(1):2)", "(1:2)", "(\"a\":1)", "(inf:1)", "('a':1)", "(a:)", "(a:,)", "(:1)", "(:)", "(a::1)",
    "(a:1:2)", "(a:b:1)", "(a:b:c)", "((a:1,2))", "({1})", "{1}", "{a}", "{1,}", "{1,2}", "{1:}", "{1:,}", "{:1}",
    "{:}", "{1::2}", "{1:2:3}", "{1:2,3}", "{1:2,3,}", "{a(1)}", "{a b:1}", "(]", "(}", "[)", "[}", "{)", "{]", "(1]",
    "(1}", "[1)", "[1}", "{1:2)", "{1:2]", "(a:1]", "(a:1}", "a(]", "a(}", "([)]", "([)", "([(", "{1:[", "{1:(a:",
    "(a", "(a:", "(a:1", "(a:1,", "(a:1,b", "(a,", "(1", "(1,", "[1", "[1,", "[a", "[a(", "{1", "{1:", "{1:2", "{1:2,",
    "{1:2,3", "((((", "[[[[", "a(b(c(d(", "())", "[]]", "{}}", "a())", "1)", "1]", "1}", "a)",
];

/// Texts that the reader refuses before any walk.
const UNREAD: &[&str] = &["@", "[@]", "(\"", "/*", "1_×", "×", "0x", "#![x]", "'", "[1, /", "a(b: 1_.5)"];

/// Kinds, and limits to walk them with.
const LIMITED: &[(&str, &[u64])] = &[
    ("1", &[0, 1, 2, 127, 128]),
    ("a", &[0, 1]),
    ("[]", &[0, 1, 2]),
    ("()", &[0, 1]),
    ("{}", &[0, 1]),
    ("a()", &[0, 1]),
    ("r()", &[0, 1]),
    ("#[]", &[0, 1]),
    ("[[1]]", &[0, 1, 2]),
    ("[[],[[]]]", &[1, 2, 3]),
    ("(a:(a:1))", &[0, 1, 2]),
    ("a(a(a(1)))", &[0, 1, 2, 3]),
    ("{[1]:{}}", &[0, 1, 2]),
    ("{[[]]:1}", &[1, 2, 3]),
    ("[1[]]", &[0, 1, 2]),
    ("1[]", &[0, 1]),
    ("a[]", &[0, 1]),
    ("1(", &[0]),
    ("((", &[0, 1, 2]),
    ("([)", &[0, 1, 2]),
    ("(a:1,(", &[1, 2]),
    ("(a:1,a(", &[1, 2]),
    ("{(", &[0, 1]),
    ("{1:1,1}", &[0, 1]),
    ("[,[", &[0, 1, 2]),
    ("[],[", &[0, 1]),
    ("[[[[[[[[]]]]]]]]", &[6, 7, 8, 9]),
];

const MOST: u64 = u64::MAX;

/// Limit, links, count, tape.
const TAPES: &[(u64, u64, u64, &[u32])] = &[
    (128, 0, 0, &[]),
    (128, 5, 0, &[]),
    (0, 0, 0, &[]),
    (129, 0, 0, &[]),
    (MOST, 0, 0, &[]),
    (129, 0, 1, &[]),
    (128, 0, 1, &[]),
    (128, 1, 1, &[11, 0, 1, 0]),
    (128, 1, 1, &[11, 0, 1, 0, 0]),
    (128, 2, 1, &[11, 0, 1, 0, 0]),
    (128, 9, 1, &[11, 0, 1, 0, 0]),
    (128, 0, 1, &[11, 0, 1, 0, 0]),
    (129, 0, 1, &[11, 0, 1, 0, 0]),
    (128, 1, 2, &[11, 0, 1, 0, 0]),
    (128, 1, MOST, &[11, 0, 1, 0, 0]),
    (128, 1, PAST_64_BITS, &[11, 0, 1, 0, 0]),
    (128, 1, 1, &[11, 0, 1, 0, 0, 99]),
    (128, 1, 1, &[11, 0, 1, 0, 0, 0, 0, 0, 0, 0]),
    (128, 1, 1, &[11, 0, 1, 0, 0, 11, 1, 2, 0, 0]),
    (128, 2, 2, &[11, 0, 1, 0, 0, 11, 1, 2, 0, 0]),
    (128, 1, 2, &[11, 0, 1, 0, 0, 11, 1, 2, 0, 0]),
    (128, 1, 1, &[0, 0, 1, 0, 0]),
    (128, 1, 1, &[17, 0, 1, 0, 0]),
    (128, 1, 1, &[4294967295, 0, 1, 0, 0]),
    (128, 1, 1, &[16, 0, 1, 0, 0]),
    (128, 1, 1, &[1, 0, 1, 0, 0]),
    (128, 1, 1, &[9, 0, 1, 4294967295, 0]),
    (128, 1, 1, &[9, 0, 0, 0, 0]),
    (128, 1, 1, &[9, 1, 0, 0, 1]),
    (128, 1, 1, &[9, 5, 5, 0, 5]),
    (128, 1, 1, &[9, 65535, 65536, 0, 65535]),
    (128, 1, 1, &[9, 65535, 65537, 0, 65535]),
    (128, 1, 1, &[9, 65536, 65537, 0, 65536]),
    (128, 1, 1, &[9, 0, 65536, 0, 0]),
    (128, 1, 1, &[9, 0, 65537, 0, 0]),
    (128, 1, 1, &[9, 0, 4294967295, 0, 0]),
    (128, 1, 1, &[9, 4294967294, 4294967295, 0, 4294967294]),
    (128, 0, 1, &[9, 0, 65537, 0, 0]),
    (129, 1, 1, &[9, 0, 65537, 0, 0]),
    (128, 2, 2, &[3, 0, 1, 0, 0, 4, 1, 2, 0, 0]),
    (128, 2, 2, &[3, 0, 1, 0, 0, 4, 2, 3, 0, 1]),
    (128, 2, 2, &[3, 0, 2, 0, 0, 4, 1, 2, 0, 0]),
    (128, 2, 2, &[3, 0, 2, 0, 0, 4, 1, 3, 0, 0]),
    (128, 2, 2, &[3, 1, 2, 0, 1, 4, 0, 1, 0, 0]),
    (128, 2, 2, &[3, 0, 1, 0, 0, 4, 0, 1, 0, 0]),
    (128, 2, 2, &[3, 0, 1, 0, 0, 4, 1, 1, 0, 0]),
    (128, 2, 2, &[3, 0, 1, 0, 0, 17, 1, 2, 0, 0]),
    (128, 2, 2, &[3, 0, 65536, 0, 0, 4, 65536, 65537, 0, 0]),
    (0, 2, 2, &[3, 0, 1, 0, 0, 4, 1, 2, 0, 0]),
    (0, 1, 2, &[3, 0, 1, 0, 0, 4, 1, 2, 0, 0]),
    (1, 3, 2, &[3, 0, 1, 0, 0, 4, 1, 2, 0, 0]),
    (1, 3, 1, &[3, 0, 1, 0, 0, 4, 1, 2, 0, 0]),
    (1, 3, 3, &[3, 0, 1, 0, 0, 4, 1, 2, 0, 0]),
    (128, 65536, 2, &[3, 0, 1, 0, 0, 4, 1, 2, 0, 0]),
];

const NO_CASES: &[&str] = &[
    "w", "w 1", "w 1 ", "w  1 -", "w 1 3", "w 1 3A", "w x -", "w 18446744073709551616 -", "w 1 - -", "w -1 31", "W",
    "W 1", "W 1 1", "W 1 1 1", "W 1 1 1 -", "W 1 1 1 - ", "W 1 1 1 - x", "W 1 1 1 - 1,", "W 1 1 1 - ,1",
    "W 1 1 1 - 1,,1", "W 1 1 1 - - -", "W 1 1 1 - 4294967296", "W 1 1 18446744073709551616 - -", "W  1 1 1 - -",
    "W 1 1 1 - 1 ,2", "W 1 x 1 - -", "W - 1 1 - -", "W 1 18446744073709551616 1 - -", "W 18446744073709551616 1 1 - -",
    "W 1 1 1 11,0,1,0,0", "W 1 1 1 11,0,1,0,0 31", "W 1 1 1 3 11,0,1,0,0", "W 1 1 1 3A 11,0,1,0,0",
    "W 1 1 1 zz 11,0,1,0,0", "W 1 1 1  11,0,1,0,0", "W 1 1 1 31  11,0,1,0,0", "W 1 1 1 31 31 11,0,1,0,0",
];

pub fn of_text(lines: &mut Lines) {
    for text in DOCUMENTS.iter().chain(OTHERS).chain(UNREAD) {
        lines.add(|l| line::walk(l, 128, text.as_bytes()));
    }
    for text in DOCUMENTS {
        for limit in [0, 1, 2] {
            lines.add(|l| line::walk(l, limit, text.as_bytes()));
        }
    }
    for text in ["", "1", "[1]", "[,]", "@", "\u{85}"] {
        for limit in [127, 129, 1 << 32, MOST] {
            lines.add(|l| line::walk(l, limit, text.as_bytes()));
        }
    }
    for deep in [1, 2, 127, 128, 129, 130] {
        for (open, close) in [("[", "]"), ("(", ")"), ("a(", ")"), ("{", "}"), ("(a:", ")"), ("{1:", "}")] {
            let text = [open.repeat(deep), close.repeat(deep)].concat();
            lines.add(|l| line::walk(l, 128, text.as_bytes()));
        }
    }
    for text in utf8::texts("[", "]").iter().skip(2).step_by(5) {
        lines.add(|l| line::walk(l, 128, text));
    }
    lines.add(|l| line::walk(l, 128, &sized("[", "1,", "]", 65_536)));
    lines.add(|l| line::walk(l, 128, &sized("[", "1,", "]", 65_537)));
    NO_CASES.iter().filter(|l| l.starts_with('w')).for_each(|l| lines.plain(l));
}

pub fn of_any_tape(lines: &mut Lines) {
    for (signs, limits) in LIMITED {
        for &limit in *limits {
            let kinds = kinds(signs);
            let count = kinds.len() as u64;
            walk_of_kinds(lines, [limit, count, count], &kinds);
        }
    }
    for_every_short_list(lines);
    TAPES.iter().for_each(|&(limit, links, count, tape)| walk_of_tape(lines, [limit, links, count], tape));
    for deep in [127, 128, 129] {
        let signs = ["[".repeat(deep), "]".repeat(deep)].concat();
        let kinds = kinds(&signs);
        let count = kinds.len() as u64;
        for limit in [127, 128] {
            walk_of_kinds(lines, [limit, count + 1, count], &kinds);
        }
        walk_of_kinds(lines, [128, count, deep as u64], &kinds);
    }
    NO_CASES.iter().filter(|l| l.starts_with('W')).for_each(|l| lines.plain(l));
}

/// Each kind alone, and each two kinds inside each bracket.
fn for_every_short_list(lines: &mut Lines) {
    for kind in 1..=16 {
        walk_of_kinds(lines, [128, 1, 1], &[kind]);
    }
    for first in [7, 8, 9, 11, 16] {
        for second in [1, 2, 3, 4, 6, 7, 8, 10, 14, 16] {
            for open in [1, 3, 5] {
                walk_of_kinds(lines, [2, 4, 4], &[open, first, second, open + 1]);
            }
        }
    }
}

/// Limit, links and count for entries side by side.
fn walk_of_kinds(lines: &mut Lines, [limit, links, count]: [u64; 3], kinds: &[u32]) {
    let (text, tape) = spelt(kinds);
    lines.add(|l| line::walk_of(l, &Walk { limit, links, count, text, tape }));
}

/// Limit, links and count for a tape, over as many bytes as its last entry needs.
pub fn walk_of_tape(lines: &mut Lines, [limit, links, count]: [u64; 3], tape: &[u32]) {
    let text = vec![b'x'; bytes_under(count, tape)];
    lines.add(|l| line::walk_of(l, &Walk { limit, links, count, text, tape: tape.to_vec() }));
}

/// Where the last of the first entries ends; a few bytes where no text is that long.
fn bytes_under(count: u64, tape: &[u32]) -> usize {
    let ends = tape.chunks_exact(WIDTH).zip(0..count).map(|(row, _)| row[2] as usize);
    match ends.max().unwrap_or(0) {
        end @ 0..=65_536 => end,
        _ => 8,
    }
}
