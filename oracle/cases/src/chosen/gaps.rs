//! The gap before each entry (change request 6): what counts, the room of five numbers, 23 by a gap alone, and repairs whose gap changes at the join.
use super::walk::walk_of_tape;
use super::Lines;
use crate::edits::Edit;
use crate::limits::sized;
use crate::line;
use crate::repairs::Repair;
use crate::tapes::{self, WIDTH};

pub fn lines(lines: &mut Lines, call: u8) {
    match call {
        b'r' => read(lines),
        b'R' => with_rooms(lines),
        b'w' => walk(lines),
        b'W' => walk_of(lines),
        b'c' => contents(lines),
        b'C' => contents_of(lines),
        b'p' => edits(lines),
        b'P' => repairs(lines),
        _ => {}
    }
}

/// Each kind of whitespace, of one byte, two and three.
const BLANKS: &[&str] =
    &["\t", "\n", "\u{b}", "\u{c}", "\r", " ", "\u{85}", "\u{200e}", "\u{200f}", "\u{2028}", "\u{2029}"];

/// Several together, comments, nested ones, and both.
const GAPS: &[&str] = &[
    "  ", "\r\n", "\n\n\t", " \u{85}", "\u{85} ", "\u{2028}\r\n\u{2029}", "\u{200e}\u{200f}\u{85}\u{b}\u{c}", "//\n",
    "//a\n", "//é\n", "//𝄞\r\n", "// \", (\n", "//a\n//b\n", "//a\u{2028}b\n", "/**/", "/*a*/", "/*é*/", "/*𝄞*/",
    "/***/", "/*/**/*/", "/*/*a*//*é*/*/", "/*\n*/", "/* , \" ' */", " /**/ ", "/**/ /**/", "/**///\n", "//\n/**/",
    "//*\n", "/*//\n*/",
];

/// Entries that touch, entries with blanks and marks inside, attributes, and texts that end behind a gap.
const TEXTS: &[&str] = &[
    "a(b)",
    "'a''b'",
    "\"a\"\"b\"",
    "300a",
    "1.5.5",
    "1u8x",
    "0xe+1",
    "5u8é",
    "é×",
    "é ŵ  字   𐌰",
    "\" a \"  b",
    "\"/*\" b",
    "r\"//\"\nb",
    "'/' b",
    "' ' b",
    "b\" \" \" \"",
    "r#a .5",
    "- 1",
    "a - 1",
    "1 /",
    "1  @",
    "  @",
    " a /*",
    "a  \"",
    " 'ab",
    "#![enable(implicit_some)] a",
    "#![enable(implicit_some)]a",
    "#![enable(implicit_some)]/**/\u{2028}a",
    "#![enable(implicit_some)]  #![type=\"s\"]\n#![enable(unwrap_newtypes)]  ",
    "# ! [ enable ( implicit_some ) ]  a",
    " #![ type = \" \" ] /*]*/ a",
    "//x\n #![schema=\"s\"]//\n1",
    "[\n    7,\n    8, // eight\n    9,\n]",
    "( é : /*é*/ \"é\" , )",
    "Lock ( id : 7 )",
    "  Lock(id: 7)",
    "//Lock\nLock(id:/*7*/7)//7",
];

/// Bytes behind the last entry belong to no gap; where there is no entry, all do so.
const BEHIND: &[&str] = &[" ", "\n\n", "\u{2028}", "//", "//a", "//a\n", "/*a*/", "/**/ //"];

fn read(lines: &mut Lines) {
    let mut text = |text: &str| lines.add(|l| line::read(l, text.as_bytes()));
    for gap in BLANKS.iter().chain(GAPS) {
        text(&format!("{gap}a"));
        text(&format!("a{gap}(b{gap}{gap}1"));
    }
    text(&format!("{}7", BLANKS.concat()));
    TEXTS.iter().for_each(|whole| text(whole));
    for behind in BEHIND {
        text(behind);
        text(&format!("a, b{behind}"));
    }
    for bytes in [255, 256, 257, 4_096] {
        text(&format!("{}a", " ".repeat(bytes)));
        text(&format!("é{}\"é\"", "\n".repeat(bytes)));
    }
    lines.add(|l| line::read(l, &sized("", " ", "a", 65_536)));
    lines.add(|l| line::read(l, &sized("[", "\u{2028}", "]", 65_537 - 3)));
}

/// Texts of one, two, three and six entries, and rooms around five numbers to each, and four.
fn with_rooms(lines: &mut Lines) {
    for (text, entries) in [("  a", 1), ("a//\n b", 2), ("[\u{85}é ]", 3), (" Lock ( id : 7 ) ", 6)] {
        for room in [4 * entries, 5 * entries - 1, 5 * entries, 5 * entries + 1, 5 * entries + 4, 5 * entries - 5] {
            lines.add(|l| line::read_into(l, room, text.as_bytes()));
        }
    }
}

/// Documents: the reading's gaps are in order, whatever they hold.
const DOCUMENTS: &[&str] = &[
    " [ 1 , 2 ] ",
    "/*a*/a/*b*/(/*c*/)",
    "//\n1",
    "1//",
    "\u{2028}{ 1 :\u{85}2 }",
    "#![enable(implicit_some)]\n\n(a: 1)",
    "\n#![type=\"s\"] #![enable(implicit_some)] /**/ é ( ŵ : 1 , )",
    " 1 2",
    " [ 1 2 ]",
    "  ",
];

fn walk(lines: &mut Lines) {
    for text in DOCUMENTS {
        lines.add(|l| line::walk(l, 128, text.as_bytes()));
        lines.add(|l| line::walk(l, 0, text.as_bytes()));
    }
}

/// The tape of `  [1 ]//`, which is in order.
const LIST: &[u32] = &[3, 2, 3, 0, 2, 11, 3, 4, 5, 0, 4, 5, 6, 0, 1];

/// A copy in which an entry has this gap.
fn with_gap(tape: &[u32], entry: usize, gap: u32) -> Vec<u32> {
    let mut copy = tape.to_vec();
    tapes::row(&mut copy, entry)[4] = gap;
    copy
}

/// What may be taken for an entry's gap; few of them are.
fn taken_for_gap(tape: &[u32], entry: usize) -> Vec<u32> {
    let row = &tape[WIDTH * entry..WIDTH * (entry + 1)];
    let former_end = if entry == 0 { 0 } else { tape[WIDTH * entry - WIDTH + 2] };
    let distance = row[1] - former_end;
    vec![
        distance,
        distance + 1,
        distance.wrapping_sub(1),
        0,
        u32::MAX,
        row[1],
        row[2],
        former_end,
        1 << 31,
        distance + 65_536,
    ]
}

/// Limit, links, count, tape.
const TAPES: &[(u64, u64, u64, &[u32])] = &[
    // beyond the count nothing is judged
    (128, 1, 1, &[9, 2, 3, 0, 2, 9, 4, 5, 0, 9]),
    (128, 1, 1, &[9, 2, 3, 0, 2, 0, 0, 0, 0, 4294967295]),
    (128, 2, 2, &[3, 0, 1, 0, 0, 4, 3, 4, 0, 2, 9, 9, 9, 9, 9]),
    (128, 2, 2, &[3, 0, 1, 0, 0, 4, 3, 4, 0, 3, 9, 9, 9, 9, 9]),
    (128, 0, 0, &[9, 1, 2, 0, 0]),
    // four numbers are no entry
    (128, 1, 1, &[9, 0, 1, 0]),
    (128, 2, 2, &[3, 0, 1, 0, 0, 4, 1, 2, 0]),
    // a start before the former's end, whatever the gap
    (128, 2, 2, &[3, 0, 2, 0, 0, 4, 1, 3, 0, 0]),
    (128, 2, 2, &[3, 0, 2, 0, 0, 4, 1, 3, 0, 1]),
    (128, 2, 2, &[3, 0, 2, 0, 0, 4, 1, 3, 0, 4294967295]),
    (128, 2, 2, &[3, 0, 1, 0, 0, 4, 0, 2, 0, 4294967295]),
    (128, 2, 2, &[3, 0, 4095, 0, 0, 4, 1, 4096, 0, 4294963202]),
    (128, 2, 2, &[3, 7, 9, 0, 7, 4, 3, 10, 0, 3]),
    // sums that pass 2^32
    (128, 1, 1, &[9, 0, 1, 0, 4294967295]),
    (128, 1, 1, &[9, 0, 1, 0, 2147483648]),
    (128, 1, 1, &[9, 4294967294, 4294967295, 0, 4294967294]),
    (128, 1, 1, &[9, 4294967295, 4294967295, 0, 4294967295]),
    (128, 2, 2, &[3, 0, 65536, 0, 0, 4, 65536, 65537, 0, 0]),
    (128, 2, 2, &[3, 0, 4294967295, 0, 0, 4, 0, 1, 0, 1]),
    // the gap where the detail stands, and the other way round
    (128, 1, 1, &[11, 5, 6, 5, 0]),
    (128, 1, 1, &[11, 5, 6, 0, 5]),
    (128, 1, 1, &[11, 5, 6, 4294967295, 5]),
    // an empty entry, one that ends before it starts, kinds, the last end: with the right gap
    (128, 1, 1, &[9, 5, 5, 0, 5]),
    (128, 1, 1, &[9, 5, 4, 0, 5]),
    (128, 1, 1, &[17, 5, 6, 0, 5]),
    (128, 1, 1, &[9, 4095, 4096, 0, 4095]),
    (128, 1, 1, &[9, 4095, 4096, 0, 4094]),
    (128, 1, 1, &[9, 4095, 4096, 0, 4096]),
    (128, 1, 1, &[9, 4095, 4096, 0, 0]),
    (128, 1, 1, &[9, 65535, 65537, 0, 65535]),
    // 28 comes first, then 23, then 22 and what the entries say
    (129, 1, 1, &[9, 1, 2, 0, 0]),
    (128, 0, 1, &[9, 1, 2, 0, 0]),
    (0, 1, 1, &[3, 1, 2, 0, 0]),
    (128, 1, 1, &[7, 1, 2, 0, 0]),
    (128, 1, 1, &[3, 1, 2, 0, 0]),
    (128, 1, 1, &[3, 1, 2, 0, 1]),
];

/// Entries of one byte with one byte between them, the first behind one too.
fn apart(kinds: &[u32]) -> Vec<u32> {
    kinds.iter().zip(0..).flat_map(|(&kind, n)| [kind, 2 * n + 1, 2 * n + 2, 0, 1]).collect()
}

fn walk_of(lines: &mut Lines) {
    let mut walk = |limit: u64, links: u64, count: u64, tape: &[u32]| walk_of_tape(lines, [limit, links, count], tape);
    for entry in 0..3 {
        for gap in taken_for_gap(LIST, entry) {
            walk(128, 3, 3, &with_gap(LIST, entry, gap));
        }
    }
    TAPES.iter().for_each(|&(limit, links, count, tape)| walk(limit, links, count, tape));
    // each of nine entries, judged, and just behind the last that is
    let nine = apart(&[3, 3, 3, 3, 11, 4, 4, 4, 4]);
    walk(4, 9, 9, &nine);
    for entry in 0..9 {
        walk(4, 9, 9, &with_gap(&nine, entry, 0));
        walk(4, 9, 9, &with_gap(&nine, entry, 2));
        walk(4, 9, entry as u64, &with_gap(&nine, entry, 2));
    }
}

/// Contents has a gap of its own making; the text's front counts for nothing.
fn contents(lines: &mut Lines) {
    for (kind, start, text) in
        [(14, 2, "  \"a\""), (14, 4, "/**/\"\\n\""), (15, 3, "\u{2028}b\"a\""), (14, 1, "  \"a\"")]
    {
        lines.add(|l| line::contents(l, kind, start, text.as_bytes()));
    }
}

/// Entry and count over a tape: no gap is wrong here.
const ASKED: &[(u64, u64, &[u32])] = &[
    (0, 1, &[14, 2, 5, 1, 2]),
    (0, 1, &[14, 2, 5, 1, 0]),
    (0, 1, &[14, 2, 5, 1, 1]),
    (0, 1, &[14, 2, 5, 1, 3]),
    (0, 1, &[14, 2, 5, 1, 65_536]),
    (0, 1, &[14, 2, 5, 1, 1 << 31]),
    (0, 1, &[14, 2, 5, 1, u32::MAX]),
    (0, 1, &[14, 2, 0, 0, u32::MAX]),
    (0, 1, &[14, 2, 5, 1]),
    (1, 2, &[9, 0, 1, 0, 7, 14, 2, 5, 1, 1]),
    (1, 2, &[9, 0, 1, 0, 0, 14, 2, 5, 1, 2]),
    (1, 2, &[9, 3, 4, 0, 0, 14, 2, 5, 1, u32::MAX]),
    (1, 2, &[9, 0, 1, 0, 0, 14, 2, 5, 1]),
    (0, 2, &[14, 2, 5, 1, 14, 2, 5, 1, 14, 2]),
    (1, 2, &[14, 2, 5, 1, 14, 2, 5, 1, 14, 2]),
    (0, 1, &[15, 2, 5, 1, 2]),
    (0, 1, &[14, 3, 5, 1, 3]),
];

fn contents_of(lines: &mut Lines) {
    for &(entry, count, tape) in ASKED {
        lines.add(|l| line::contents_of(l, entry, count, 9, b"a \"b\" c", tape));
    }
}

/// What is put before each entry, behind each, at the front and at the end.
const PUT: &[&str] =
    &[" ", "  ", "\n", "\t", "\u{b}", "\u{85}", "\u{2028}", "/**/", "/*,*/", "//\n", "/*/**/*/", "// b\n "];

/// Text, cut, what is put there.
const EDITS: &[(&str, usize, usize, &str)] = &[
    // as worked in the requests' reading
    ("[7, 8, 9]", 4, 6, "/*8,*/"),
    ("a b", 2, 2, " "),
    ("a b", 2, 2, ""),
    ("1", 0, 0, " "),
    ("ab c", 0, 1, ""),
    // the entry behind the new bytes has another gap, and all further ones are kept
    ("[7, 8, 9]", 4, 4, " "),
    ("[7, 8, 9]", 3, 4, ""),
    ("[7, 8, 9]", 3, 4, "\n    "),
    ("[7, 8, 9]", 3, 4, "\n"),
    ("[7, 8, 9]", 6, 7, ""),
    ("[7, 8, 9]", 8, 8, " "),
    ("[7, 8, 9]", 8, 8, ","),
    ("[7, 8, 9]", 8, 8, ", "),
    ("[7, 8, 9]", 0, 0, " "),
    ("[7, 8, 9]", 0, 0, "//\n"),
    ("[7, 8, 9]", 9, 9, " "),
    ("[7, 8, 9]", 9, 9, "//"),
    ("a b c d", 2, 3, "/*b*/"),
    ("a b c d", 2, 4, "//b\n"),
    ("a b c d", 0, 3, "//b\n"),
    ("a /*b*/ c d", 2, 7, "b"),
    ("a /*b*/ c d", 2, 4, ""),
    ("a /*b*/ c d", 2, 8, ""),
    ("a //b\nc d", 2, 6, ""),
    ("a //b\nc d", 5, 6, "\n\n"),
    // the same gap of other bytes: kept
    ("a b", 1, 2, "\n"),
    ("a b", 1, 2, "\u{b}"),
    ("a /**/ b", 2, 6, "    "),
    ("a /*x*/ b", 4, 5, "y"),
    ("a /*é*/ b", 4, 6, "xx"),
    ("a /*é*/ b", 4, 6, "x"),
    ("a \u{2028}b", 2, 5, "   "),
    ("a \u{85}b", 2, 4, "//\n"),
    ("  a b", 0, 2, "\n\n"),
    ("  a b", 0, 2, "\u{85}"),
    ("//x\na b", 2, 3, "y"),
    ("//x\na b", 2, 3, ""),
    ("//x\na b", 0, 4, "/**/"),
    // blanks cut: one of two, all, at the front, at the end
    ("a,  b,  c", 2, 3, ""),
    ("a,  b,  c", 3, 4, ""),
    ("a,  b,  c", 2, 4, ""),
    ("a,  b,  c", 6, 8, ""),
    ("  a b", 0, 1, ""),
    ("  a b", 1, 2, ""),
    ("  a b", 0, 2, ""),
    ("a b  ", 3, 4, ""),
    ("a b  ", 4, 5, ""),
    ("a b  ", 3, 5, ""),
    (" a", 0, 1, ""),
    ("\u{85}a b", 0, 2, " "),
    // a cut that ends inside the gap
    ("ab   c d", 1, 3, ""),
    ("ab   c d", 1, 3, "b"),
    ("ab   c d", 1, 3, "b "),
    ("ab   c d", 1, 3, "bb"),
    ("ab   c d", 1, 3, "  "),
    ("ab   c d", 1, 4, "x /**/"),
    ("ab   c d", 0, 4, ""),
    ("ab   c d", 0, 4, "ab  "),
    ("ab   c d", 0, 3, "//"),
    ("a/*b*/ c d", 1, 4, "/*"),
    ("a/*b*/ c d", 0, 4, "/*"),
    ("a /*b*/ c d", 5, 7, " */"),
    ("a //b\n c d", 4, 5, "\n"),
    ("a //b\n c d", 5, 6, ""),
    // one that begins inside it
    ("a   b c", 2, 5, "b"),
    ("a   b c", 3, 5, "x"),
    ("a   b c", 2, 6, ""),
    ("a   b c", 2, 6, "  "),
    // entries taken out and put in, where the next one's gap is the same, and where it is not
    ("a b c", 2, 4, ""),
    ("a b c", 1, 3, ""),
    ("a b c", 2, 3, ""),
    ("a b c", 0, 2, ""),
    ("x y", 0, 2, ""),
    ("x y", 0, 1, "xx"),
    ("x y", 0, 1, ""),
    ("x y z", 0, 2, ""),
    ("a b,c", 2, 3, ""),
    ("a,b c", 1, 3, ""),
    ("a,b,c", 1, 3, ""),
    ("a,b,c", 2, 3, ""),
    ("a  b c", 2, 2, "x"),
    ("a  b c", 2, 2, ","),
    ("a  b c", 1, 1, ","),
    ("a(b)c", 1, 4, ""),
    ("a(b)c", 2, 3, " "),
    ("a(b)c", 2, 3, ""),
    ("ab c", 1, 1, " "),
    ("ab c", 2, 3, ","),
    // in the order of the entries behind: the first does not agree, the next does, though both start where they did
    ("a b c d e", 2, 3, "/*"),
    ("a b c d e", 2, 3, "/*b*/"),
    ("a/*b c*/ d e", 1, 3, "/*"),
    ("a \"b c\" d e", 2, 3, "\"\" \""),
    // other bytes, other lengths, attributes
    ("é ŵ 字", 3, 3, "\u{2028}"),
    ("é ŵ 字", 2, 3, "\u{85}"),
    ("é\u{85}ŵ 字", 2, 4, "  "),
    ("é\u{85}ŵ 字", 2, 4, " "),
    ("#![enable(implicit_some)] a b", 25, 25, " "),
    ("#![enable(implicit_some)] a b", 26, 26, "/**/"),
    ("#![enable(implicit_some)] a b", 25, 26, ""),
    ("#![enable(implicit_some)] a b", 25, 26, "\n"),
    ("#![enable(implicit_some) ] a b", 24, 25, ""),
    ("#![type=\"s\"] a b", 9, 10, "t t"),
    (" #![type=\"s\"] a b", 0, 1, ""),
    ("a #![type=\"s\"] b", 2, 14, "  "),
];

/// A text of which each byte is taken out, and before each byte of which each of some pieces is put.
const EVERYWHERE: &str = " a, /*b*/ c//d\n e ";
const PIECES: &[&str] = &[" ", "\u{85}", "/**/", ","];

fn edits(lines: &mut Lines) {
    let mut edit = |text: &str, from: usize, to: usize, put: &str| {
        let edit = Edit { text: text.into(), from, to, put: put.into() };
        lines.add(|l| line::edit(l, &edit));
    };
    EDITS.iter().for_each(|&(text, from, to, put)| edit(text, from, to, put));
    for put in PUT {
        [0, 1, 2, 3, 4, 5, 7].iter().for_each(|&at| edit("a, b  c", at, at, put));
    }
    (0..EVERYWHERE.len()).for_each(|at| edit(EVERYWHERE, at, at + 1, ""));
    for at in 0..=EVERYWHERE.len() {
        PIECES.iter().for_each(|piece| edit(EVERYWHERE, at, at, piece));
    }
}

/// The tape of `[7, 8, 9]`.
const SEVEN: &[u32] =
    &[3, 0, 1, 0, 0, 11, 1, 2, 5, 0, 7, 2, 3, 0, 0, 11, 4, 5, 5, 1, 7, 5, 6, 0, 0, 11, 7, 8, 5, 1, 4, 8, 9, 0, 0];
/// The tape of ` a  b`.
const TWO: &[u32] = &[9, 1, 2, 0, 1, 9, 4, 5, 0, 2];

/// Count, old length, cut, new text, tape.
type Asked = (u64, u64, u64, u64, &'static str, &'static [u32]);

const REPAIRS: &[Asked] = &[
    // the gap at the join: less, the same, more; numbers behind the entries
    (2, 5, 2, 3, " a b", TWO),
    (2, 5, 2, 4, " ab", TWO),
    (2, 5, 2, 4, " a\n\nb", TWO),
    (2, 5, 2, 2, " a/**/  b", TWO),
    (2, 5, 0, 1, "a  b", TWO),
    (2, 5, 0, 0, "  a  b", TWO),
    (2, 5, 0, 2, "  b", TWO),
    (2, 5, 5, 5, " a  b ", TWO),
    (2, 5, 4, 4, " a   b", &[9, 1, 2, 0, 1, 9, 4, 5, 0, 2, 8, 8]),
    (2, 5, 4, 4, " a  ,b", &[9, 1, 2, 0, 1, 9, 4, 5, 0, 2, 8, 8, 8, 8, 8]),
    (2, 5, 4, 4, " a  ,b", &[9, 1, 2, 0, 1, 9, 4, 5, 0, 2, 8, 8, 8, 8]),
    (2, 5, 0, 5, "", &[9, 1, 2, 0, 1, 9, 4, 5, 0, 2, 8, 8, 8]),
    (2, 5, 0, 4, " b", &[9, 1, 2, 0, 1, 9, 4, 5, 0, 2, 8]),
    (7, 9, 3, 4, "[7,8, 9]", SEVEN),
    (7, 9, 3, 4, "[7,\n8, 9]", SEVEN),
    (7, 9, 0, 0, " [7, 8, 9]", SEVEN),
    (7, 9, 8, 8, "[7, 8, 9 ]", SEVEN),
    (7, 9, 1, 9, "[", SEVEN),
    // beyond the count nothing is judged, and all of it stays
    (
        5,
        6,
        4,
        4,
        "[7,  8,",
        &[3, 0, 1, 0, 0, 11, 1, 2, 5, 0, 7, 2, 3, 0, 0, 11, 4, 5, 5, 1, 7, 5, 6, 0, 0, 11, 7, 8, 5, 9, 4, 8, 9, 0, 9],
    ),
    (1, 2, 2, 2, " a", &[9, 1, 2, 0, 1, 9, 4, 5, 0, 4294967295]),
    (0, 1, 0, 1, " a", &[9, 4, 5, 0, 0]),
    // four numbers are no entry
    (1, 2, 0, 2, "a", &[9, 1, 2, 0]),
    (2, 5, 0, 5, "a", &[9, 1, 2, 0, 1, 9, 4, 5, 0]),
    // a start before the former's end, whatever the gap; sums that pass 2^32
    (2, 5, 0, 5, "a", &[9, 0, 2, 0, 0, 9, 1, 3, 0, 0]),
    (2, 5, 0, 5, "a", &[9, 0, 2, 0, 0, 9, 1, 3, 0, 1]),
    (2, 5, 0, 5, "a", &[9, 0, 2, 0, 0, 9, 1, 3, 0, 4294967295]),
    (1, 5, 0, 5, "a", &[9, 0, 2, 0, 4294967295]),
    (1, 5, 0, 5, "a", &[9, 1, 2, 0, 2147483649]),
    (1, 1 << 32, 0, 1 << 32, "a", &[9, 4294967294, 4294967295, 0, 4294967294]),
    (1, 1 << 32, 0, 1 << 32, "a", &[9, 4294967294, 4294967295, 0, 4294967293]),
    (2, 1 << 32, 0, 1 << 32, "a", &[9, 0, 4294967294, 0, 0, 9, 4294967294, 4294967295, 0, 0]),
    (2, 1 << 32, 0, 1 << 32, "a", &[9, 0, 4294967293, 0, 0, 9, 4294967294, 4294967295, 0, 0]),
    // the gap where the detail stands; a detail that is the gap's
    (1, 2, 0, 2, "a", &[9, 1, 2, 1, 0]),
    (1, 2, 0, 2, "a", &[9, 1, 2, 1, 1]),
    (1, 2, 0, 2, "a", &[9, 1, 2, 4294967295, 1]),
    // 23 comes before what the new text is refused for, and before 22
    (1, 2, 0, 2, "@", &[9, 1, 2, 0, 0]),
    (1, 2, 0, 2, "\"\\q\"", &[9, 1, 2, 0, 0]),
    (1, 2, 0, 2, "a b", &[9, 1, 2, 0, 0]),
    (1, 2, 0, 2, "a b", &[9, 1, 2, 0, 1]),
    // entries that no text has, none of which is kept: the starts meet and the gaps do not, at one entry and at two, and the next agree
    (
        6,
        9,
        4,
        6,
        "[7, /*8,*/ 9]",
        &[3, 0, 1, 0, 0, 11, 1, 2, 5, 0, 7, 2, 3, 0, 0, 9, 5, 7, 0, 2, 11, 7, 8, 5, 0, 4, 8, 9, 0, 0],
    ),
    (4, 7, 1, 1, "a/**/ b c d", &[9, 0, 1, 0, 0, 9, 2, 4, 0, 1, 9, 4, 5, 0, 0, 9, 6, 7, 0, 1]),
    // an entry is missing, so that the next one's gap is too long
    (3, 7, 1, 1, "a b c d", &[9, 0, 1, 0, 0, 9, 4, 5, 0, 3, 9, 6, 7, 0, 1, 8, 8, 8, 8, 8]),
    (3, 7, 0, 0, "  a b c d", &[9, 2, 3, 0, 2, 9, 4, 5, 0, 1, 9, 6, 7, 0, 1, 8, 8, 8, 8, 8, 8]),
    (1, 5, 1, 1, "a  b c", &[9, 0, 1, 0, 0, 8, 8, 8, 8, 8, 8, 8, 8, 8, 8]),
    // the gap agrees and the start does not
    (3, 6, 1, 3, "a  b", &[9, 0, 1, 0, 0, 9, 1, 2, 0, 0, 9, 4, 5, 0, 2]),
    // a kind that is none of the text's, before one that is kept
    (3, 6, 2, 4, "a x b", &[9, 0, 1, 0, 0, 1, 2, 4, 0, 1, 9, 5, 6, 0, 1]),
    (3, 6, 2, 4, "a x  b", &[9, 0, 1, 0, 0, 1, 2, 4, 0, 1, 9, 5, 6, 0, 1]),
];

fn repair(lines: &mut Lines, asked: [u64; 4], new: &[u8], tape: &[u32]) {
    let [count, old_length, from, to] = asked;
    let repair = Repair { count, old_length, from, to, new: new.to_vec(), tape: tape.to_vec() };
    lines.add(|l| line::repair(l, &repair));
}

fn repairs(lines: &mut Lines) {
    for &(count, old_length, from, to, new, tape) in REPAIRS {
        repair(lines, [count, old_length, from, to], new.as_bytes(), tape);
    }
    for entry in 0..7 {
        for gap in taken_for_gap(SEVEN, entry) {
            repair(lines, [7, 9, 4, 6], b"[7, /*8,*/ 9]", &with_gap(SEVEN, entry, gap));
        }
    }
    for entry in 0..2 {
        for gap in taken_for_gap(TWO, entry) {
            repair(lines, [2, 5, 0, 5], b" c", &with_gap(TWO, entry, gap));
        }
    }
    // 2 comes before 23
    repair(lines, [1, 2, 0, 2], b"a\xff", &[9, 1, 2, 0, 0]);
}
