//! Escapes that are refused, for every call that reads one: each reason, which comes before which, and the places (change request 1).
use super::Lines;
use crate::edits::Edit;
use crate::line;
use crate::repairs::Repair;
use crate::tapes::WIDTH;

pub fn lines(lines: &mut Lines, call: u8) {
    match call {
        b'r' => read(lines),
        b'R' => with_rooms(lines),
        b'w' => walk(lines),
        b'i' => integers(lines),
        b'c' => contents(lines),
        b'C' => contents_of(lines),
        b'k' => structs(lines),
        b'p' => edits(lines),
        b'P' => repairs(lines),
        _ => {}
    }
}

/// Each reason, 1 to 8, in the literals that can give it; the last two are refused in one or two of them only.
pub const EACH: &[&str] = &[
    r"\xg", r"\xC3\x!", r"\u{1", r"\q", r"\é", r"\xC3\x41", r"\u41", r"\u{}", r"\u{1234567}", r"\u{123456",
    r"\u{D800}", r"\u{41}", r"\x80",
];

/// Letters that begin no escape, of one byte to four; a line's end continues strings only.
pub const LETTERS: &[&str] = &[
    r"\a", r"\b", r"\e", r"\f", r"\v", r"\s", r"\1", r"\8", r"\N", r"\R", r"\T", r"\X41", r"\U{41}", r"\ ", r"\(",
    r"\{41}", r"\}", r"\/", r"\`", "\\\0", "\\\t", "\\\n", "\\\r", "\\\r\n", "\\\u{7f}", r"\ŵ", r"\·", "\\\u{85}",
    "\\\u{301}", r"\€", "\\\u{2028}", "\\\u{feff}", r"\𝄞", "\\\u{10ffff}",
];

/// `\x` with what is no digit first or second: neighbours of the digits in ASCII, and longer characters.
pub const DIGITS: &[&str] = &[
    r"\x", r"\x4", r"\xg1", r"\xG1", r"\x/1", r"\x:1", r"\x@1", r"\x`1", r"\x 1", r"\x-1", r"\x{41}", r"\x\x41",
    r"\xé1", r"\x€1", r"\x𝄞1", r"\x1g", r"\x1G", r"\x1/", r"\x1:", r"\x1@", r"\x1`", r"\x1 ", r"\x1_", r"\x1}",
    r"\x1\", r"\x1é", r"\x1€", r"\x1𝄞", r"\xfF", r"\xFf", r"\xaA", r"\x0g", r"\X4g",
];

/// `\x` one to five times: what forms no character, breaks off, or has a bad digit further on.
pub const RUNS: &[&str] = &[
    r"\x00", r"\x7F", r"\x7f", r"\x80", r"\xBF", r"\xC2", r"\xFF", r"\xC3\xA9", r"\xc3\xa9", r"\xC3\xA9\xA9",
    r"\xC3\x7F", r"\xC3\xC3\xA9", r"\xC0\x80", r"\xC1\xBF\x80\x80", r"\xE0\x80\x80", r"\xE0\x80\x80\x80", r"\xE2\x82",
    r"\xE2\x82\x41", r"\xE2\x82\x41\x41", r"\xE2\x41\x82\xAC", r"\xE2\x82\xAC\xAC", r"\xED\xA0\x80",
    r"\xED\xA0\x80\x80", r"\xED\x9F\xBF", r"\xF0\x9D\x84", r"\xF0\x9D\x84\x41", r"\xF0\x9D\x84\x9E",
    r"\xF0\x9D\x84\x9E\x9E", r"\xF4\x8F\xBF\xBF", r"\xF4\x90\x80\x80", r"\xF5\x80\x80\x80", r"\x80\x80",
    r"\x80\x80\x80", r"\x80\x80\x80\x80", r"\x80\x80\x80\x80\x80", r"\xFF\xFF\xFF\xFF\xFF", r"\xC3a", r"\xC3é",
    r"\xC3\", r"\xC3\n", r"\xC3\q", r"\xC3\X41", r"\xC3\u{A9}", r"\xC3\\xA9", "\\xC3\\\nxA9", r"\xC3 \xA9",
    r"\xE2\x82a", r"\xF0\x9D\x84\n", r"\xC3\x", r"\xC3\xA", r"\xC3\xg9", r"\xC3\x9g", r"\xC3\xé", r"\xC3\xA€",
    r"\xE2\x!2", r"\xE2\x82\x!", r"\xE2\x82\xA!", r"\xF0\x9D\x84\x!", r"\xF0\x9D\x84\x9!", r"\xF0\x9D\x84\x9𝄞",
    r"\x41\xg", r"\x41\xC3", r"\xC3\xA9\xC3", r"\xC3\xA9\q",
];

/// `\u` without its brace, and with none to seven digits, closed and not.
pub const BRACES: &[&str] = &[
    r"\u4", r"\u}", r"\u41}", r"\u(41)", r"\u[41]", r"\u {41}", r"\u\u{41}", r"\ué", r"\u𝄞", r"\u{", r"\u{1}",
    r"\u{12}", r"\u{123}", r"\u{1234}", r"\u{12345}", r"\u{012345}", r"\u{123456}", r"\u{0123456}", r"\u{0000000}",
    r"\u{12", r"\u{123", r"\u{1234", r"\u{12345", r"\u{012345", r"\u{1234567", r"\u{0}", r"\u{000000}", r"\u{}}",
    r"\u{ }", r"\u{}41}",
];

/// `\u` with what is no digit, from the first to behind the sixth.
const NO_DIGITS: &[&str] = &[
    r"\u{g}", r"\u{G}", r"\u{/}", r"\u{:}", r"\u{@}", r"\u{`}", r"\u{-1}", r"\u{+1}", r"\u{ 41}", r"\u{41 }",
    r"\u{4_1}", r"\u{_41}", r"\u{0x41}", r"\u{{41}}", r"\u{\u{41}}", r"\u{41\}", r"\u{41]", r"\u{41)", r"\u{é}",
    r"\u{€}", r"\u{𝄞}", r"\u{4é}", r"\u{1€}", r"\u{12𝄞}", r"\u{12345g}", r"\u{12345é}", r"\u{12345𝄞}", r"\u{123456g}",
    r"\u{123456é}", r"\u{123456𝄞}", r"\u{012345 }", "\\u{\n41}",
];

/// The limits of what is a character.
const LIMITS: &[&str] = &[
    r"\u{7F}", r"\u{80}", r"\u{FF}", r"\u{100}", r"\u{7FF}", r"\u{800}", r"\u{D7FF}", r"\u{d7ff}", r"\u{00D7FF}",
    r"\u{d800}", r"\u{00D800}", r"\u{00d800}", r"\u{DBFF}", r"\u{DC00}", r"\u{DFFF}", r"\u{dfff}", r"\u{dFfF}",
    r"\u{E000}", r"\u{e000}", r"\u{FFFF}", r"\u{10000}", r"\u{10FFFF}", r"\u{10ffff}", r"\u{10fFfF}", r"\u{110000}",
    r"\u{1FFFFF}", r"\u{200000}", r"\u{FFFFFF}", r"\u{ffffff}", r"\u{aBcDeF}", r"\u{ABCDEFA}", r"\u{D800",
    r"\u{110000", r"\u{D8000000}",
];

fn escapes() -> impl Iterator<Item = &'static str> {
    [EACH, LETTERS, DIGITS, RUNS, BRACES, NO_DIGITS, LIMITS].into_iter().flatten().copied()
}

/// The four literals, and the strings of attributes; `~` stands for the escape.
const LITERALS: &[&str] = &["\"~\"", "'~'", "b\"~\"", "b'~'"];
const ATTRIBUTES: &[&str] =
    &["#![type=\"~\"]", "# ! [ schema /**/ = \"a~\" ]", "#![enable(implicit_some)]#![type=\"~\"]", "#![type=b\"~\"]"];

/// Something before the literal, in characters of one to four bytes, and behind it; raw, in comments, not closed.
const AROUND: &[&str] = &[
    "a \"~\"", "é,'~'", "[\n\t\"€\", b\"~\"]", "/*𝄞*/b'~'", "//\"\n\"\\n~\"", "\"é\\u{e9}~é\"", "\"~", "'~", "b'~",
    "\"~\" \"\\q\"", "1 '~' @", "r#\"~\"#", "br\"~\"", "/*\"~\"*/", "'a~'", "b'a~'",
];

/// Each front of these is a text that ends there: inside an escape that is 6, unless a brace or one more `\x` is asked for.
const CHARS: &[&str] = &[r"'\u{10FFFF}'", r"'\u{D800}'", r"'\x7F'", r"'\u{é}'"];
const BYTES: &[&str] = &[r"b'\u{0D800}'", r"b'\xFF'"];
const STRINGS: &[&str] =
    &[r#""\"\u{10FFFF}""#, r#""\"\xF0\x9D\x84\x9E""#, r#"b"\"\u{123456}\xFF""#, r#""\"\𝄞""#, r#""\"\xC3\n""#];
const ATTRIBUTE: &str = r#"#![type="\"\u{1}\xC3\xA9"]"#;

fn put(whole: &str, escape: &str) -> String {
    whole.replace('~', escape)
}

/// Every front of the text, but none that ends inside a character.
fn fronts(text: &str) -> impl Iterator<Item = &str> {
    (1..=text.len()).filter_map(|end| text.get(..end))
}

fn read(lines: &mut Lines) {
    let mut text = |text: &str| lines.add(|l| line::read(l, text.as_bytes()));
    for escape in escapes() {
        LITERALS.iter().for_each(|whole| text(&put(whole, escape)));
    }
    for escape in EACH {
        ATTRIBUTES.iter().chain(AROUND).for_each(|whole| text(&put(whole, escape)));
    }
    let cut_short = [CHARS, BYTES, STRINGS, &[ATTRIBUTE]].into_iter().flatten();
    cut_short.for_each(|whole| fronts(whole).for_each(&mut text));
}

/// The reading's refusal comes before the room's.
fn with_rooms(lines: &mut Lines) {
    for escape in EACH {
        for (whole, room) in [("\"~\"", 0), ("'~'", 4), ("b\"~\"", 5), ("b'~'", 0), ("[a, \"~\"]", 10), ("a b '~'", 5)]
        {
            lines.add(|l| line::read_into(l, room, put(whole, escape).as_bytes()));
        }
    }
}

/// And before the walk's.
fn walk(lines: &mut Lines) {
    let asked = [
        (128, "[\"~\"]"),
        (128, "(a: '~')"),
        (0, "[b\"~\"]"),
        (129, "b'~'"),
        (1, "]] \"~\""),
        (128, "#![type=\"~\"]1"),
    ];
    for escape in EACH {
        for (limit, whole) in asked {
            lines.add(|l| line::walk(l, limit, put(whole, escape).as_bytes()));
        }
    }
}

fn integers(lines: &mut Lines) {
    let mut text = |width: u64, place: usize, text: &str| {
        lines.add(|l| line::integer(l, width, place as u64, text.as_bytes()));
    };
    escapes().for_each(|escape| text(5, 0, &format!("b'{escape}'")));
    for escape in EACH {
        (1..=8).filter(|width| *width != 5).for_each(|width| text(width, 0, &format!("b'{escape}'")));
        text(5, 0, &format!("b'{escape}"));
        text(5, 0, &format!("-b'{escape}'"));
        text(5, "é: ".len(), &format!("é: b'{escape}'"));
    }
    BYTES.iter().for_each(|whole| fronts(whole).for_each(|front| text(5, 0, front)));
}

fn contents(lines: &mut Lines) {
    let mut text = |kind: u32, start: usize, text: &str| {
        lines.add(|l| line::contents(l, kind, start as u32, text.as_bytes()));
    };
    for escape in [EACH, RUNS, BRACES].into_iter().flatten() {
        text(14, 0, &format!("\"{escape}\""));
        text(15, 0, &format!("b\"{escape}\""));
    }
    for escape in EACH {
        text(14, "(é, ".len(), &format!("(é, \"€{escape}\")"));
        text(15, "'\\q' ".len(), &format!("'\\q' b\"\\xFF{escape}\""));
        text(14, 0, &format!("\"a\" \"{escape}\""));
        text(14, 0, &format!("r\"{escape}\""));
        text(13, 0, &format!("'{escape}'"));
        text(11, 0, &format!("b'{escape}'"));
        text(16, 0, &format!("#![type=\"{escape}\"]"));
    }
    for whole in STRINGS {
        let kind = if whole.starts_with('b') { 15 } else { 14 };
        fronts(whole).for_each(|front| text(kind, 0, front));
    }
}

/// Numbers of the tape before the entry.
const BEFORE: &[u32] = &[9, 0, 1, 0, 0];

/// 28, 23 and 27 come before the escape, 22 behind it.
fn contents_of(lines: &mut Lines) {
    let mut text = |entry: u64, count: u64, buffer: u64, text: &str, row: [u32; WIDTH]| {
        lines.add(|l| line::contents_of(l, entry, count, buffer, text.as_bytes(), &[BEFORE, &row].concat()));
    };
    for escape in EACH {
        let (string, bytes) = (format!("a \"{escape}\""), format!("a b\"{escape}\""));
        text(1, 2, 9, &string, [14, 2, 0, 0, 0]);
        text(1, 2, 0, &string, [14, 2, 0, 0, 0]);
        text(1, 2, 0, &bytes, [15, 2, 0, 0, 0]);
        text(1, 2, 9, &bytes, [14, 3, 0, 0, 0]);
    }
    for (entry, count, row) in [
        (2, 2, [14, 2, 0, 0, 0]),
        (1, 3, [14, 2, 0, 0, 0]),
        (1, 2, [13, 2, 0, 0, 0]),
        (1, 2, [14, 99, 0, 0, 0]),
        (0, 2, [14, 2, 0, 0, 0]),
    ] {
        text(entry, count, 9, "a \"\\q\"", row);
    }
}

/// In a struct; a char or byte literal that fails is stepped over, and so is what stands behind the first comma.
const STRUCTS: &[&str] = &[
    "(\"~\")", "(b\"~\")", "('~')", "(b'~')", "('~',\"~\")", "(1,\"~\")", "(a \"~\")", "(a:\"~\")", "([é,\"~\"],1)",
    "(/*\"~\"*/\"~\"", "(\"\\n~\",1)", "(r\"~\",1)",
];

fn structs(lines: &mut Lines) {
    let mut text = |modes: [u64; 2], place: usize, text: &str| {
        lines.add(|l| line::struct_kind(l, modes, place as u64, text.as_bytes()));
    };
    for escape in EACH {
        STRUCTS.iter().for_each(|whole| text([0, 1], 0, &put(whole, escape)));
        text([1, 1], 0, &format!("\"{escape}\")"));
        text([1, 1], 0, &format!("b\"{escape}\")"));
        text([0, 0], 0, &format!("(\"{escape}\")"));
        text([0, 1], "Lôck".len(), &format!("Lôck(\"{escape}\")"));
    }
    for whole in STRINGS {
        fronts(whole).for_each(|front| text([0, 1], 0, &format!("({front}")));
    }
}

/// Text, cut, what is put there.
const EDITS: &[(&str, usize, usize, &str)] = &[
    // behind the cut, where what was none becomes an escape
    ("r\"\\q\", a", 0, 1, ""),
    ("r\"\\q\", a", 0, 1, "b"),
    ("r#\"\\u{}\"#", 0, 2, ""),
    ("br\"\\u41\"", 1, 2, ""),
    ("/*\"\\q\"*/ a", 0, 2, ""),
    ("//\"\\u41\"\na", 0, 2, ""),
    ("a /* \"\\xg\" */", 2, 4, "/**/"),
    ("\"a\" /* \\u{} */ \"b\"", 2, 3, ""),
    ("'\"' /* \\u{110000} \" */", 0, 1, ""),
    ("\"\\\\q\" a", 1, 2, ""),
    ("\"\\\\u{D800}\" a", 2, 3, ""),
    ("\"\\\\q\" a", 1, 1, "\\"),
    // or another literal's
    ("b\"\\xFF\", a", 0, 1, ""),
    ("b\"\\xC3\\x41\", a", 0, 1, ""),
    ("b'\\xFF', a", 0, 1, ""),
    ("'\\u{41}', a", 0, 0, "b"),
    ("'\\u{e9}', a", 0, 0, "b"),
    ("'\\x7F', a", 0, 0, "b"),
    ("\"\\u{41}\", a", 0, 0, "b"),
    ("\"\\xC3\\xA9\", a", 0, 1, "'"),
    ("\"\\\n\", a", 0, 3, "'\\\n"),
    // escapes that are spoilt
    ("\"\\n\" a", 2, 3, "é"),
    ("\"\\n\" a", 2, 3, ""),
    ("\"\\n\" a", 2, 2, "\r"),
    ("\"a\\\nb\" c", 3, 4, ""),
    ("\"a\\\r\nb\" c", 4, 5, ""),
    ("'\\x7F' a", 3, 5, "80"),
    ("'\\x7F' a", 4, 5, ""),
    ("'\\x7F' a", 5, 6, ""),
    ("b'\\x7F' a", 4, 6, "FF"),
    ("b'\\x7F' a", 3, 4, "u"),
    ("b'\\x7F' a", 3, 6, "u{7F}"),
    ("\"\\xC3\\xA9\" a", 5, 5, "a"),
    ("\"\\xC3\\xA9\" a", 5, 6, ""),
    ("\"\\xC3\\xA9\" a", 1, 5, ""),
    ("\"\\xC3\\xA9\" a", 1, 1, "\\xC3"),
    ("\"\\xF0\\x9D\\x84\\x9E\" a", 11, 13, "41"),
    ("\"\\xF0\\x9D\\x84\\x9E\" a", 13, 17, ""),
    ("\"\\u{D7FF}\" a", 4, 8, "D800"),
    ("\"\\u{D7FF}\" a", 5, 6, "8"),
    ("\"\\u{E000}\" a", 4, 6, "D8"),
    ("\"\\u{10FFFF}\" a", 5, 6, "1"),
    ("\"\\u{10FFFF}\" a", 4, 4, "0"),
    ("\"\\u{10FFFF}\" a", 10, 11, ""),
    ("\"\\u{10FFFF}\" a", 9, 11, ""),
    ("\"\\u{10FFFF}\" a", 4, 10, ""),
    ("\"\\u{10FFFF}\" a", 3, 4, ""),
    ("\"\\u{10FFFF}\" a", 5, 6, "€"),
    // and those that are not
    ("\"\\u{10FFFF}\" a", 4, 6, "0"),
    ("\"\\u{10FFFF}\" a", 1, 2, ""),
    ("\"\\u{10FFFF}\" a", 0, 0, "r"),
    ("\"\\xC3\\xA9\" a", 0, 0, "b"),
    ("\"\\xC3\\xA9\" a", 9, 9, "\\n"),
    // the text ends early
    ("'\\u{e9}'", 3, 8, ""),
    ("'\\u{e9}'", 2, 8, ""),
    ("'\\u{0000e9}'", 10, 12, ""),
    ("b'\\x41'", 5, 7, ""),
    ("\"\\\"\\u{e9}\"", 5, 10, ""),
    // two at once: the first is told, wherever it is
    ("[\"a\", '\\n']", 2, 3, "\\q\", \"\\u{}"),
    ("[\"a\", '\\n']", 2, 8, "a\", '\\xg"),
    ("[\"a\", '\\n', \"\\t\"]", 14, 15, "u41\", \"\\u{}"),
    ("#![type=\"s\"] \"a\"", 9, 10, "\\xC3"),
    ("#![type=\"s\"] \"a\"", 14, 15, "\\xC3"),
    ("#![type=\"\\n\"] \"a\"", 10, 11, "u{D800}"),
];

/// Texts of which each byte is taken out, and before each byte of which each of some pieces is put.
const EVERYWHERE: &[&str] = &["a,\"\\u{e9}\"", "b'\\x41',c", "\"\\xC3\\xA9\""];
const PIECES: &[&str] = &["\\", "x", "u{", "}", "g", "0", "é"];

/// Old texts: refused for most escapes, though the edit mends them.
const OLD: &[&str] = &["[\"~\"]", "é, '~'", "b\"\\n~\"", "a b'~'", "#![schema=\"~\"]"];

fn edits(lines: &mut Lines) {
    let mut edit = |text: &str, from: usize, to: usize, put: &str| {
        let edit = Edit { text: text.into(), from, to, put: put.into() };
        lines.add(|l| line::edit(l, &edit));
    };
    EDITS.iter().for_each(|&(text, from, to, put)| edit(text, from, to, put));
    for text in EVERYWHERE {
        (0..text.len()).for_each(|at| edit(text, at, at + 1, ""));
        for at in 0..=text.len() {
            PIECES.iter().for_each(|piece| edit(text, at, at, piece));
        }
    }
    for escape in EACH {
        edit("(a: \"b\")", 5, 6, escape);
        edit("(a: \"b\")", 5, 5, escape);
        edit("['b', 1]", 2, 3, escape);
        edit("1, b\"b\"", 6, 6, escape);
        edit("1, b'b'", 5, 6, escape);
        edit("#![type=\"\"] 1", 9, 9, escape);
        edit("é \"é\", \"é\"", 6, 6, escape);
        for whole in OLD {
            let at = whole.find('~').expect("each has its place");
            edit(&put(whole, escape), at, at + escape.len(), "n");
        }
    }
}

/// Old text with its tape, where in it an escape is put, and in the place of how many bytes.
const TAPES: &[(&str, &[u32], usize, usize)] = &[
    ("a \"\"", &[9, 0, 1, 0, 0, 14, 2, 4, 0, 1], 3, 0),
    ("'b',a", &[13, 0, 3, 98, 0, 7, 3, 4, 0, 0, 9, 4, 5, 0, 0], 1, 1),
    ("é b\"b\"", &[9, 0, 2, 0, 0, 15, 3, 7, 1, 1], 5, 0),
    ("[b'b']", &[3, 0, 1, 0, 0, 11, 1, 5, 5, 0, 4, 5, 6, 0, 0], 3, 1),
    ("#![type=\"\"]", &[16, 0, 11, 0, 0], 9, 0),
];

fn repairs(lines: &mut Lines) {
    for escape in EACH {
        for &(old, tape, at, cut) in TAPES {
            for behind in [&[][..], &[7; 6]] {
                let repair = Repair {
                    count: (tape.len() / WIDTH) as u64,
                    old_length: old.len() as u64,
                    from: at as u64,
                    to: (at + cut) as u64,
                    new: [&old[..at], escape, &old[at + cut..]].concat().into_bytes(),
                    tape: [tape, behind].concat(),
                };
                lines.add(|l| line::repair(l, &repair));
            }
        }
        // room for one entry, which comes last; a kind that is none, which comes first
        for count in [0, 1] {
            let new = format!("a '{escape}'").into_bytes();
            let repair = Repair { count, old_length: 1, from: 0, to: 1, new, tape: vec![0, 0, 1, 0, 0] };
            lines.add(|l| line::repair(l, &repair));
        }
    }
}
