//! Reading while a text arrives (change request 3): the table of the rule cut everywhere, hostile texts cut within all that has more than one byte, what each
//! byte decides, the limits; and calls over states in order and out of it, each number by itself.
use super::{reasons, skip, utf8, Lines};
use crate::arrivals::{Call, Cut, State, BEGUN, BLOCK, HELD, LARGEST, LINE, SLASH};
use crate::limits::sized;
use crate::line;
use crate::tapes::{PAST_64_BITS, WIDTH};

pub fn lines(lines: &mut Lines, call: u8) {
    match call {
        b'q' => in_pieces(lines),
        b'Q' => calls(lines),
        _ => {}
    }
}

/// The short texts of the rule's table.
const RULE: &[&[u8]] = &[
    b"Lock(id: 7)", b"a b", b"a\"x y\"", b"'a'b'c'", b"a\xc2\x85b\xc2\x85c ", b"r#\"a\"# ", b"r\"a\"", b"300a,",
    b"300ai8 ", b"\"\\q", b"\"\\q\"", b"\"\\q, b\"", b"\"\\\"\\q!", b"'ab'", b"b'\\u{41}'", b"*a", b"a*",
    b"\xe2\x82\xaca", b"a\xe2\x82\xac ", b"/x", b"a/ ", b"/*/*/", b"#![enable(foo)]", b"#![ foo ",
    b"#![enable(implicit_some]/x ", b"x\xc3 y", b"x \xe2\x80", b"x\x80", b"a#![enable(implicit_some)]/*",
];

/// What waits for a later byte, what looks like an end and is none, and what is told late.
const HOSTILE: &[&str] = &[
    "", "a", " ", "a,b", "a:b", "(a)[b]{c}", "a\u{b}b\u{c}c\u{85}d\u{2028}e,", "a\"/\"", "a\"xy\"b'z'", "a'/'",
    "a\"b c\"d e", "\"a\"\"b\"\"c\"", "r#\"a\"#r#\"b\"#", "r#\"a\"#\"b\"", "r#\"a\"#x\"c\"", "r##\"a\"#\"##,",
    "r##\"a\"##b ", "r#\"a\"\"#/", "br#\"a\"#\n", "br\"a\"br##\"\"#\"## ", "r#a r#b.c,", "r#\"\"#", "r##", "r## ",
    "r#", "r# ", "r#(", "r#\u{85}", "br#", "br#a ", "br# ", "b\"a b\"", "b\"\\xff\"c ", "b'a'b'\\n'", "b'", "b' '",
    "b'ab'", "b''' ", "b'é'", "'''", "'\\''", "''a ", "'\"'\"'\"", "'a", "'a ", "'ab", "'é'", "'€'", "'𝄞'", "'é",
    "'\\u{e9}'", "'\\u{41'", "'\\u{41'!", "'\\u", "'\\u{", "'\\xC3' ", "\"\\\"", "\"\\\" \"", "\"\\\\\"",
    "\"\\\\\\\"\"", "\"\\n\"", "\"\\\n  a\"", "\"\\\r\n\tb\"", "\"\\u{20AC}\"", "\"\\xC3\\xA9\"", "\"\\xC3\\x\"",
    "\"\\xC3\\x\",", "\"\\\"\\xC3\\", "\"\\\"\\xC3\\x4 ", "\"\\\"\\u{4 ", "\"\\\"\\u4 ", "\"a, b", "\"a\\", "\"a\\\"",
    "\"\\q a b c\" d", "300", "300a", "300a ", "300ai8", "300ai8x ", "300ai8é ", "256u8", "256u8,", "256u8x,", "1.5.5",
    "1.5.5 ", "1.5f32 ", "1.5f32x ", "1e5", "1e+ ", "0x", "0x ", "0xg", "0xg ", "0x_ ", "0b2", "0b2 ", "-", "- ",
    "-inf ", "-infx ", "+NaN,", "inf", "inf ", "inff32/", "..", ".. ", "1.. ", "._ ", "1._5 ", "-é ",
    "99999999999999999999a ", "18446744073709551616 ", "a/", "a//", "a/*", "a/**/", "a/**/b", "a//b\nc ", "a/x", "a/é",
    "a/\u{85}", "/", "//", "/*", "/**", "/***/a ", "/*/a*/b*/", "/*/**/*/a,", "/*//*/*/a ", "// /*\na */",
    "/*\"*/\"*/\"", "/* é */é ", "//é\né ", "a€", "a€b ", "a €", "a\u{85}€ ", "€", "\u{feff}a", "\u{feff}", "×a",
    "a×b,", "·", "a· ", "\\", "a\\", "a\\b ", "a \\", "\0", "a\0", "\u{7f}", "a@b", "a;", "(;", "*/", "a*/", "a#",
    "a# ", "a#b", "a#b ", "#", "# ", "#!", "#!x", "#[", "#![", "#![]", "#![ ]", "#! [ enable ( implicit_some ) ] ",
    "#![enable(implicit_some,)]a ", "#![enable(implicit_some implicit_some)]", "#![enable(implicit_some.)]",
    "#![enable(implicit_some,,)]", "#![enable()]", "#![enable(r#)]", "#![enable(é)]", "#![enableé]",
    "#![enable(nopé)]", "#![enable(implicit_some)", "#![enable(implicit_some) !", "#![enable(implicit_some)/**/]/",
    "#![enable(implicit_some)]//", "#![enable(implicit_some)]/x", "#![type=\"a\"]", "#![type = \"a]\"]b",
    "#![type=\"a\"x]", "#![type=\"\\q\"]", "#![type=\"\\q", "#![type=r#\"]\"#]", "#![type=a]", "#![type]",
    "#![schema=\"s\"]#![enable(implicit_some)]1", "#/", "#//\n!", "#/*]*/", "#/x ", "#![/*",
    "#![enable/*(*/(/*)*/implicit_some/*,*/)]", "1#![type=\"\"]", "Tŷ:dŵr,", "é", "éa ", "𐌰𐌱(", "r#é·,", "1é ",
    "1u8é ", "a\u{301}b ", "inf\u{200d} ", "b\u{85}\"a\"", "r\u{85}\"a\"", "b \"a\"", "[1,2,\n3]", "{\"a\": -1.5e3}",
];

/// A text cut nowhere, behind every byte, and in pieces of two.
fn three_ways(lines: &mut Lines, text: &[u8]) {
    for lengths in [vec![], vec![1; text.len().saturating_sub(1)], vec![2; text.len() / 2]] {
        cut(lines, text, &lengths);
    }
}

/// A text cut behind every byte.
fn by_bytes(lines: &mut Lines, text: &[u8]) {
    cut(lines, text, &vec![1; text.len().saturating_sub(1)]);
}

fn cut(lines: &mut Lines, text: &[u8], lengths: &[u32]) {
    lines.add(|l| line::pieces(l, &Cut { text: text.to_vec(), lengths: lengths.to_vec() }));
}

fn in_pieces(lines: &mut Lines) {
    for text in RULE {
        three_ways(lines, text);
        (0..=text.len() as u32).for_each(|length| cut(lines, text, &[length]));
    }
    HOSTILE.iter().for_each(|text| three_ways(lines, text.as_bytes()));
    comments(lines);
    escapes(lines);
    utf8::texts("a ", " b").iter().for_each(|text| by_bytes(lines, text));
    utf8::texts("/*", "*/").iter().for_each(|text| by_bytes(lines, text));
    each_byte(lines);
    each_character(lines);
    empty_pieces(lines);
    held(lines);
    largest(lines);
    NO_PIECES.iter().for_each(|l| lines.plain(l));
}

/// Comments between entries, cut within every mark.
fn comments(lines: &mut Lines) {
    for comment in skip::BLOCK_COMMENTS.iter().chain(skip::LINE_COMMENTS).chain(skip::REFUSED) {
        by_bytes(lines, format!("a{comment}b ").as_bytes());
    }
    let deep = format!("{}{}a,", "/*".repeat(40), "*/".repeat(40));
    three_ways(lines, deep.as_bytes());
    cut(lines, deep.as_bytes(), &[79, 80, 1]);
}

/// Escapes cut everywhere: with the quote that a string waits for, and behind a quote that has come.
fn escapes(lines: &mut Lines) {
    let all = [reasons::EACH, reasons::LETTERS, reasons::DIGITS, reasons::RUNS, reasons::BRACES].concat();
    for escape in all {
        by_bytes(lines, format!("\"{escape}\" a,").as_bytes());
        by_bytes(lines, format!("\"\\\"{escape}a b").as_bytes());
        by_bytes(lines, format!("'{escape}'a b").as_bytes());
    }
    for escape in reasons::EACH {
        by_bytes(lines, format!("b'{escape}'a b").as_bytes());
        by_bytes(lines, format!("b\"{escape}\"a b").as_bytes());
        by_bytes(lines, format!("#![type=\"{escape}\"]a b").as_bytes());
    }
}

/// Each ASCII byte alone, behind a name, and behind what is refused as soon as it stops: what starts nothing, what decides, what stops.
fn each_byte(lines: &mut Lines) {
    for byte in 0..=0x7f {
        by_bytes(lines, &[byte]);
        by_bytes(lines, &[b'a', byte]);
        by_bytes(lines, &[b'"', b'\\', b'"', b'\\', b'q', byte]);
        by_bytes(lines, &[b'a', 0xe2, 0x82, 0xac, byte]);
        by_bytes(lines, &[b'/', byte]);
    }
}

/// Whitespace of every kind, what is like it, and characters of names: between, alone, and behind a `/`.
fn each_character(lines: &mut Lines) {
    for c in skip::BLANKS.chars().chain(skip::NO_BLANKS.chars()).chain("éŵ字𐌰·\u{301}\u{200d}×€𝄞\u{10ffff}".chars())
    {
        by_bytes(lines, format!("a{c}b{c} ").as_bytes());
        by_bytes(lines, format!(" {c}a,").as_bytes());
        by_bytes(lines, format!("/{c}").as_bytes());
    }
}

/// Pieces of nothing, before, between and behind; before a refusal and behind it.
fn empty_pieces(lines: &mut Lines) {
    for text in ["", "a", "a b,", "a*b", "\"\\q\" ", "/x", "a\u{85}b"] {
        let length = text.len() as u32;
        for lengths in [vec![0], vec![0, 0], vec![length], vec![length, 0], vec![0, length, 0, 0], vec![0; 9]] {
            cut(lines, text.as_bytes(), &lengths);
        }
        let apart: Vec<u32> = (0..length).flat_map(|_| [0, 1]).collect();
        cut(lines, text.as_bytes(), &apart);
    }
}

/// Front and filling of something that is undecided however long it is, and what stands behind it: the front and the filling have 4,093 to 4,097 bytes.
const UNDECIDED: &[(&str, &str, &str)] = &[
    ("", "n", " "),
    ("", "n", ""),
    ("", "n", "\u{85}"),
    ("", "é", ","),
    ("\"", "s", "\""),
    ("\"", "s", "\\q\"!"),
    ("\"", "s ", "\", a"),
    ("r#\"", "s", "\"# "),
    ("'\\u{", "0", "' "),
    ("0x", "g", " "),
    ("a", "\u{85}", "b "),
    ("#![", " ", "x "),
    ("a\"", "s", "\""),
];

/// The same behind nothing, and behind an entry and a gap, cut right before the 4,097th byte from its start.
fn held(lines: &mut Lines) {
    for (front, filling, back) in UNDECIDED {
        for size in HELD - 3..=HELD + 1 {
            let long = sized(front, filling, "", size);
            let long = String::from_utf8(long).expect("a text").trim_end_matches(' ').to_string();
            if long.len() + back.len() >= HELD - 1 {
                cut(lines, format!("{long}{back}").as_bytes(), &[HELD as u32 - 1, 1]);
            }
        }
    }
    let name = "n".repeat(HELD);
    cut(lines, format!("a /* */{name} ").as_bytes(), &[7, HELD as u32]);
    cut(lines, format!("a\u{85}{name} ").as_bytes(), &[7, HELD as u32 - 7]);
    cut(lines, format!("a \u{85}{} ", &name[1..]).as_bytes(), &[HELD as u32 + 3]);
    cut(lines, [name[1..].as_bytes(), b"\xc3\xa9 "].concat().as_slice(), &[HELD as u32]);
    cut(lines, [name[1..].as_bytes(), b"\xff"].concat().as_slice(), &[HELD as u32]);
    cut(lines, [name.as_bytes(), b"\xff"].concat().as_slice(), &[HELD as u32]);
    by_bytes(lines, format!("{} ", &name[1..]).as_bytes());
    for (front, filling, back) in [("/*", "c", "*/a "), ("//", "c", "\na "), ("", "\u{85}", "a "), ("", " ", "a ")] {
        cut(lines, &sized(front, filling, back, 5_002), &[2_000, 3_001]);
    }
}

/// Texts of 65,535 to 65,537 bytes: decided, undecided, open, refused, cut off or bad at their end.
fn largest(lines: &mut Lines) {
    let size = LARGEST as usize;
    for (text, cuts) in [
        (sized("", " ", "a", size - 1), vec![]),
        (sized("", " ", "a", size), vec![60_000]),
        (sized("", " ", "a", size + 1), vec![LARGEST as u32]),
        (sized("", " ", "a ", size + 1), vec![LARGEST as u32]),
        (sized("/*", "/*", "", size), vec![30_000, 1]),
        (sized("/*", "c", "*/a", size), vec![LARGEST as u32 - 1]),
        (sized("//", "c", "", size + 1), vec![1, 1]),
        (sized("", "a,", "\"", size), vec![3]),
        ([sized("", " ", "", size - 1), vec![0xc3]].concat(), vec![]),
        ([sized("", " ", "", size), vec![0xff]].concat(), vec![]),
        (sized("", " ", &"n".repeat(HELD), size), vec![LARGEST as u32]),
        (sized("", " ", &"n".repeat(HELD + 1), size + 1), vec![LARGEST as u32]),
    ] {
        cut(lines, &text, &cuts);
    }
}

const NO_PIECES: &[&str] = &[
    "q", "q ", "q -", "q - ", "q 61", "q - 6", "q - 4A", "q - zz", "q - 61 ", "q - 61 61", "q  - 61", "q -  61",
    "q  61", "q 2 61", "q 1,1 61", "q 0,0,2 61", "q 1 -", "q 1, 61", "q ,1 61", "q 0,,1 61", "q -1 61", "q -,1 61",
    "q -- 61", "q 1-1 6161", "q 1;1 6161", "q 0x1 61", "q a 61", "q 4294967296 61", "q 4294967297 61",
    "q 4294967295,2 61", "q 18446744073709551615,2 61", "q 18446744073709551616 61", "q 00,01 61", "q 0 -", "q 0,0 -",
    "qq - 61", " q - 61",
];

/// The room of a tape that has room for all.
const ENOUGH: u64 = (WIDTH * 65_536) as u64;

/// A state of which so many bytes are taken, all behind the last entry's end, which is `former`.
fn behind(former: u64, taken: u64) -> State {
    State { taken, former, ..State::default() }
}

/// A call with a piece, and room enough.
fn with(state: State, kept: &[u8], piece: &[u8]) -> Call {
    Call { numbers: ENOUGH, state, kept: kept.to_vec(), piece: Some(piece.to_vec()) }
}

fn at_the_end(call: Call) -> Call {
    Call { piece: None, ..call }
}

fn calls(lines: &mut Lines) {
    let mut ask = |call: Call| lines.add(|l| line::piece(l, &call));
    modes(&mut ask);
    parts(&mut ask);
    begun(&mut ask);
    rooms(&mut ask);
    refusals(&mut ask);
    orders(&mut ask);
    limits(&mut ask);
    NO_CALLS.iter().for_each(|l| lines.plain(l));
}

/// Every gap: none, a `/`, a line, and blocks with each last byte, alone and with others around.
fn gaps() -> Vec<State> {
    let mut all = vec![behind(3, 40); 3];
    (all[1].gap, all[2].gap) = (SLASH, LINE);
    for level in [0, 1, 2, 18, 40] {
        for last in [0, u64::from(b'*'), u64::from(b'/')] {
            all.push(State { gap: BLOCK, level, last, ..behind(3, 40) });
        }
    }
    all
}

/// Each gap and what goes on with it.
const BEHIND_GAPS: &[&[u8]] = &[
    b"", b" ", b"\n", b"/", b"*", b"a", b"1,", b"\"", b"'", b"#", b"\\", b"\xc2\x85", b"\xc3\xa9", b"\xe2\x82\xac",
    b"\xc3", b"\x80", b"*/", b"/*", b"//", b"**/", b"/*/", b"*/*/", b"/**/", b"x*/a ", b"*/*/a,", b"\na ",
    b"//\n/**/a(", b"*x/", b"/x*/", b"*\xc3\xa9/", b"*/*/*/*/ a ",
];

fn modes(ask: &mut impl FnMut(Call)) {
    for state in gaps() {
        BEHIND_GAPS.iter().for_each(|piece| ask(with(state, b"", piece)));
        ask(at_the_end(with(state, b"", b"")));
    }
    for around in [1, 2, 255, 256, 1_000] {
        let state = State { gap: BLOCK, level: around, ..behind(0, 2_000) };
        let closed = "*/".repeat(around as usize + 1);
        ask(with(state, b"", format!("{closed}a ").as_bytes()));
        ask(with(state, b"", &closed.as_bytes()[2..]));
        ask(with(state, b"", format!("/*{closed}").as_bytes()));
        [&b"x"[..], b"*/", b"/*"].iter().for_each(|piece| ask(with(state, b"", piece)));
    }
}

/// The first bytes of characters, in each gap and behind what has begun: what makes them whole, what does not, and the end.
fn parts(ask: &mut impl FnMut(Call)) {
    for character in ["é", "\u{85}", "·", "€", "\u{2028}", "\u{feff}", "𝄞", "𐌰"] {
        let character = character.as_bytes();
        for part in 1..character.len() {
            let (kept, others) = character.split_at(part);
            for state in gaps().into_iter().take(7) {
                let state = State { part: part as u64, ..state };
                for piece in [others, &[others, b"/"].concat(), &others[1..], b"a", b"\xff", b""] {
                    ask(with(state, kept, piece));
                }
                ask(at_the_end(with(state, kept, b"")));
            }
            for begun in [b"a", b"\"", b"'"] {
                let state = State { part: part as u64, ..behind(0, 9) };
                let kept = [begun, kept].concat();
                ask(with(state, &kept, &[others, b" "].concat()));
                ask(with(state, &kept, b" "));
                ask(at_the_end(with(state, &kept, b"")));
            }
        }
    }
}

/// All that may have begun, and bytes that decide it, close it, stop it or go on with it.
fn begun(ask: &mut impl FnMut(Call)) {
    for kept in BEGUN {
        let state = behind(2, 4 + kept.len() as u64);
        for piece in [" ", "/", "\"", "'", "#", "!", "a", "\\", "é", "\u{85}", "]x"] {
            ask(with(state, kept.as_bytes(), piece.as_bytes()));
        }
        ask(at_the_end(with(state, kept.as_bytes(), b"")));
    }
}

/// Rooms around what is given: by entries, by entries and a refusal, by the end.
fn rooms(ask: &mut impl FnMut(Call)) {
    let state = behind(0, 1);
    for numbers in (0..=4 * WIDTH as u64 + 1).chain([PAST_64_BITS, 1 << 32, 1 << 63, u64::MAX]) {
        for piece in [&b",b "[..], b",b*c,", b"", b"b", b"\xff", b"/x"] {
            ask(Call { numbers, ..with(state, b"a", piece) });
        }
        for (kept, taken) in [("a\u{85}b\u{85}c", 7), ("a\u{85}b\"c", 6), ("a\u{85}b\u{85}c'", 8)] {
            ask(Call { numbers, ..at_the_end(with(behind(0, taken), kept.as_bytes(), b"")) });
            ask(Call { numbers, ..with(behind(0, taken), kept.as_bytes(), b"/") });
        }
    }
}

/// Every number of a refusal, with each reason and with places at and behind what is taken.
fn refusals(ask: &mut impl FnMut(Call)) {
    for number in 0..=35 {
        for reason in [0, 1, 2, 8, 9] {
            for place in [0, 1, 20, 21] {
                let state = State { number, reason, place, ..behind(9, 20) };
                ask(Call { numbers: 0, ..with(state, b"", b"a,b,") });
            }
        }
        ask(at_the_end(with(State { number, ..behind(9, 20) }, b"", b"")));
        ask(with(State { number, ..behind(9, 20) }, b"a", b" "));
    }
    for number in [255, 256, 257, 261, 286, 65_541, u64::from(u32::MAX)] {
        ask(with(State { number, ..behind(9, 20) }, b"", b"a"));
    }
    for gap in 0..=3 {
        ask(with(State { number: 5, gap, ..behind(9, 20) }, b"", b"a"));
        ask(with(State { number: 5, gap, part: 1, ..behind(9, 20) }, b"\xc3", b"a"));
    }
}

/// Each number of states in order, changed by itself. A part is changed only to what is out of order.
fn orders(ask: &mut impl FnMut(Call)) {
    let refused = State { number: 13, place: 20, reason: 8, ..behind(20, 20) };
    let block = State { gap: BLOCK, level: 20, last: 42, part: 1, ..behind(19, 20) };
    let line = State { gap: LINE, ..behind(20, 20) };
    for (state, kept) in
        [(behind(18, 20), &b"ab"[..]), (behind(20, 20), b""), (refused, b""), (block, b"\xc3"), (line, b"")]
    {
        for nth in 0..9 {
            for number in [
                0,
                1,
                2,
                3,
                4,
                5,
                8,
                9,
                17,
                18,
                19,
                20,
                21,
                22,
                30,
                31,
                42,
                47,
                255,
                256,
                65_536,
                65_537,
                u64::from(u32::MAX),
            ] {
                let mut state = state;
                *state.number_mut(nth) = number;
                if nth != 1 || number > kept.len() as u64 {
                    ask(with(state, kept, b"/ "));
                }
            }
        }
    }
    for kept in [&b"abc"[..], b"a", b""] {
        for former in 0..=4 {
            (0..=4).for_each(|taken| ask(with(behind(former, taken), kept, b" ")));
        }
    }
}

/// What is held and what is taken, at the limits and one further.
fn limits(ask: &mut impl FnMut(Call)) {
    for kept in [HELD - 1, HELD, HELD + 1] {
        for (taken, piece) in [
            (kept as u64, &b" "[..]),
            (LARGEST, b" "),
            (LARGEST, b""),
            (LARGEST - 1, b"nn"),
            (5_000, b"n,"),
            (kept as u64 - 1, b" "),
        ] {
            ask(with(behind(0, taken), &b"n".repeat(kept), piece));
        }
        ask(at_the_end(with(behind(0, LARGEST), &b"n".repeat(kept), b"")));
    }
    let string = [b"\"".as_slice(), &b"s".repeat(HELD - 2), b"\xc3"].concat();
    for piece in [&b"\xa9\""[..], b"\"", b"\xa9", b""] {
        ask(with(State { part: 1, ..behind(0, 9_000) }, &string, piece));
    }
    for taken in [LARGEST - 1, LARGEST, LARGEST + 1] {
        for gap in [0, SLASH, LINE, BLOCK] {
            let state = State { gap, ..behind(7, taken) };
            for piece in [&b""[..], b"*", b"**", b"\n\n", b"\xff", b"\xc3\xa9", b"*/\xff"] {
                ask(with(state, b"", piece));
            }
            ask(at_the_end(with(state, b"", b"")));
        }
        for level in [taken - 1, taken, taken + 1] {
            ask(with(State { gap: BLOCK, level, ..behind(7, taken) }, b"", b"*/"));
        }
        ask(with(behind(taken, taken), b"", b""));
        ask(with(behind(taken - 1, taken), b"a", b" "));
        ask(at_the_end(with(behind(taken - 1, taken), b"a", b"")));
    }
}

const NO_CALLS: &[&str] = &[
    "Q", "Q ", "Q 5", "Q 5 0,0,0,0,0,0,0,0,0", "Q 5 0,0,0,0,0,0,0,0,0 -", "Q 5 0,0,0,0,0,0,0,0,0 - ",
    "Q 5 0,0,0,0,0,0,0,0,0 - - -", "Q 5 0,0,0,0,0,0,0,0,0 - end ", "Q 5 0,0,0,0,0,0,0,0,0 - end end",
    "Q 5 0,0,0,0,0,0,0,0,0 end -", "Q 5 0,0,0,0,0,0,0,0,0 - END", "Q 5 0,0,0,0,0,0,0,0,0 - en",
    "Q 5 0,0,0,0,0,0,0,0,0 - ends", "Q 5 0,0,0,0,0,0,0,0,0 end", "Q 5 0,0,0,0,0,0,0,0 - 61",
    "Q 5 0,0,0,0,0,0,0,0,0,0 - 61", "Q 5 - - 61", "Q 5  - 61", "Q 5 0,0,0,0,0,0,0,0,0, - 61",
    "Q 5 ,0,0,0,0,0,0,0,0 - 61", "Q 5 0,0,0,0,,0,0,0,0 - 61", "Q 5 0;0;0;0;0;0;0;0;0 - 61",
    "Q 5 0 0 0 0 0 0 0 0 0 - 61", "Q 5 0,0,0,0,0,0,0,0,4294967296 - 61",
    "Q 5 18446744073709551616,0,0,0,0,0,0,0,0 - 61", "Q 5 -1,0,0,0,0,0,0,0,0 - 61", "Q 5 0,0,Clear,0,0,0,0,0,0 - 61",
    "Q 5 0,0,0,0,0,0,0,0,0 6 61", "Q 5 0,0,0,0,0,0,0,0,0 4A 61", "Q 5 0,0,0,0,0,0,0,0,0  61",
    "Q 5 0,0,0,0,0,0,0,0,0 - 6", "Q 5 0,0,0,0,0,0,0,0,0 - zz", "Q 5 0,0,0,0,0,0,0,0,0 61",
    "Q  5 0,0,0,0,0,0,0,0,0 - 61", "Q -1 0,0,0,0,0,0,0,0,0 - 61", "Q - 0,0,0,0,0,0,0,0,0 - 61",
    "Q 18446744073709551616 0,0,0,0,0,0,0,0,0 - 61", "Q 0,0,0,0,0,0,0,0,0 - 61", "QQ 5 0,0,0,0,0,0,0,0,0 - 61",
    "Q 005 00,0,00,0,0,0,0,0,000 - 61",
];
