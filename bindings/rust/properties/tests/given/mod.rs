//! What the properties are given: texts that are nearly good, tapes that are nearly in order, numbers that nearly fit.

use crate::checks::GOOD;
use quickcheck::{Arbitrary, Gen};
use sarridok::ENTRY;
use std::ops::Range;

/// What means much in a text.
const PIECES: &[&str] = &[
    "", " ", ",", "/*", "*/", "//", "\n", "\"", "'", "\\", "7", "x", "(", ")", "[1]", "{", "}", ":", "r#", "b'", "br#\"", "#![", "enable(",
    "]", "é", " lock ", "0x", "_", ".", "e", "-", "+", "u8", "inf", "\\u{", "\\x4", "\u{85}", "\u{301}",
];

/// What an escape begins with, and what may follow it there.
const BEGUN: &[&str] = &["", "\\", "\\x", "\\u", "\\u{"];
const ENDED: &[&str] = &["", "n", "q", "é", "4", "41", "C3", "g", "{", "}", "41}", "D800}", "123456"];

fn below(g: &mut Gen, n: usize) -> usize {
    usize::arbitrary(g) % n
}

/// One of good texts.
#[derive(Clone, Debug)]
pub struct Good(pub &'static [u8]);

impl Arbitrary for Good {
    fn arbitrary(g: &mut Gen) -> Good {
        Good(g.choose(GOOD).expect("there are some").as_bytes())
    }
}

/// Something to put into a text: a piece, half a character, or any bytes.
#[derive(Clone, Debug)]
pub struct Piece(pub Vec<u8>);

impl Arbitrary for Piece {
    fn arbitrary(g: &mut Gen) -> Piece {
        Piece(match below(g, 10) {
            0 => Vec::arbitrary(g),
            1 => b"\xC3".to_vec(),
            _ => g.choose(PIECES).expect("there are some").as_bytes().to_vec(),
        })
    }

    fn shrink(&self) -> Box<dyn Iterator<Item = Piece>> {
        Box::new(self.0.shrink().map(Piece))
    }
}

/// A literal, closed as it began, in which escapes are nearly good.
#[derive(Clone, Debug)]
pub struct Literal(pub String);

impl Arbitrary for Literal {
    fn arbitrary(g: &mut Gen) -> Literal {
        let quote = if bool::arbitrary(g) { "'" } else { "\"" };
        let mut text = if bool::arbitrary(g) { "b" } else { "" }.to_string() + quote;
        for _ in 0..=below(g, 3) {
            text += g.choose(BEGUN).expect("there are some");
            text += g.choose(ENDED).expect("there are some");
        }
        Literal(text + quote)
    }
}

/// A document of records in each other, of few names, some raw and some not; now and then a blank stands for a mark.
#[derive(Clone, Debug)]
pub struct Record(pub String);

const NAMES: &[&str] = &[
    "a", "b", "c", "d", "ab", "ba", "r#a", "r#b", "r#ab", "lock", "lock_", "r#lock", "é", "r#é",
];

fn value(g: &mut Gen, depth: usize) -> String {
    let name = |g: &mut Gen| g.choose(NAMES).expect("there are some").to_string();
    let more = depth + below(g, 3);
    match below(g, 8) {
        0..=2 if depth < 4 => record(g, more),
        3 if depth < 4 => format!("({}, {})", value(g, more), name(g)),
        4 if depth < 4 => format!("[{}, {}]", value(g, more), value(g, more)),
        5 => format!("{{{}: 1, {}: 2}}", name(g), name(g)),
        6 => name(g),
        _ => "7".to_string(),
    }
}

fn record(g: &mut Gen, depth: usize) -> String {
    let most = if below(g, 8) == 0 { 40 } else { 6 };
    let mut text = if bool::arbitrary(g) { "Reach(" } else { "(" }.to_string();
    for i in 0..below(g, most) {
        let of = value(g, depth + 1);
        text += &match below(g, 3) {
            0 => format!("{}: {of},", g.choose(NAMES).expect("there are some")),
            _ => format!("f{i}: {of},"),
        };
    }
    text + ")"
}

impl Arbitrary for Record {
    fn arbitrary(g: &mut Gen) -> Record {
        let mut text = record(g, 0);
        if below(g, 8) == 0 {
            let marks: Vec<usize> = text.match_indices(&[',', ':', '(', ')', '['][..]).map(|(at, _)| at).collect();
            let at = *g.choose(&marks).expect("there are two");
            text.replace_range(at..at + 1, " ");
        }
        Record(text)
    }
}

/// Bytes of any kind: any at all, pieces in a row, or a good text with some damage.
#[derive(Clone, Debug)]
pub struct Text(pub Vec<u8>);

impl Arbitrary for Text {
    fn arbitrary(g: &mut Gen) -> Text {
        Text(match below(g, 4) {
            0 => Vec::arbitrary(g),
            1 => Vec::<Piece>::arbitrary(g).into_iter().take(30).flat_map(|piece| piece.0).collect(),
            _ => {
                let mut text = Good::arbitrary(g).0.to_vec();
                for _ in 0..=below(g, 3) {
                    let Cut { from, to } = Cut::arbitrary(g);
                    text.splice(between(from, to, text.len()), Piece::arbitrary(g).0);
                }
                text
            }
        })
    }

    fn shrink(&self) -> Box<dyn Iterator<Item = Text>> {
        Box::new(self.0.shrink().map(Text))
    }
}

/// Lengths of pieces, some of them 0.
#[derive(Clone, Debug)]
pub struct Cuts(pub Vec<usize>);

impl Arbitrary for Cuts {
    fn arbitrary(g: &mut Gen) -> Cuts {
        let most = if below(g, 4) == 0 { 30 } else { 6 };
        Cuts((0..=below(g, 5)).map(|_| below(g, most)).collect())
    }

    fn shrink(&self) -> Box<dyn Iterator<Item = Cuts>> {
        Box::new(self.0.shrink().map(Cuts))
    }
}

/// A text in which something is some 4,096 bytes long, and now and then the whole some 65,536.
#[derive(Clone, Debug)]
pub struct Long(pub Vec<u8>);

/// What may be long: what it begins with, goes on with, and may end with.
const LONG: &[[&str; 3]] = &[
    ["", "a", " "],
    ["7", "_1", ","],
    ["0x", "g", " "],
    ["\"", "x ", "\""],
    ["\"", "\\n", "\""],
    ["\"", "é", "\""],
    ["b\"", "word, ", "\" "],
    ["r#\"", "\" ", "\"# "],
    ["/*", "x*", "*/"],
    ["//", "é", "\n"],
    ["", " ", ""],
    ["a", "\u{85}b", " "],
    ["#![enable(", "implicit_some, ", "implicit_some)]"],
    ["[", "[],", "]"],
];

impl Arbitrary for Long {
    fn arbitrary(g: &mut Gen) -> Long {
        let mut text = Vec::new();
        let most = if below(g, 4) == 0 { 65_536 } else { 4096 };
        for size in [most, 4096] {
            let front = Good::arbitrary(g).0;
            text.extend_from_slice(if below(g, 3) == 0 { front } else { b"[7, " });
            let [begins, goes_on, ends] = *g.choose(LONG).expect("there are some");
            let times = (size + below(g, 8) - 4).saturating_sub(begins.len()) / goes_on.len();
            text.extend_from_slice((begins.to_string() + &goes_on.repeat(times)).as_bytes());
            if below(g, 8) != 0 {
                text.extend_from_slice(ends.as_bytes());
            }
            text.extend(Piece::arbitrary(g).0);
        }
        Long(text)
    }
}

/// Where a text is cut, mostly a few bytes of it; which ones its length decides.
#[derive(Clone, Debug)]
pub struct Cut {
    from: usize,
    to: usize,
}

fn between(from: usize, to: usize, len: usize) -> Range<usize> {
    let start = from % (len + 1);
    start..start + to % (len + 1 - start)
}

impl Cut {
    /// The cut of a text of so many bytes.
    pub fn of(&self, len: usize) -> Range<usize> {
        between(self.from, self.to, len)
    }
}

impl Arbitrary for Cut {
    fn arbitrary(g: &mut Gen) -> Cut {
        let from = usize::arbitrary(g);
        let to = if bool::arbitrary(g) { below(g, 4) } else { usize::arbitrary(g) };
        Cut { from, to }
    }
}

/// A number that mostly fits a bound, is often next to it, and sometimes of any size.
#[derive(Clone, Debug)]
pub enum Near {
    Within(usize),
    Behind(usize),
    Any(usize),
}

impl Near {
    /// The number near a bound.
    pub fn of(&self, bound: usize) -> usize {
        match *self {
            Near::Within(n) => n % (bound + 1),
            Near::Behind(n) => bound + n,
            Near::Any(n) => n,
        }
    }
}

impl Arbitrary for Near {
    fn arbitrary(g: &mut Gen) -> Near {
        match below(g, 8) {
            0 => Near::Behind(below(g, 3)),
            1 => Near::Any(usize::MAX - below(g, 2)),
            2 => Near::Any(usize::arbitrary(g)),
            _ => Near::Within(usize::arbitrary(g)),
        }
    }
}

/// A list of a few numbers, each below a bound but now and then one that need not be.
#[derive(Clone, Debug)]
pub struct List {
    within: Vec<usize>,
    other: Option<(usize, Near)>,
}

impl List {
    /// The list for a bound.
    pub fn of(&self, bound: usize) -> Vec<usize> {
        let mut list: Vec<usize> = self.within.iter().map(|n| n % bound.max(1)).collect();
        if let Some((at, other)) = &self.other {
            list.insert(at % (list.len() + 1), other.of(bound));
        }
        list
    }
}

impl Arbitrary for List {
    fn arbitrary(g: &mut Gen) -> List {
        let within = (0..below(g, 7)).map(|_| usize::arbitrary(g)).collect();
        let other = (below(g, 3) == 0).then(|| Arbitrary::arbitrary(g));
        List { within, other }
    }
}

/// A text of integers that are nearly good, and a tape that names them, right for the most part.
#[derive(Clone, Debug)]
pub struct Numerals {
    pub text: String,
    pub tape: Vec<u32>,
}

const NUMERALS: &[&str] = &[
    "7",
    "-5",
    "300",
    "0",
    "-0",
    "+8",
    "1_000",
    "0xFF",
    "0b101",
    "0o17",
    "65536",
    "-129",
    "4294967296",
    "18446744073709551615",
    "5u8",
    "-7i16",
    "9i64",
    "b'a'",
    r"b'\x41'",
    r"b'\x4'",
    "12x",
    "_1",
    "0b2",
    "1u9",
    "é",
    "",
    "1.5",
];

impl Arbitrary for Numerals {
    fn arbitrary(g: &mut Gen) -> Numerals {
        let (mut text, mut tape) = (String::new(), Vec::new());
        for _ in 0..=below(g, 6) {
            let (start, numeral) = (text.len() as u32, g.choose(NUMERALS).expect("there are some"));
            text += numeral;
            text += g.choose(&[",", " ", ")", "//", "é", ""]).expect("there are some");
            let mut entry = [11, start, text.len() as u32, 1 + below(g, 8) as u32, 0];
            if below(g, 12) == 0 {
                *g.choose(&[0, 1, 3]).map(|at| &mut entry[*at]).expect("there are three") = number(g);
            }
            tape.extend(entry);
        }
        Numerals { text, tape }
    }
}

/// Numbers of a tape, mostly of entries in order, mostly a whole number of them.
#[derive(Clone, Debug)]
pub struct Tape(pub Vec<u32>);

/// The numbers of an entry in order behind a place.
fn entry_behind(g: &mut Gen, place: u32) -> [u32; ENTRY] {
    let [kind, gap, len, detail] = [16, 3, 4, 18].map(|most| below(g, most) as u32);
    [kind + 1, place + gap, place + gap + len + 1, detail, gap]
}

/// Any number of a tape, mostly a small one.
fn number(g: &mut Gen) -> u32 {
    match below(g, 16) {
        0 => u32::arbitrary(g),
        1 => u32::MAX,
        _ => below(g, 18) as u32,
    }
}

impl Arbitrary for Tape {
    fn arbitrary(g: &mut Gen) -> Tape {
        let (mut tape, mut last) = (Vec::new(), 0);
        for _ in 0..below(g, 8) {
            let entry = entry_behind(g, last);
            last = entry[2];
            tape.extend(entry);
        }
        for _ in 0..below(g, 2 * ENTRY).saturating_sub(ENTRY) {
            tape.push(number(g));
        }
        for _ in 0..below(g, 3) {
            let at = below(g, tape.len() + 1);
            if let Some(damaged) = tape.get_mut(at) {
                *damaged = number(g);
            }
        }
        Tape(tape)
    }

    fn shrink(&self) -> Box<dyn Iterator<Item = Tape>> {
        Box::new(self.0.shrink().map(Tape))
    }
}
