//! Edits as they are made by hand: one run of a text's bytes, replaced by others.
use crate::documents::Draft;
use crate::random::Random;
use crate::{alphabet, damage, laid, limits, strings};

/// A text, a cut in it, and what is put there.
pub struct Edit {
    pub text: Vec<u8>,
    pub from: usize,
    pub to: usize,
    pub put: Vec<u8>,
}

impl Edit {
    /// The new text.
    pub fn edited(&self) -> Vec<u8> {
        [&self.text[..self.from], &self.put, &self.text[self.to..]].concat()
    }
}

/// What is put in and mostly leaves a text that is read: brackets, digits, newlines, letters, what joins tokens or parts them.
const MILD: &[&str] = &[
    "//", "//\n", "/**/", "/* , */", "\"\"", "\" \"", "r\"\"", "'\"'", "(", ")", "[", "{", "]", "()", ",", ":", ", ",
    ",,", " ", " ", "\t", "\n", "\n", "\r\n", "\r", "\u{b}", "\u{85}", "\u{2028}", "0", "1", "9", "25", "300", "_",
    ".", "e", "e5", "f", "a", "b", "r", "x", "u8", "f32", "inf", "NaN", "implicit_some", "Lock(id: 7)", "\"s\", ",
    " 8,", "1.5 ", " r#a ", "é", "ŵ", "字", "𐌰", "Tŷ", " dŵr ", "r#·é ",
];

/// What mostly ends the reading where it stands outside a string or a comment: their marks, and halves of tokens.
const SHARP: &[&str] = &[
    "/*", "/*", "/*", "*/", "*/", "\"", "\"", "\"", "'", "/", "*", "r\"", "r#\"", "\"#", "b\"", "br#\"", "b'", "\\",
    "\\\"", "\\n", "\\x4", "\\xC3", "\\u{", "}", "#", "r#", "##", "#![", "0x", "0b", "-", "+", "i16", "\u{301}", "·",
    "×", "𝄞", "@", "\0",
];

/// What is put around a part of the text.
const AROUND: &[(&str, &str)] = &[
    ("/*", "*/"),
    ("/*", "*/"),
    ("//", "\n"),
    ("\"", "\""),
    ("'", "'"),
    ("r#\"", "\"#"),
    ("b\"", "\""),
    ("(", ")"),
    ("[", ",]"),
    (" ", " "),
    ("#![", "]"),
];

/// Bytes next to which an edit changes much.
const MARKED: &[u8] = b"/*\"'\\#\n()[]{},:.-_";

/// One edit in so many has a text at the size limit, two have one that is nearly full.
const LIMITS: usize = 15_000;

/// An edit of a text that is mostly read without refusal.
pub fn any(r: &mut Random) -> Edit {
    let text = match r.below(LIMITS) {
        0 => limits::text(r),
        1 | 2 => limits::nearly_full(r),
        3..=8 => large(r, 12_000),
        9..=150 => large(r, 400),
        _ => small(r),
    };
    of_text(r, text)
}

fn small(r: &mut Random) -> Vec<u8> {
    match r.below(32) {
        0 => damaged(r),
        1..=5 => document(r),
        _ => {
            let entries = r.below(14);
            laid::text(r, entries).text
        }
    }
}

fn large(r: &mut Random, most: usize) -> Vec<u8> {
    let entries = r.from(most / 5, most);
    laid::text(r, entries).text
}

fn document(r: &mut Random) -> Vec<u8> {
    let mut draft = Draft::default();
    draft.document(r);
    draft.text
}

fn damaged(r: &mut Random) -> Vec<u8> {
    let mut text = document(r);
    damage::damage(r, &mut text);
    text
}

/// A piece put at a place of a short text, for at most three of its bytes.
pub fn of_short_text(r: &mut Random, number: u64) -> Edit {
    let text = alphabet::of_call(b'p').text(number);
    let from = r.below(text.len() + 1);
    let to = (from + r.below(4)).min(text.len());
    let put = match r.below(5) {
        0 => Vec::new(),
        _ => piece(r),
    };
    Edit { text, from, to, put }
}

/// An edit of this text; one in sixteen may part characters, one in eight is at a character above U+007F,
/// one in 32 puts an escape behind a quote, three in sixteen are in the gap before an entry.
pub fn of_text(r: &mut Random, text: Vec<u8>) -> Edit {
    let special = match r.below(16) {
        0 => inside_characters(r, &text),
        1 | 2 => at_wide_character(r, &text),
        3 if r.once_in(2) => at_quote(r, &text),
        4..=6 => in_gap(r, &text),
        _ => None,
    };
    if let Some((from, to, put)) = special {
        return Edit { text, from, to, put };
    }
    let whole = !r.once_in(16);
    let settled = |place: usize| if whole { behind_character(&text, place) } else { place };
    let from = settled(spot(r, &text));
    let to = match r.below(16) {
        0..=5 => from,
        6..=9 => settled((from + r.from(1, 3)).min(text.len())),
        10 | 11 => seam(&text, from),
        12 | 13 => seam(&text, seam(&text, from)),
        _ => settled((from + r.below(24)).min(text.len())),
    };
    let (from, to) = match r.below(40) {
        0 => (0, text.len()),
        1 => (0, to),
        2 => (from, text.len()),
        _ => (from, to),
    };
    let put = put(r, &text, &text[from..to]);
    Edit { text, from, to, put }
}

/// What stands there afterwards.
fn put(r: &mut Random, text: &[u8], cut: &[u8]) -> Vec<u8> {
    match r.below(24) {
        0 => cut.to_vec(),
        1 | 2 => {
            let (front, back) = AROUND[r.below(AROUND.len())];
            [front.as_bytes(), cut, back.as_bytes()].concat()
        }
        3 if cut.len() > 1 => cut[1..cut.len() - 1].to_vec(),
        4 => part(r, text),
        5 => small(r),
        6 => [piece(r), piece(r)].concat(),
        7 if !cut.is_empty() => {
            let mut other = cut.to_vec();
            damage::damage(r, &mut other);
            other
        }
        8..=12 if !cut.is_empty() => Vec::new(),
        _ => piece(r),
    }
}

fn piece(r: &mut Random) -> Vec<u8> {
    let pieces = if r.once_in(5) { SHARP } else { MILD };
    r.pick(pieces).as_bytes().to_vec()
}

/// Up to a dozen bytes of the text.
fn part(r: &mut Random, text: &[u8]) -> Vec<u8> {
    let from = behind_character(text, r.below(text.len() + 1));
    let to = behind_character(text, (from + r.below(13)).min(text.len()));
    text[from..to].to_vec()
}

/// A place: an end of the text, a token's end, next to a byte that means much, or any.
fn spot(r: &mut Random, text: &[u8]) -> usize {
    let any = r.below(text.len() + 1);
    match r.below(12) {
        0 => 0,
        1 => text.len(),
        2..=4 => any,
        5..=8 => seam(text, any),
        _ => marked(text, any) + usize::from(r.once_in(2)),
    }
    .min(text.len())
}

/// The next place behind this one where bytes of one class end, or the text.
fn seam(text: &[u8], place: usize) -> usize {
    let ends = |at: &usize| class(text[at - 1]) != class(text[*at]);
    (place + 1..text.len()).find(ends).unwrap_or(text.len())
}

/// Letters and digits, blanks, each other byte by itself.
fn class(byte: u8) -> u8 {
    match byte {
        b'0'..=b'9' | b'a'..=b'z' | b'A'..=b'Z' | b'_' | 0x80.. => b'a',
        b' ' | b'\t' | b'\n' | b'\r' => b' ',
        other => other,
    }
}

/// The next byte that means much.
fn marked(text: &[u8], place: usize) -> usize {
    (place..text.len()).find(|at| MARKED.contains(&text[*at])).unwrap_or(text.len())
}

fn is_inside(text: &[u8], place: usize) -> bool {
    text.get(place).is_some_and(|b| b & 0xc0 == 0x80)
}

fn behind_character(text: &[u8], place: usize) -> usize {
    (place..text.len()).find(|at| !is_inside(text, *at)).unwrap_or(text.len())
}

/// A cut that begins or ends inside a character, such that the new text is mostly UTF-8 if the old one is:
/// another last byte, or from inside one character to the same place of another.
fn inside_characters(r: &mut Random, text: &[u8]) -> Option<(usize, usize, Vec<u8>)> {
    let from = next_inside(text, r.below(text.len() + 1))?;
    let last = behind_character(text, from) - 1;
    let other = next_inside(text, (last + 1).min(text.len()));
    match (r.below(4), other) {
        (0, _) => Some((last, last + 1, Vec::new())),
        (1, Some(other)) => Some((from, other, Vec::new())),
        (2, Some(other)) => Some((last, behind_character(text, other), vec![text[last]])),
        _ => Some((last, last + 1, vec![0x80 | r.below(64) as u8])),
    }
}

/// What parts a name at such a character, joins it with another, or changes the character.
const AT_WIDE: &[&str] = &[
    " ", ",", ":", "\u{85}", ".", "-", "/**/", "\u{301}", "\u{301}", "·", "\u{200d}", "×", "€", "e", "é", "ŷ", "字",
    "𐌰", "1", "e\u{301}", "_", "#", "\"", "'",
];

/// A cut before, behind or of the next character above U+007F, or of what stands between two of them.
fn at_wide_character(r: &mut Random, text: &[u8]) -> Option<(usize, usize, Vec<u8>)> {
    let from = next_inside(text, r.below(text.len() + 1))? - 1;
    let to = behind_character(text, from + 1);
    let other = next_inside(text, to).map_or(text.len(), |inside| inside - 1);
    let put = r.pick(AT_WIDE).as_bytes().to_vec();
    Some(match r.below(8) {
        0 => (from, from, put),
        1 => (to, to, put),
        2 | 3 => (from, to, put),
        4 => (from, to, Vec::new()),
        5 => (to, other.min(to + 3), Vec::new()),
        6 => (from.saturating_sub(1), from, Vec::new()),
        _ => (from, other, put),
    })
}

/// The second byte of the next character that has one.
fn next_inside(text: &[u8], place: usize) -> Option<usize> {
    (place.max(1)..text.len()).find(|at| is_inside(text, *at) && !is_inside(text, at - 1))
}

/// An escape behind the next quote, mostly in the place of what stood there up to the closing one.
fn at_quote(r: &mut Random, text: &[u8]) -> Option<(usize, usize, Vec<u8>)> {
    let quote = |place: usize| (place..text.len()).find(|at| b"\"'".contains(&text[*at]));
    let from = quote(r.below(text.len() + 1))? + 1;
    let to = match quote(from) {
        Some(to) if !r.once_in(4) => to,
        _ => from,
    };
    let mut put = Vec::new();
    strings::escape(r, &mut put);
    Some((from, to, put))
}

/// What is put into a gap and leaves it one.
const GAPS: &[&str] = &[
    " ", " ", " ", "  ", "\n", "\n    ", "\t", "\r\n", "\u{b}", "\u{85}", "\u{200e}", "\u{2028}", "/**/", "/*,*/",
    "/*/*é*/*/", "/* \" */ ", "//\n", "//, '\n", " // é\n",
];

/// What stands in the place of one blank: as long, or longer.
const FOR_A_BLANK: &[&str] = &["\n", "\t", "\u{c}", "  ", "\u{85}", "\u{2029}", "/**/", "//\n"];

/// A change of nothing but the bytes before an entry: put in right before it or behind the former one, taken out, one or all of them,
/// or others in their place.
fn in_gap(r: &mut Random, text: &[u8]) -> Option<(usize, usize, Vec<u8>)> {
    let place = if r.once_in(6) { 0 } else { r.below(text.len() + 1) };
    let entry = (place..text.len()).find(|at| may_start(text, *at))?;
    let gap = (0..entry).rev().find(|at| class(text[*at]) != b' ').map_or(0, |at| at + 1);
    let put = r.pick(GAPS).as_bytes().to_vec();
    Some(match r.below(8) {
        3 => (gap, gap, put),
        4 if gap < entry => (entry - 1, entry, Vec::new()),
        5 if gap < entry => (gap, entry, Vec::new()),
        6 if gap < entry => (gap, entry, put),
        7 if gap < entry => (entry - 1, entry, r.pick(FOR_A_BLANK).as_bytes().to_vec()),
        _ => (entry, entry, put),
    })
}

/// Something that is no blank stands here behind a blank, a mark or nothing: mostly an entry's start.
fn may_start(text: &[u8], place: usize) -> bool {
    class(text[place]) != b' '
        && (place == 0 || class(text[place - 1]) == b' ' || b",:()[]{}".contains(&text[place - 1]))
}
