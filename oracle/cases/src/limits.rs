//! Texts at and around the largest size.
use crate::random::Random;

const SIZES: &[u64] = &[65_534, 65_535, 65_536, 65_536, 65_537, 65_537, 65_538, 70_000];

/// Front, filling and back of long texts.
const FORMS: &[(&str, &str, &str)] = &[
    ("", " ", "a"),
    ("", " ", ""),
    ("//", "x", ""),
    ("//", "x", "\n1"),
    ("/*", "x", "*/"),
    ("/*", "/*", ""),
    ("/*", "*", "/"),
    ("/*", "é", "*/"),
    ("", "\u{2028}", "é"),
    ("\"", "a", "\""),
    ("\"", "\\n", "\""),
    ("", "n", ""),
    ("", "é", ""),
    ("e", "\u{301}", "×"),
    ("r#", "字", ""),
    ("5u8", "𐌰", ":"),
    ("", "9", ""),
    ("", "[", ""),
    ("(", "1,", ")"),
    ("", "1.", "5"),
    ("r#\"", "\"", "\"#"),
];

/// Such a text; the filling is repeated until it fits.
pub fn text(r: &mut Random) -> Vec<u8> {
    let size = r.number(SIZES) as usize;
    let mut text = of_size(r, size);
    if r.once_in(4) {
        let last = text.len() - 1;
        text[last] = 0xc3;
    }
    text
}

/// A text that an edit of a few bytes makes too large.
pub fn nearly_full(r: &mut Random) -> Vec<u8> {
    let size = r.from(65_533, 65_536);
    of_size(r, size)
}

fn of_size(r: &mut Random, size: usize) -> Vec<u8> {
    let (front, filling, back) = FORMS[r.below(FORMS.len())];
    sized(front, filling, back, size)
}

/// A text of that many bytes: spaces make up for what the filling leaves.
pub fn sized(front: &str, filling: &str, back: &str, size: usize) -> Vec<u8> {
    let fillings = (size - front.len() - back.len()) / filling.len();
    let mut text = [front, &filling.repeat(fillings), back].concat().into_bytes();
    while text.len() < size {
        text.push(b' ');
    }
    text
}
