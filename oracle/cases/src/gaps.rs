//! Whitespace and comments.
use crate::random::Random;

const BLANKS: &[&str] = &[
    " ", " ", " ", "\n", "\n", "\t", "\r\n", "\r", "\u{b}", "\u{c}", "\u{85}", "\u{200e}", "\u{200f}", "\u{2028}",
    "\u{2029}",
];

const INSIDE: &[&str] = &[
    "a", "b c", "*", "/", "**", "\"", "'", "\\", ",", ")", "é", "€", "𝄞", "\u{85}", "\u{2028}", "\r", "\t", "#", "r#\"",
];

/// Whitespace of any kind, and comments.
pub fn gap(r: &mut Random, text: &mut Vec<u8>) {
    for _ in 0..r.from(1, 4) {
        match r.below(8) {
            0 => line_comment(r, text),
            1 | 2 => block_comment(r, text, 0),
            _ => text.extend_from_slice(r.pick(BLANKS).as_bytes()),
        }
    }
}

/// What mostly stands between two entries.
pub fn between(r: &mut Random, text: &mut Vec<u8>) {
    match r.below(6) {
        0 | 1 => {}
        2 | 3 | 4 => text.push(b' '),
        _ => gap(r, text),
    }
}

fn line_comment(r: &mut Random, text: &mut Vec<u8>) {
    text.extend_from_slice(b"//");
    for _ in 0..r.below(4) {
        text.extend_from_slice(r.pick(INSIDE).as_bytes());
    }
    if !r.once_in(12) {
        text.push(b'\n');
    }
}

fn block_comment(r: &mut Random, text: &mut Vec<u8>, level: usize) {
    text.extend_from_slice(b"/*");
    for _ in 0..r.below(4) {
        match r.below(4) {
            0 if level < 5 => block_comment(r, text, level + 1),
            1 => text.push(b'\n'),
            _ => text.extend_from_slice(r.pick(INSIDE).as_bytes()),
        }
    }
    if !r.once_in(20) {
        text.extend_from_slice(b"*/");
    }
}
