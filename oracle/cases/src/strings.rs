//! Strings, byte strings, chars and byte literals.
use crate::escapes;
use crate::random::Random;

const PLAIN: &[&str] = &[
    "a", "b c", "é", "€", "𝄞", "'", "#", "/", "//", "/*", ",", "(", ")", "\n", "\r\n", "\u{85}", "\u{2028}", "{", "0",
    "\0",
];

const ESCAPES: &[&str] = &[
    r"\n", r"\r", r"\t", r"\0", r"\\", r"\'", "\\\"", r"\x41", r"\x7f", r"\xC3\xA9", r"\xe2\x82\xac",
    r"\xF0\x9D\x84\x9E", r"\u{41}", r"\u{e9}", r"\u{10FFFF}", r"\u{0}", r"\u{D7FF}", r"\u{E000}", "\\\n",
    "\\\n \t\r\n", "\\\r\n  ", "\\\n\u{b}", "\\\n\u{85}",
];

const BYTE_ESCAPES: &[&str] = &[r"\xFF", r"\x80", r"\xc3", r"\x00", r"\xfe\xff", r"\u{e9}", r"\u{10ffff}"];

const WRONG: &[&str] = &[
    r"\q", r"\é", r"\x", r"\x4", r"\xg1", r"\xé", r"\xC3", r"\xC3\x41", r"\xC3\n", r"\xC0\x80", r"\xED\xA0\x80",
    r"\xFF\xFF\xFF\xFF", r"\xF0\x9D\x84", r"\u", r"\u41", r"\u{", r"\u{}", r"\u{41", r"\u{g}", r"\u{é}", r"\u{D800}",
    r"\u{DFFF}", r"\u{110000}", r"\u{0000041}", r"\u{1234567}", "\\\r", "\\ ", "\\",
];

/// Any of the four, or what nearly is one.
pub fn quoted(r: &mut Random, text: &mut Vec<u8>) {
    match r.below(6) {
        0 => char(r, text),
        1 => byte_literal(r, text),
        2 => byte_string(r, text),
        _ => string(r, text),
    }
}

/// Raw or not.
pub fn string(r: &mut Random, text: &mut Vec<u8>) {
    match r.below(4) {
        0 => raw(r, text),
        _ => escaped(r, text, ESCAPES),
    }
}

/// Raw or not.
pub fn byte_string(r: &mut Random, text: &mut Vec<u8>) {
    text.push(b'b');
    match r.below(4) {
        0 => raw(r, text),
        1 => escaped(r, text, ESCAPES),
        _ => escaped(r, text, BYTE_ESCAPES),
    }
}

fn escaped(r: &mut Random, text: &mut Vec<u8>, escapes: &[&str]) {
    text.push(b'"');
    for _ in 0..r.below(5) {
        match r.below(16) {
            0..=7 => text.extend_from_slice(r.pick(PLAIN).as_bytes()),
            8 if r.once_in(2) => wrong(r, text),
            _ => text.extend_from_slice(r.pick(escapes).as_bytes()),
        }
    }
    end(r, text, b"\"");
}

/// What is no escape, or by chance one.
fn wrong(r: &mut Random, text: &mut Vec<u8>) {
    match r.below(2) {
        0 => escapes::any(r, text),
        _ => text.extend_from_slice(r.pick(WRONG).as_bytes()),
    }
}

/// What may stand behind a quote: mostly what is no escape.
pub fn escape(r: &mut Random, text: &mut Vec<u8>) {
    match r.below(4) {
        0 => text.extend_from_slice(r.pick(ESCAPES).as_bytes()),
        1 => text.extend_from_slice(r.pick(BYTE_ESCAPES).as_bytes()),
        _ => wrong(r, text),
    }
}

fn raw(r: &mut Random, text: &mut Vec<u8>) {
    let hashes = vec![b'#'; r.below(4)];
    text.push(b'r');
    text.extend_from_slice(&hashes);
    text.push(b'"');
    for _ in 0..r.below(5) {
        match r.below(4) {
            0 => text.extend_from_slice(r.pick(&["\\", "\"", "\"#", "\"##", "\\x41"]).as_bytes()),
            _ => text.extend_from_slice(r.pick(PLAIN).as_bytes()),
        }
    }
    let hashes = if r.once_in(12) { vec![b'#'; r.below(4)] } else { hashes };
    end(r, text, &[b"\"", hashes.as_slice()].concat());
}

/// What closes, mostly.
fn end(r: &mut Random, text: &mut Vec<u8>, closing: &[u8]) {
    if !r.once_in(25) {
        text.extend_from_slice(closing);
    }
}

fn char(r: &mut Random, text: &mut Vec<u8>) {
    text.push(b'\'');
    match r.below(8) {
        0 => wrong(r, text),
        1 | 2 | 3 => text.extend_from_slice(r.pick(ESCAPES).as_bytes()),
        4 => text.extend_from_slice(r.pick(&["'", "\"", "\\", "", "ab", ",", ")"]).as_bytes()),
        _ => text.extend_from_slice(r.pick(PLAIN).as_bytes()),
    }
    end(r, text, b"'");
}

/// Of one byte.
pub fn byte_literal(r: &mut Random, text: &mut Vec<u8>) {
    text.extend_from_slice(b"b'");
    match r.below(8) {
        0 => wrong(r, text),
        1 | 2 | 3 => text.extend_from_slice(r.pick(BYTE_ESCAPES).as_bytes()),
        4 => text.extend_from_slice(r.pick(ESCAPES).as_bytes()),
        5 => text.extend_from_slice(r.pick(&["'", "\"", "\\", "", "ab", "é"]).as_bytes()),
        _ => text.extend_from_slice(r.pick(&["a", "0", " ", "\n", "(", "~"]).as_bytes()),
    }
    end(r, text, b"'");
}
