//! Escapes put together from their parts, each part right or nearly so.
use crate::random::Random;
use crate::wide;

/// Values of `\u` at the limits of what is a character.
const LIMITS: &[&str] = &[
    "0", "7f", "80", "FF", "7ff", "800", "D7FF", "d7ff", "D800", "d800", "00D800", "DBFF", "DC00", "DFFF", "dfff",
    "E000", "e000", "FFFF", "10000", "10FFFF", "10ffff", "110000", "FFFFFF", "ffffff",
];

/// What is no hex digit: its neighbours in ASCII, what closes, and longer characters.
const NO_DIGITS: &[&str] =
    &["g", "G", "/", ":", "@", "`", "!", "_", "-", " ", "x", "{", "}", "\"", "'", "\\", "\n", "é", "€", "𝄞"];

/// Bytes of characters that are spoilt for `\x`.
const CHARACTERS: &[&str] = &["é", "\u{80}", "€", "\u{800}", "\u{d7ff}", "\u{ffff}", "𝄞", "\u{10ffff}", "a", "\u{7f}"];

/// A `\` and what may be read as an escape, or not.
pub fn any(r: &mut Random, text: &mut Vec<u8>) {
    match r.below(8) {
        0 => letter(r, text),
        1..=3 => bytes(r, text),
        _ => unicode(r, text),
    }
}

fn letter(r: &mut Random, text: &mut Vec<u8>) {
    text.push(b'\\');
    match r.below(4) {
        0 => text.extend_from_slice(wide::character(r).encode_utf8(&mut [0; 4]).as_bytes()),
        _ => text.push(r.from(0, 0x7f) as u8),
    }
}

fn digit(r: &mut Random, value: u8, text: &mut Vec<u8>) {
    match r.below(48) {
        0 => text.extend_from_slice(r.pick(NO_DIGITS).as_bytes()),
        1..=24 => text.push(b"0123456789abcdef"[usize::from(value)]),
        _ => text.push(b"0123456789ABCDEF"[usize::from(value)]),
    }
}

/// A character's bytes, mostly one too few, too many or another; each as `\x`.
fn bytes(r: &mut Random, text: &mut Vec<u8>) {
    let mut bytes = r.pick(CHARACTERS).as_bytes().to_vec();
    match r.below(6) {
        0 => drop(bytes.pop()),
        1 => bytes.push(r.number(&[0x80, 0xa9, 0x41, 0xc3]) as u8),
        2 | 3 => {
            let at = r.below(bytes.len());
            bytes[at] = r.below(256) as u8;
        }
        4 => bytes = vec![r.from(0x7f, 0xff) as u8; r.from(1, 5)],
        _ => {}
    }
    for byte in bytes {
        text.extend_from_slice(b"\\x");
        digit(r, byte >> 4, text);
        digit(r, byte & 15, text);
    }
}

/// No digits, a value at a limit, or one to seven digits; now and then a brace is left out.
fn unicode(r: &mut Random, text: &mut Vec<u8>) {
    text.extend_from_slice(b"\\u");
    if !r.once_in(8) {
        text.push(b'{');
    }
    match r.below(6) {
        0 => {}
        1 | 2 => text.extend_from_slice(r.pick(LIMITS).as_bytes()),
        _ => {
            for _ in 0..r.from(1, 7) {
                let value = r.number(&[0, 0, 0, 1, 8, 13, 15]) as u8;
                digit(r, value, text);
            }
        }
    }
    if !r.once_in(6) {
        text.push(b'}');
    }
}
