//! Damaged copies of texts.
use crate::random::Random;

/// Bytes that mean much to some reader.
const BYTES: &[u8] = b"/*\n\r \"'\\#()[]{},:_-+.0129abefiruxXoN!=\0\x7f\x80\xbf\xc2\xc3\xe2\xff";

/// RFC 3629: lone continuations, overlong forms, surrogates, above U+10FFFF, cut off.
pub const NOT_UTF8: &[&[u8]] = &[
    b"\x80", b"\xbf", b"\xc0\x80", b"\xc0\xaf", b"\xc1\xbf", b"\xe0\x80\x80", b"\xe0\x9f\xbf", b"\xf0\x80\x80\x80",
    b"\xf0\x8f\xbf\xbf", b"\xed\xa0\x80", b"\xed\xbf\xbf", b"\xf4\x90\x80\x80", b"\xf5\x80\x80\x80", b"\xf8\x88\x80",
    b"\xfc", b"\xfe", b"\xff", b"\xc3", b"\xe2\x82", b"\xe2", b"\xf0\x9d\x84", b"\xf0\x9d", b"\xf0", b"\xc3\xc3",
    b"\xe2\x28\xa1", b"\xf0\x9d\x84\x28",
];

const CHARACTERS: &[&str] = &[
    "é", "ŵ", "字", "𐌰", "\u{301}", "·", "\u{200c}", "×", "€", "𝄞", "\u{7f}", "\u{80}", "\u{85}", "\u{a0}", "\u{7ff}",
    "\u{800}", "\u{200e}", "\u{2028}", "\u{d7ff}", "\u{e000}", "\u{feff}", "\u{fffd}", "\u{ffff}", "\u{10000}",
    "\u{10ffff}",
];

/// One to three changes.
pub fn damage(r: &mut Random, text: &mut Vec<u8>) {
    for _ in 0..r.from(1, 3) {
        change(r, text);
    }
}

fn change(r: &mut Random, text: &mut Vec<u8>) {
    let at = r.below(text.len() + 1);
    match r.below(10) {
        0 => text.truncate(at),
        1 | 2 => drop(text.splice(at..(at + r.from(1, 3)).min(text.len()), [])),
        3 | 4 => text.insert(at, BYTES[r.below(BYTES.len())]),
        5 if at < text.len() => text[at] = BYTES[r.below(BYTES.len())],
        6 if at < text.len() => text[at] ^= 1 << r.below(8),
        7 => drop(text.splice(at..at, r.pick(NOT_UTF8).iter().copied())),
        8 => drop(text.splice(at..at, r.pick(CHARACTERS).bytes())),
        _ => double(r, text, at),
    }
}

/// A piece a second time.
fn double(r: &mut Random, text: &mut Vec<u8>, at: usize) {
    let piece = text[at..(at + r.from(1, 4)).min(text.len())].to_vec();
    text.splice(at..at, piece);
}
