//! Number texts: integers in all bases, floats, suffixes, underscores, edges of widths.
use crate::random::Random;
use crate::wide;

const SUFFIXES: &[&str] = &["i8", "i16", "i32", "i64", "u8", "u16", "u32", "u64"];

const ODD_SUFFIXES: &[&str] = &[
    "i128", "u128", "u9", "u", "i", "u8x", "u8_", "i8é", "u8\u{301}", "u8·", "u8×", "u8\u{85}", "u6", "u644", "usize",
    "f32", "f64", "f", "f16", "f32x", "f32é", "f32\u{301}", "f64×", "f64\u{2028}", "é", "×",
];

const SPECIAL: &[&str] = &[
    "inf", "NaN", "inff32", "inff64", "NaNf32", "NaNf64", "infx", "inf_", "infinity", "NaNf32x", "infé", "inf\u{301}",
    "NaN×", "inff64ŷ", "nan", "Inf",
];

const ODD: &[&str] = &[
    "..", "1..2", "1.5..2", "1.5.5", "1e", "1e+", "1e5e5", "1e5.", ".", "-", "+", "--1", "+-1", "1-2", "0xe+1", "1_.5",
    "1._5", "1.e_5", "-_.5", "1e400", "1e-400", ".5", "5.", "1ef32", "0x_", "0b2", "0o8", "0xg", "_1", "300a",
    "0b1f32", "256a", "99f", "25f",
];

/// Any number, and now and then what nearly is one.
pub fn number(r: &mut Random, text: &mut Vec<u8>) {
    match r.below(10) {
        0 => text.extend_from_slice(r.pick(ODD).as_bytes()),
        1 => special(r, text),
        2 | 3 | 4 => float(r, text),
        _ => integer(r, text),
    }
}

fn sign(r: &mut Random, text: &mut Vec<u8>) {
    match r.below(8) {
        0 => text.push(b'+'),
        1 | 2 => text.push(b'-'),
        _ => {}
    }
}

fn special(r: &mut Random, text: &mut Vec<u8>) {
    sign(r, text);
    text.extend_from_slice(r.pick(SPECIAL).as_bytes());
    wide::once_in(r, 8, text);
}

/// An integer, mostly with digits of its base.
pub fn integer(r: &mut Random, text: &mut Vec<u8>) {
    sign(r, text);
    let base = match r.below(9) {
        0 => 2,
        1 => 8,
        2 | 3 => 16,
        _ => 10,
    };
    text.extend_from_slice(prefix(base).as_bytes());
    let digits = match r.below(3) {
        0 => edge(r, base),
        _ => digits(r, base),
    };
    text.extend_from_slice(digits.as_bytes());
    suffix(r, text);
    wide::once_in(r, 16, text);
}

fn prefix(base: u32) -> &'static str {
    match base {
        2 => "0b",
        8 => "0o",
        16 => "0x",
        _ => "",
    }
}

fn suffix(r: &mut Random, text: &mut Vec<u8>) {
    match r.below(6) {
        0 | 1 => text.extend_from_slice(r.pick(SUFFIXES).as_bytes()),
        2 if r.once_in(3) => text.extend_from_slice(r.pick(ODD_SUFFIXES).as_bytes()),
        _ => {}
    }
}

/// A value at the edge of a width, or next to it.
fn edge(r: &mut Random, base: u32) -> String {
    let bits = r.pick(&[&7u32, &8, &15, &16, &31, &32, &63, &64]);
    let value = (1u128 << bits) + r.below(5) as u128 - 2;
    in_base(r, value, base)
}

/// The digits of a value, in letters of either case, at times behind zeros.
fn in_base(r: &mut Random, value: u128, base: u32) -> String {
    let mut digits = Vec::new();
    let mut rest = value;
    while rest > 0 || digits.is_empty() {
        digits.push((rest % u128::from(base)) as u32);
        rest /= u128::from(base);
    }
    let upper = r.once_in(2);
    let digit = |d: &u32| char::from_digit(*d, base).map_or('0', |c| if upper { c.to_ascii_uppercase() } else { c });
    let zeros = if r.once_in(5) { "00" } else { "" };
    zeros.chars().chain(digits.iter().rev().map(digit)).collect()
}

/// A run of digits, with underscores and, now and then, digits of a larger base.
fn digits(r: &mut Random, base: u32) -> String {
    let base = if r.once_in(8) { 16 } else { base };
    let length = match r.below(8) {
        0 => r.below(25),
        1 => 0,
        _ => r.from(1, 4),
    };
    let mut run = String::new();
    for _ in 0..length {
        if r.once_in(9) {
            run.push('_');
        }
        run.extend(char::from_digit(r.below(base as usize) as u32, base));
    }
    run
}

/// A number's sign, size and width as on a tape, with the suffix of that width or without any.
struct Sound {
    below_zero: bool,
    size: u128,
    width: u32,
    suffix: &'static str,
}

/// The largest size in a width, numbered from 1 as on a tape.
fn largest(width: u32, below_zero: bool) -> u128 {
    let bits = [7, 15, 31, 63, 8, 16, 32, 64][width as usize - 1];
    match (below_zero, width) {
        (false, _) => (1 << bits) - 1,
        (true, 1..=4) => 1 << bits,
        _ => 0,
    }
}

/// A size at the edge of a width or anywhere below it, small ones most often.
fn size(r: &mut Random, largest: u128) -> u128 {
    match r.below(6) {
        0 => largest,
        1 => largest.saturating_sub(r.from(1, 3) as u128),
        2 | 3 => largest.min(r.below(12) as u128),
        _ => u128::from(r.next() >> r.below(64)) % (largest + 1),
    }
}

/// A value of any width; without a suffix the width is the first that it fits.
fn some_sound(r: &mut Random) -> Sound {
    let width = r.from(1, 8) as u32;
    let below_zero = r.once_in(if width < 5 { 2 } else { 8 });
    let size = size(r, largest(width, below_zero));
    if r.once_in(3) {
        return Sound { below_zero, size, width, suffix: SUFFIXES[width as usize - 1] };
    }
    let widths = if below_zero { 1..=4 } else { 5..=8 };
    let width = widths.into_iter().find(|w| size <= largest(*w, below_zero)).unwrap_or(8);
    Sound { below_zero, size, width, suffix: "" }
}

/// An integer that is read, and its width; a byte literal now and then.
pub fn sound(r: &mut Random) -> (u32, Vec<u8>) {
    if r.once_in(10) {
        let inside = ["a", "0", " ", "\"", "\\'", "\\n", "\\0", "\\\\", "\\x41", "\\xFF", "\\x80", "\\x00", "(", "\n"];
        return (5, format!("b'{}'", r.pick(&inside)).into_bytes());
    }
    let number = some_sound(r);
    let sign = match number.below_zero {
        true => "-",
        false => r.pick(&["", "", "", "", "", "+"]),
    };
    (number.width, spelt(r, sign, number.size, number.suffix))
}

/// An integer just out of a width, with its suffix or without any.
pub fn too_large(r: &mut Random, width: u32) -> Vec<u8> {
    let below_zero = r.once_in(3);
    let size = largest(width, below_zero);
    let size = match r.below(3) {
        0 => size + 1,
        1 => size + r.from(1, 20) as u128,
        _ => (size + 1) * 10,
    };
    let suffix = if r.once_in(3) { SUFFIXES[width as usize - 1] } else { "" };
    spelt(r, if below_zero { "-" } else { "" }, size, suffix)
}

/// A size in any base, with zeros in front and underscores now and then.
fn spelt(r: &mut Random, sign: &str, size: u128, suffix: &str) -> Vec<u8> {
    let base = r.number(&[10, 10, 10, 10, 10, 16, 16, 2, 8]) as u32;
    let mut digits = in_base(r, size, base);
    if r.once_in(8) {
        let at = r.from(1, digits.len());
        digits.insert_str(at, r.pick(&["_", "_", "__"]));
    }
    [sign, prefix(base), &digits, suffix].concat().into_bytes()
}

fn float(r: &mut Random, text: &mut Vec<u8>) {
    sign(r, text);
    text.extend_from_slice(digits(r, 10).as_bytes());
    if !r.once_in(4) {
        text.push(b'.');
        text.extend_from_slice(digits(r, 10).as_bytes());
    }
    if r.once_in(3) {
        text.extend_from_slice(r.pick(&["e", "E", "e-", "e+", "E-", "e_"]).as_bytes());
        text.extend_from_slice(digits(r, 10).as_bytes());
    }
    match r.below(8) {
        0 => text.extend_from_slice(b"f32"),
        1 => text.extend_from_slice(b"f64"),
        2 => text.extend_from_slice(r.pick(ODD_SUFFIXES).as_bytes()),
        _ => {}
    }
    wide::once_in(r, 16, text);
}
