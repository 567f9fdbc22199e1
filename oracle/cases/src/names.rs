//! Names and attributes.
use crate::gaps::between;
use crate::random::Random;
use crate::{strings, wide};

const NAMES: &[&str] = &[
    "a", "id", "Lock", "width", "_", "_1", "r", "b", "br", "rb", "true", "Some", "i8", "u8x", "f32", "e5", "x_y9",
    "inf", "NaN", "infx", "Z", "r#a", "r#true", "r#a.b", "r#1", "r#+-.", "r#x-1",
];

const ODD: &[&str] = &[
    "r#", "r##", "r#(", "r#×", "r#\u{85}", "a.b", "a-b", "a#", "a€", "€", "×", "·", "\u{301}", "\u{200d}", "é×", "@",
    "*", "\0", "~",
];

const EXTENSIONS: &[&str] =
    &["unwrap_newtypes", "implicit_some", "unwrap_variant_newtypes", "explicit_struct_names", "r#implicit_some"];

const NO_EXTENSIONS: &[&str] = &[
    "", "nope", "5", "implicit_som", "implicit_some_", "implicit_some.", "r#", "b'", "é", "nopé", ",",
    "implicit_some.é", "unwrap_newtypes implicit_some", "Implicit_Some", "implicit_some é", "implicit_some 5", "_",
    "·", "×", "r#é", "r#·", "implicit_somé", "implicit_some\u{301}", "implicit_some×", "\u{301}implicit_some",
    "implicit_some ·", "implicit_some ×", "implicit_some,\u{301}", "implicit_some,×", "implicit_some\u{200d}",
    "implicit_some\u{85}unwrap_newtypes", "r#implicit_some·",
];

/// A name or raw name, one in three with characters above U+007F, now and then what nearly is one.
pub fn name(r: &mut Random, text: &mut Vec<u8>) {
    match r.below(30) {
        0 => text.extend_from_slice(r.pick(ODD).as_bytes()),
        1..=10 => wide::name(r, text),
        _ => text.extend_from_slice(r.pick(NAMES).as_bytes()),
    }
}

/// An attribute, gaps wherever they may be.
pub fn attribute(r: &mut Random, text: &mut Vec<u8>) {
    for piece in ["#", "!", "["] {
        part(r, text, piece);
    }
    match r.below(3) {
        0 => described(r, text),
        _ => enable(r, text),
    }
    part(r, text, "]");
}

/// A piece, which is now and then left out, and a gap.
fn part(r: &mut Random, text: &mut Vec<u8>, piece: &str) {
    if !r.once_in(60) {
        text.extend_from_slice(piece.as_bytes());
    }
    gap(r, text);
}

fn gap(r: &mut Random, text: &mut Vec<u8>) {
    if r.once_in(4) {
        between(r, text);
    }
}

/// A word of the attribute, now and then another, or one that goes on.
fn word_or_odd(r: &mut Random, text: &mut Vec<u8>, word: &str, odd: &[&str]) {
    let word = if r.once_in(20) { r.pick(odd) } else { word };
    text.extend_from_slice(word.as_bytes());
    wide::once_in(r, 30, text);
    gap(r, text);
}

fn described(r: &mut Random, text: &mut Vec<u8>) {
    let word = r.pick(&["type", "schema"]);
    word_or_odd(r, text, word, &["types", "typé", "Type", "", "schema_"]);
    part(r, text, "=");
    match r.below(12) {
        0 => text.extend_from_slice(r.pick(&["a", "rx", "b\"a\"", "é", "1", "r#"]).as_bytes()),
        _ => strings::string(r, text),
    }
    between(r, text);
}

fn enable(r: &mut Random, text: &mut Vec<u8>) {
    word_or_odd(r, text, "enable", &["enables", "enablé", "Enable", "", "type"]);
    part(r, text, "(");
    for _ in 0..r.from(1, 3) {
        match r.below(12) {
            0 => text.extend_from_slice(r.pick(NO_EXTENSIONS).as_bytes()),
            1 if r.once_in(4) => wide::name(r, text),
            _ => text.extend_from_slice(r.pick(EXTENSIONS).as_bytes()),
        }
        wide::once_in(r, 30, text);
        gap(r, text);
        if !r.once_in(6) {
            part(r, text, ",");
        }
    }
    part(r, text, ")");
}
