//! Every scalar value at every place where a character of a name is asked for.
use crate::line;

/// Scalar values: all code points but the surrogates.
pub const SCALARS: u64 = 0x11_0000 - 0x800;

const SURROGATES: u32 = 0xd800;

/// The scalar value with this number.
fn scalar(number: u64) -> char {
    let code = number as u32;
    let behind = if code < SURROGATES { 0 } else { 0x800 };
    char::from_u32(code + behind).expect("there are that many")
}

/// Writes the case line (without its end) of a place and a scalar value's number; nothing where there is no such place.
pub fn case(place: u8, number: u64, into: &mut Vec<u8>) {
    let c = scalar(number);
    let read = |front: &str, back: &str, into: &mut Vec<u8>| line::read(into, format!("{front}{c}{back}").as_bytes());
    match place {
        b'f' => read("", "", into),
        b'n' => read("a", "", into),
        b'u' => read("ᚠ", "a", into),
        b'w' => read("r#", "", into),
        b's' => read("5u8", "", into),
        b't' => line::integer(into, 5, 0, format!("5u8{c}").as_bytes()),
        b'g' => read("1.5f32", "", into),
        b'i' => read("inf", "", into),
        b'e' => read("#![enable(implicit_some", ")]", into),
        b'k' => line::struct_kind(into, [0, 1], 0, format!("({c}:1)").as_bytes()),
        _ => {}
    }
}
