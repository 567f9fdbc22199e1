//! What document 01 judges before a text is read: its size, its UTF-8, places in it.
use std::str::from_utf8;

use crate::refusal::{Answer, Refusal};

pub const LARGEST: usize = 65_536;

/// The text, or refusal 1 or 2.
pub fn text(bytes: &[u8]) -> Answer<&str> {
    if bytes.len() > LARGEST {
        return Err(Refusal::new(1, 0));
    }
    from_utf8(bytes).map_err(|e| Refusal::new(2, e.valid_up_to()))
}

/// Refusal 28 unless all is fit.
pub fn fit(fit: bool) -> Answer {
    fit.then_some(()).ok_or(Refusal::new(28, 0))
}

/// A place is unfit past the end or inside a character.
pub fn is_place(text: &str, place: usize) -> bool {
    text.is_char_boundary(place)
}
