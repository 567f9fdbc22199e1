//! Places in a text, most of them fit.
use crate::random::Random;

/// Numbers at the edges of widths.
const EDGES: &[u64] = &[
    65_535,
    65_536,
    65_537,
    (1 << 31) - 1,
    1 << 31,
    (1 << 32) - 1,
    1 << 32,
    (1 << 32) + 1,
    (1 << 63) - 1,
    1 << 63,
    u64::MAX - 1,
    u64::MAX,
];

/// A place at or near a given one, anywhere in the text, or at an edge.
pub fn near(r: &mut Random, place: usize, text: &[u8]) -> u64 {
    match r.below(24) {
        0 => r.number(EDGES),
        1 => place as u64 + r.below(4) as u64,
        2 => place.saturating_sub(r.below(4)) as u64,
        3 => text.len() as u64 + r.below(3) as u64,
        4 => r.below(text.len() + 1) as u64,
        5 => 0,
        _ => place as u64,
    }
}

/// A place that is fit, if the text is UTF-8.
pub fn fit(r: &mut Random, text: &[u8]) -> usize {
    let mut place = r.below(text.len() + 1);
    while text.get(place).is_some_and(|b| b & 0xc0 == 0x80) {
        place += 1;
    }
    place
}

/// Cursor, place before the whitespace, and its length (the largest is the mark); one in six may be unfit.
pub fn cursor(r: &mut Random, text: &[u8]) -> (u64, u64, u64) {
    let cursor = match r.below(3) {
        0 => fit(r, text),
        _ => 0,
    };
    let pre = match r.below(4) {
        0 => cursor,
        1 => 0,
        _ => fit(r, &text[..cursor]),
    };
    let len = fit_length(r, cursor as u64, pre as u64);
    match r.below(18) {
        0 => (near(r, cursor, text), near(r, pre, text), len),
        1 => (near(r, cursor, text), pre as u64, len),
        2 => (cursor as u64, pre as u64, any_length(r, cursor as u64)),
        _ => (cursor as u64, pre as u64, len),
    }
}

fn fit_length(r: &mut Random, cursor: u64, pre: u64) -> u64 {
    let length = match r.below(8) {
        0 | 1 => return u64::MAX,
        2 => 0,
        3 => cursor,
        4 => cursor - pre + r.below(3) as u64,
        5 => (cursor - pre).saturating_sub(r.below(3) as u64),
        6 => r.below(cursor as usize + 1) as u64,
        _ => cursor - pre,
    };
    length.min(cursor)
}

fn any_length(r: &mut Random, cursor: u64) -> u64 {
    match r.below(3) {
        0 => cursor + r.below(3) as u64,
        1 => u64::MAX - r.below(4) as u64,
        _ => r.number(EDGES),
    }
}
