//! Small tapes for contents, walks and repairs, in order or not.
use crate::random::Random;

/// Numbers in one entry, kind, start, end, detail and gap: the one place of the makers that says how many.
pub const WIDTH: usize = 5;

/// The least counts whose entries have more numbers than 32 bits, and 64, can say.
pub const PAST_32_BITS: u64 = (1 << 32) / WIDTH as u64 + 1;
pub const PAST_64_BITS: u64 = u64::MAX / WIDTH as u64 + 1;

pub struct Asked {
    pub entry: u64,
    pub count: u64,
    pub tape: Vec<u32>,
}

/// A tape with an entry of this kind and start, and a question that is mostly for it.
pub fn around(r: &mut Random, kind: u32, start: u32) -> Asked {
    let entries = r.from(1, 4);
    let entry = r.below(entries);
    let mut tape = Vec::new();
    for n in 0..entries {
        match n == entry {
            true => tape.extend_from_slice(&[kind, start, any(r), any(r), any(r)]),
            false => tape.extend_from_slice(&[any(r), any(r), any(r), any(r), any(r)]),
        }
    }
    if r.once_in(6) {
        tape.truncate(r.below(tape.len() + 1));
    } else if r.once_in(4) {
        tape.resize(tape.len() + r.below(WIDTH), 0);
    }
    Asked { entry: off(r, entry), count: off(r, entries), tape }
}

/// Any number: mostly a small one.
pub fn any(r: &mut Random) -> u32 {
    match r.below(8) {
        0 => u32::MAX,
        1 => r.next() as u32,
        _ => r.below(18) as u32,
    }
}

/// Mostly the number itself.
pub fn off(r: &mut Random, n: usize) -> u64 {
    match r.below(16) {
        0 => n as u64 + 1,
        1 => n.saturating_sub(1) as u64,
        2 => r.number(&[0, 1 << 32, PAST_64_BITS, 1 << 63, u64::MAX]),
        _ => n as u64,
    }
}

/// A depth limit, mostly the largest or a small one.
pub fn limit(r: &mut Random) -> u64 {
    match r.below(12) {
        0 => r.number(&[127, 129, 130, 255, 256, 1 << 32, u64::MAX]),
        1..=6 => r.below(6) as u64,
        _ => 128,
    }
}

/// Entries of these kinds one behind the other, with and without a gap between, at times near the largest place.
pub fn laid(r: &mut Random, kinds: &[u32]) -> Vec<u32> {
    let gap = match r.below(16) {
        0 => 65_536 - kinds.len().min(100) as u32,
        _ => r.below(3) as u32,
    };
    laid_from(r, kinds, gap)
}

/// The same behind so many bytes.
pub fn laid_from(r: &mut Random, kinds: &[u32], mut gap: u32) -> Vec<u32> {
    let mut tape = Vec::new();
    let mut end = 0;
    for &kind in kinds {
        let start = end + gap;
        end = start + 1 + r.below(3) as u32;
        tape.extend_from_slice(&[kind, start, end, any(r), gap]);
        gap = some_gap(r);
    }
    tape
}

fn some_gap(r: &mut Random) -> u32 {
    match r.below(9) {
        0 => r.from(2, 9) as u32,
        1 | 2 => 1,
        _ => 0,
    }
}

/// An entry's numbers.
pub fn row(tape: &mut [u32], entry: usize) -> &mut [u32] {
    &mut tape[WIDTH * entry..WIDTH * (entry + 1)]
}

/// One of so many entries: the first and the last come as often as all others.
pub fn one_of(r: &mut Random, entries: usize) -> usize {
    match r.below(4) {
        0 => 0,
        1 => entries - 1,
        _ => r.below(entries),
    }
}

/// A gap that is not the distance: by one, none, the largest number, the entry's start, or counted from its line's start.
pub fn wrong_gap(r: &mut Random, row: &mut [u32], line: u32) {
    let (start, distance) = (row[1], row[4]);
    let gap = match r.below(7) {
        0 | 1 => distance + 1,
        2 => distance.wrapping_sub(1),
        3 => 0,
        4 => u32::MAX,
        5 => start,
        _ => start - line,
    };
    row[4] = if gap == distance { distance + 1 } else { gap };
}
