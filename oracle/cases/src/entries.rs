//! Kinds of entries for the walk: documents by module 10's rules, and damaged ones.
use crate::random::Random;

/// One character for each kind, 1 to 16: `a` is a name, `r` a raw one, `1 f c s b` the scalars, `#` an attribute.
const SIGNS: &[u8; 16] = b"()[]{},:ar1fcsb#";

/// Kinds by their signs.
pub fn kinds(signs: &str) -> Vec<u32> {
    signs.bytes().map(|sign| 1 + SIGNS.iter().position(|s| *s == sign).expect("a sign of a kind") as u32).collect()
}

/// Text and tape of entries of these kinds, side by side: a name is a letter, behind `r#` if it is raw, and none of 52 comes again; any other entry is its sign.
pub fn spelt(kinds: &[u32]) -> (Vec<u8>, Vec<u32>) {
    let mut letters = (b'a'..=b'z').chain(b'A'..=b'Z').cycle();
    let (mut text, mut tape) = (Vec::new(), Vec::new());
    for &kind in kinds {
        let start = text.len() as u32;
        match kind {
            9 => text.extend(letters.next()),
            10 => text.extend(b"r#".iter().copied().chain(letters.next())),
            _ => text.push(SIGNS[kind as usize - 1]),
        }
        tape.extend_from_slice(&[kind, start, text.len() as u32, 0, 0]);
    }
    (text, tape)
}

/// A document, or nearly one.
pub fn document(r: &mut Random) -> Vec<u32> {
    let mut kinds = Vec::new();
    if r.once_in(4) {
        kinds.resize(r.from(1, 3), 16);
    }
    match r.below(12) {
        0 => heap(r, &mut kinds),
        1 => nest(r, &mut kinds),
        _ => {
            let depth = r.below(5);
            value(r, &mut kinds, depth);
        }
    }
    if r.once_in(2) {
        damage(r, &mut kinds);
    }
    kinds
}

/// Kinds side by side without a rule.
fn heap(r: &mut Random, kinds: &mut Vec<u32>) {
    for _ in 0..r.from(0, 5) {
        kinds.push(any(r));
    }
}

/// Brackets inside one another, about as deep as the largest limit or a small one.
fn nest(r: &mut Random, kinds: &mut Vec<u32>) {
    let deep = match r.below(3) {
        0 => r.from(126, 130),
        _ => r.from(1, 9),
    };
    let opening: Vec<u32> = (0..deep).map(|_| r.number(&[1, 3]) as u32).collect();
    kinds.extend_from_slice(&opening);
    if r.once_in(2) {
        kinds.push(11);
    }
    kinds.extend(opening.iter().rev().map(|kind| kind + 1));
}

fn any(r: &mut Random) -> u32 {
    r.from(1, 16) as u32
}

fn name(r: &mut Random) -> u32 {
    r.number(&[9, 9, 10]) as u32
}

fn value(r: &mut Random, kinds: &mut Vec<u32>, depth: usize) {
    match r.below(8) {
        _ if depth == 0 => kinds.push(r.from(9, 15) as u32),
        0 => kinds.push(r.from(11, 15) as u32),
        1 => kinds.push(name(r)),
        2 => list(r, kinds, depth, 3, value),
        3 => list(r, kinds, depth, 5, pair),
        choice => {
            if choice % 2 == 0 {
                kinds.push(name(r));
            }
            match r.below(2) {
                0 => list(r, kinds, depth, 1, value),
                _ => list(r, kinds, depth, 1, field),
            }
        }
    }
}

fn list(r: &mut Random, kinds: &mut Vec<u32>, depth: usize, open: u32, item: fn(&mut Random, &mut Vec<u32>, usize)) {
    kinds.push(open);
    let items = r.below(4);
    for n in 1..=items {
        item(r, kinds, depth - 1);
        if n < items || r.once_in(3) {
            kinds.push(7);
        }
    }
    kinds.push(open + 1);
}

fn pair(r: &mut Random, kinds: &mut Vec<u32>, depth: usize) {
    value(r, kinds, depth);
    kinds.push(8);
    value(r, kinds, depth);
}

fn field(r: &mut Random, kinds: &mut Vec<u32>, depth: usize) {
    kinds.push(name(r));
    kinds.push(8);
    value(r, kinds, depth);
}

/// One or two changes.
fn damage(r: &mut Random, kinds: &mut Vec<u32>) {
    for _ in 0..r.from(1, 2) {
        let at = r.below(kinds.len() + 1);
        match r.below(5) {
            0 => kinds.truncate(at),
            1 if at < kinds.len() => drop(kinds.remove(at)),
            2 if at < kinds.len() => kinds[at] = any(r),
            3 if at < kinds.len() => kinds.insert(at, kinds[at]),
            _ => kinds.insert(at, any(r)),
        }
    }
}
