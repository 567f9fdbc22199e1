//! Case number `n` of a seed.
use crate::arrivals::Cut;
use crate::documents::Draft;
use crate::edits::Edit;
use crate::random::Random;
use crate::tapes::WIDTH;
use crate::{
    alphabet, arrivals, damage, edits, fields, gaps, limits, line, many, names, numbers, places, repairs, strings,
    tapes, walks,
};

/// One case in so many that have no short text has one at the size limit: one in 20,000 of all.
const LIMITS: usize = 15_000;

/// A text for a call, the place in it to ask about, and about how many entries it has.
#[derive(Default)]
struct Sample {
    text: Vec<u8>,
    place: usize,
    entries: usize,
}

/// Writes the case line (without its end) of case `n`.
pub fn case(seed: u64, n: u64, calls: &[u8], into: &mut Vec<u8>) {
    let mut r = Random::of_case(seed, n);
    let call = calls[(n % calls.len() as u64) as usize];
    let round = n / calls.len() as u64;
    match call {
        b'p' => line::edit(into, &edit(&mut r, seed, round)),
        b'P' => line::repair(into, &repairs::any(&mut r)),
        b'W' => line::walk_of(into, &walks::any(&mut r)),
        b'w' if round % 2 == 1 => walk(&mut r, into),
        b'I' => line::integers_of(into, &many::any(&mut r)),
        b'q' => line::pieces(into, &pieces(&mut r, seed, round)),
        b'Q' => line::piece(into, &arrivals::call(&mut r)),
        b'n' if round % 4 != 0 => integers(&mut r, into),
        _ => {
            let sample = match round % 4 {
                0 => Sample { text: short(&mut r, seed, round / 4, call), ..Sample::default() },
                _ if r.once_in(LIMITS) => Sample { text: limits::text(&mut r), ..Sample::default() },
                _ => sample(&mut r, call),
            };
            write(&mut r, call, &sample, into);
        }
    }
    if r.once_in(400) {
        spoil(&mut r, into);
    }
}

/// Where the seed starts the walk through the short texts.
fn first_short(seed: u64) -> u64 {
    Random::of_case(seed, u64::MAX).next() >> 16
}

fn edit(r: &mut Random, seed: u64, round: u64) -> Edit {
    match round % 4 {
        0 => edits::of_short_text(r, first_short(seed) + round / 4),
        _ => edits::any(r),
    }
}

/// A short text in pieces, or any.
fn pieces(r: &mut Random, seed: u64, round: u64) -> Cut {
    match round % 4 {
        0 => {
            let text = short(r, seed, round / 4, b'q');
            arrivals::cut(r, text)
        }
        _ => arrivals::any(r),
    }
}

/// A document of records, in which names come again, at times damaged.
fn walk(r: &mut Random, into: &mut Vec<u8>) {
    if r.once_in(LIMITS) {
        return line::walk(into, tapes::limit(r), &limits::text(r));
    }
    let tokens = fields::document(r);
    let mut text = fields::laid(r, &tokens).text;
    if r.once_in(12) {
        damage::damage(r, &mut text);
    }
    line::walk(into, fields::limit(r, &tokens), &text);
}

/// A text of numbers of many kinds, most of which are read; at times damaged.
fn integers(r: &mut Random, into: &mut Vec<u8>) {
    if r.once_in(LIMITS) {
        return line::integers(into, &limits::text(r));
    }
    let mut text = many::text(r);
    if r.once_in(8) {
        damage::damage(r, &mut text);
    }
    line::integers(into, &text);
}

/// The short texts, from a place that the seed chooses, behind what makes the call look further;
/// one in eight is nearly UTF-8 instead.
fn short(r: &mut Random, seed: u64, number: u64, call: u8) -> Vec<u8> {
    let from = first_short(seed);
    if number % 8 == 7 {
        return alphabet::nearly_utf8(from + number / 8);
    }
    let front = match call {
        b'c' | b'C' => r.pick(&["", "\"", "\"", "b\"", "r", "br", "r#\"", "\"\\"]),
        b'k' => r.pick(&["", "(", "(", "(1", "(a"]),
        b'r' | b'R' | b'q' if r.once_in(6) => r.pick(&["#![", "#![enable(", "#![type=", "#![enable(implicit_some"]),
        _ => "",
    };
    [front.as_bytes(), &alphabet::of_call(call).text(from + number - number / 8)].concat()
}

/// A text that suits the call, half of them damaged.
fn sample(r: &mut Random, call: u8) -> Sample {
    let mut draft = Draft::default();
    let place = match call {
        b's' => skipped(r, &mut draft.text),
        b'i' => placed(r, &mut draft.text, typed),
        b'c' | b'C' => placed(r, &mut draft.text, strung),
        b'k' => record(r, &mut draft),
        _ => {
            draft.document(r);
            0
        }
    };
    if r.once_in(2) {
        damage::damage(r, &mut draft.text);
    }
    Sample { text: draft.text, place, entries: draft.entries }
}

fn skipped(r: &mut Random, text: &mut Vec<u8>) -> usize {
    for _ in 0..r.from(1, 3) {
        gaps::gap(r, text);
        if r.once_in(3) {
            text.extend_from_slice(r.pick(&["a", "1", "(", "é", "\"//\"", "/", "*/"]).as_bytes());
        }
    }
    0
}

/// Something at a place with something before and behind it.
fn placed(r: &mut Random, text: &mut Vec<u8>, make: fn(&mut Random, &mut Vec<u8>)) -> usize {
    if r.once_in(3) {
        text.extend_from_slice(r.pick(&["é", "·", "(", "a: ", "[\"", "/**/ ", "r", "b", "-"]).as_bytes());
    }
    let place = text.len();
    make(r, text);
    if r.once_in(3) {
        let behind = ["é", "\u{301}", "×", ")", ", 1", "\"", "#", "'", "u8", "_", ".5", "\u{85}"];
        text.extend_from_slice(r.pick(&behind).as_bytes());
    }
    place
}

fn typed(r: &mut Random, text: &mut Vec<u8>) {
    match r.below(10) {
        0 => strings::byte_literal(r, text),
        1 => numbers::number(r, text),
        2 if r.once_in(4) => names::name(r, text),
        _ => numbers::integer(r, text),
    }
}

fn strung(r: &mut Random, text: &mut Vec<u8>) {
    match r.below(12) {
        0 => strings::quoted(r, text),
        1 if r.once_in(3) => names::name(r, text),
        1..=4 => strings::byte_string(r, text),
        _ => strings::string(r, text),
    }
}

/// A record with something before it.
fn record(r: &mut Random, draft: &mut Draft) -> usize {
    if r.once_in(4) {
        names::name(r, &mut draft.text);
    }
    let place = draft.text.len();
    match r.below(4) {
        0 => draft.heap(r),
        1 => draft.value(r, 3),
        _ => {
            draft.text.push(b'(');
            draft.value(r, 2);
            gaps::between(r, &mut draft.text);
            draft.text.extend_from_slice(r.pick(&[")", ",)", ",1)", ", a)", "", ":1)", "]"]).as_bytes());
        }
    }
    place
}

fn write(r: &mut Random, call: u8, sample: &Sample, into: &mut Vec<u8>) {
    let text = &sample.text;
    match call {
        b's' => {
            let (cursor, pre, len) = places::cursor(r, text);
            line::skip(into, cursor, pre, len, text);
        }
        b'i' => line::integer(into, r.from(1, 8) as u64, places::near(r, sample.place, text), text),
        b'c' => {
            let (kind, start) = entry(r, sample);
            line::contents(into, kind, start, text);
        }
        b'C' => {
            let (kind, start) = entry(r, sample);
            let asked = tapes::around(r, kind, start);
            line::contents_of(into, asked.entry, asked.count, buffer(r), text, &asked.tape);
        }
        b'k' => {
            let modes = [r.below(2) as u64, u64::from(!r.once_in(4))];
            line::struct_kind(into, modes, places::near(r, sample.place, text), text);
        }
        b'R' => line::read_into(into, room(r, sample.entries), text),
        b'w' => line::walk(into, tapes::limit(r), text),
        b'n' => line::integers(into, text),
        _ => line::read(into, text),
    }
}

/// Kind and start of an entry to ask the contents of.
fn entry(r: &mut Random, sample: &Sample) -> (u32, u32) {
    let first = sample.text.get(sample.place);
    let kind = match r.below(12) {
        0 => r.below(18) as u32,
        1 => r.number(&[14, 15, 270, u64::from(u32::MAX)]) as u32,
        _ if first == Some(&b'b') => 15,
        _ => 14,
    };
    (kind, places::near(r, sample.place, &sample.text) as u32)
}

fn buffer(r: &mut Random) -> u64 {
    match r.below(4) {
        0 => r.below(4) as u64,
        1 => r.below(12) as u64,
        2 => 65_536,
        _ => 100,
    }
}

/// Numbers of a tape: about as many as the entries need, or a few.
fn room(r: &mut Random, entries: usize) -> u64 {
    match r.below(6) {
        0 => r.below(3 * WIDTH) as u64,
        1 => (WIDTH * 65_536) as u64,
        2 => (WIDTH * entries + r.below(12)).saturating_sub(6) as u64,
        _ => (WIDTH * entries + r.below(WIDTH)) as u64,
    }
}

/// Makes most lines no case; it never changes a number of a tape that is to be repaired.
fn spoil(r: &mut Random, line: &mut Vec<u8>) {
    let at = r.below(line.len().min(40));
    match r.below(8) {
        0 => line.insert(at, b' '),
        1 if line[0] != b'P' => drop(line.pop()),
        2 => line.push(b' '),
        3 => line.extend_from_slice(b" 0"),
        4 => line[at] = b'A',
        5 => line.clear(),
        6 => line[0] = b'x',
        _ => line.insert(at, b'-'),
    }
}
