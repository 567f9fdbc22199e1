//! What many integers are asked: a text of integers with its tape, a list of its entries and two buffers; and where they do not agree.
use crate::laid::Laid;
use crate::random::Random;
use crate::tapes::{self, WIDTH};
use crate::{damage, names, numbers, places, strings};

pub struct Many {
    pub rooms: [u64; 2],
    pub count: u64,
    pub list: Vec<u32>,
    pub text: Vec<u8>,
    pub tape: Vec<u32>,
}

/// One case in so many has a text about the size limit.
const LIMITS: usize = 2_000;

const INTEGER: u32 = 11;

/// Half of them are as a reader's caller would ask; the others have one thing changed, or two.
pub fn any(r: &mut Random) -> Many {
    let mut many = of_reading(r);
    let changes = match r.below(16) {
        0..=7 => 0,
        8..=13 => 1,
        _ => 2,
    };
    for _ in 0..changes {
        change(r, &mut many);
    }
    if r.once_in(LIMITS) {
        lengthen(r, &mut many.text);
    }
    many.rooms = rooms(r, many.list.len() as u64);
    many
}

/// The text goes on to the largest size, or past it.
fn lengthen(r: &mut Random, text: &mut Vec<u8>) {
    let size = text.len().max(r.from(65_535, 65_538));
    let filling = r.pick(&[" ", "0", "é", "//", "/*"]).as_bytes();
    while text.len() + filling.len() <= size {
        text.extend_from_slice(filling);
    }
    text.resize(size, b' ');
}

/// So many entries, most of them integers, as they are read.
pub fn laid(r: &mut Random, entries: usize) -> Laid {
    let mut laid = Laid::default();
    while laid.tape.len() < WIDTH * entries {
        match r.below(4) {
            0 => laid.step(r),
            _ => {
                let (width, integer) = numbers::sound(r);
                laid.token(r, INTEGER, width, &integer);
                if r.once_in(2) {
                    laid.mark(r, b",,,:)(");
                }
            }
        }
    }
    laid
}

fn of_reading(r: &mut Random) -> Many {
    let entries = match r.below(4_000) {
        0 => r.from(1_000, 6_000),
        1..=80 => r.from(30, 120),
        81..=200 => r.below(2),
        _ => r.from(2, 14),
    };
    let Laid { text, tape } = laid(r, entries);
    let count = (tape.len() / WIDTH) as u64;
    let list = list(r, &tape);
    Many { rooms: [0, 0], count, list, text, tape }
}

/// Integers of the tape: all of them, turned round, some, in any order, again and again, or none; now and then entries of any kind.
fn list(r: &mut Random, tape: &[u32]) -> Vec<u32> {
    let entries = (tape.len() / WIDTH) as u32;
    let mut all: Vec<u32> = (0..entries).filter(|n| tape[WIDTH * *n as usize] == INTEGER).collect();
    if all.is_empty() {
        return all;
    }
    let some = r.from(2, 2 * all.len().min(40) + 2);
    match r.below(16) {
        0..=5 => {}
        6 | 7 => all.reverse(),
        8..=10 => all = (0..some).map(|_| all[r.below(all.len())]).collect(),
        11 => all = vec![all[r.below(all.len())]; some],
        12 => all.retain(|_| !r.once_in(3)),
        13 => all = all.iter().flat_map(|n| [*n, *n]).collect(),
        14 => all.truncate(r.below(2)),
        _ => all = (0..entries).collect(),
    }
    all
}

/// The two buffers: as long as the list, longer, or one of them or both too short, mostly by one.
fn rooms(r: &mut Random, length: u64) -> [u64; 2] {
    let longer = |r: &mut Random| match r.below(4) {
        0 => r.number(&[65_536, 1 << 32, 1 << 63, u64::MAX]).max(length),
        _ => length + r.below(20) as u64,
    };
    let shorter = |r: &mut Random| match r.below(3) {
        0 => r.below(length as usize + 1) as u64,
        _ => length.saturating_sub(1),
    };
    match r.below(32) {
        0 | 1 => [shorter(r), length],
        2 | 3 => [length, shorter(r)],
        4 => [shorter(r), shorter(r)],
        5 => [shorter(r), longer(r)],
        6 => [longer(r), shorter(r)],
        7..=12 => [longer(r), longer(r)],
        13 => [length, longer(r)],
        14 => [longer(r), length],
        _ => [length, length],
    }
}

/// One thing that is not as it was read.
fn change(r: &mut Random, many: &mut Many) {
    match r.below(16) {
        0..=4 => put_odd(r, many),
        5 | 6 => other_width(r, many),
        7 | 8 => no_integer(r, many),
        9 | 10 => other_start(r, many),
        11 => no_entry(r, many),
        12 => other_count(r, many),
        13 => other_tape(r, many),
        _ => other_text(r, many),
    }
}

/// Puts an item into the list: first, last or anywhere.
fn put_item(r: &mut Random, list: &mut Vec<u32>, item: u32) {
    let at = tapes::one_of(r, list.len() + 1);
    list.insert(at, item);
}

/// The entry of some item, or the first, if the tape has it.
fn some_entry(r: &mut Random, many: &Many) -> Option<usize> {
    let entry = match many.list.len() {
        0 => 0,
        items => many.list[tapes::one_of(r, items)] as usize,
    };
    (entry < many.tape.len() / WIDTH).then_some(entry)
}

/// An item whose text is mostly no integer of its width, with something behind it or not.
fn put_odd(r: &mut Random, many: &mut Many) {
    many.text.push(b' ');
    let start = many.text.len() as u32;
    let width = odd(r, &mut many.text);
    let end = many.text.len() as u32;
    if r.once_in(2) {
        many.text.extend_from_slice(r.pick(&[" 7", ",", "'", "8", "_", "u8", "u16", "é", "\"", " b'"]).as_bytes());
    }
    let entry = many.tape.len() / WIDTH;
    many.tape.truncate(WIDTH * entry);
    many.tape.extend_from_slice(&[INTEGER, start, end, width, 1]);
    if many.count == entry as u64 {
        many.count += 1;
    }
    put_item(r, &mut many.list, entry as u32);
}

/// What is no integer, or not all of one.
const ODD: &[&str] = &[
    "", "+", "-", "_", "_1", "-_1", "+_", "0x", "0b", "0o", "0x_", "0x_1", "-0b_1", "0b2", "0b12", "0o8", "0xg", "25f",
    "1a", "0b1f", "1é", "a", "é", " 5", "/**/5", "--1", "+-1", "u8", "i8", "+u8", "-i64", "0xu8", "0x_u8", "0b2u8",
    "1.5", "1e5", ".5", "300a", "inf", "\"7\"", "'7'", "b", "b\"7\"", "b'", "b''", "b'a", "b'ab'", "b'é'", "b'\\",
    "b'\\x", "b'\\x4", "b'\\u{", "b'\\u{4", "b'\\'", "-b'a'", "5u9", "5i128", "5u8x", "5usize",
];

/// Writes something for one entry, and gives the width to read it in.
fn odd(r: &mut Random, text: &mut Vec<u8>) -> u32 {
    let width = r.from(1, 8) as u32;
    let mostly_u8 = if r.once_in(8) { width } else { 5 };
    match r.below(10) {
        0..=2 => {
            text.extend_from_slice(r.pick(ODD).as_bytes());
            width
        }
        3 | 4 => {
            text.extend_from_slice(&numbers::too_large(r, width));
            width
        }
        5 => {
            strings::byte_literal(r, text);
            mostly_u8
        }
        6 | 7 => {
            text.extend_from_slice(b"b'");
            strings::escape(r, text);
            text.push(b'\'');
            mostly_u8
        }
        8 => {
            text.extend_from_slice(&numbers::sound(r).1);
            width
        }
        _ => {
            numbers::integer(r, text);
            width
        }
    }
}

/// Another of the eight widths, for one item or for all entries.
fn other_width(r: &mut Random, many: &mut Many) {
    let width = r.from(1, 8) as u32;
    if r.once_in(4) {
        many.tape.chunks_exact_mut(WIDTH).for_each(|row| row[3] = width);
    } else if let Some(entry) = some_entry(r, many) {
        tapes::row(&mut many.tape, entry)[3] = width;
    }
}

/// Another kind, or a detail that is no width.
fn no_integer(r: &mut Random, many: &mut Many) {
    let Some(entry) = some_entry(r, many) else { return };
    let row = tapes::row(&mut many.tape, entry);
    let width = r.number(&[0, 9, 10, 16, 17, 21, 24, 255, 261, 65_541, u64::from(u32::MAX)]) as u32;
    match r.below(5) {
        0 => row[0] = tapes::any(r),
        1 => row[0] = 12,
        2 => (row[0], row[3]) = (tapes::any(r), width),
        _ => row[3] = width,
    }
}

/// A start inside a character, at the text's end or past it, or near its own.
fn other_start(r: &mut Random, many: &mut Many) {
    let Some(entry) = some_entry(r, many) else { return };
    let text = &many.text;
    let row = tapes::row(&mut many.tape, entry);
    let inside: Vec<usize> = (0..text.len()).filter(|at| text[*at] & 0xc0 == 0x80).collect();
    row[1] = match r.below(8) {
        0..=2 if !inside.is_empty() => inside[r.below(inside.len())] as u32,
        3 => text.len() as u32,
        4 => (text.len() + r.from(1, 4)) as u32,
        5 => u32::MAX,
        _ => places::near(r, row[1] as usize, text) as u32,
    };
}

/// An item that is no entry: the count, the tape's room, or far above both.
fn no_entry(r: &mut Random, many: &mut Many) {
    let entries = (many.tape.len() / WIDTH) as u32;
    let item = match r.below(4) {
        0 => r.number(&[65_536, 1 << 31, u64::from(u32::MAX)]) as u32,
        1 => entries + r.below(4) as u32,
        _ => many.count.min(u64::from(u32::MAX)) as u32,
    };
    put_item(r, &mut many.list, item);
}

/// A count that leaves entries out, or that the tape has no room for.
fn other_count(r: &mut Random, many: &mut Many) {
    let entries = many.tape.len() / WIDTH;
    many.count = match r.below(4) {
        0 => r.below(entries + 1) as u64,
        1 => entries as u64 + 1,
        2 => r.number(&[1 << 32, tapes::PAST_32_BITS, tapes::PAST_64_BITS, 1 << 63, u64::MAX]),
        _ => tapes::off(r, entries),
    };
}

/// Numbers cut off or put behind, or one that is another.
fn other_tape(r: &mut Random, many: &mut Many) {
    let tape = &mut many.tape;
    match r.below(4) {
        0 => tape.truncate(r.below(tape.len() + 1)),
        1 => tape.resize(tape.len().saturating_sub(r.from(1, WIDTH)), 0),
        2 => tape.resize(tape.len() + r.below(2 * WIDTH), 7),
        _ if tape.is_empty() => {}
        _ => {
            let at = r.below(tape.len());
            tape[at] = tapes::any(r);
        }
    }
}

/// A text that is damaged, cut short, or no UTF-8.
fn other_text(r: &mut Random, many: &mut Many) {
    match r.below(4) {
        0 => {
            let bad = r.pick(damage::NOT_UTF8);
            let at = r.below(many.text.len() + 1);
            many.text.splice(at..(at + bad.len()).min(many.text.len()), bad.iter().copied());
        }
        1 => many.text.truncate(places::fit(r, &many.text)),
        _ => damage::damage(r, &mut many.text),
    }
}

/// Numbers of many kinds side by side, most of them integers that are read.
pub fn text(r: &mut Random) -> Vec<u8> {
    let mut text = Vec::new();
    let pieces = match r.below(1_500) {
        0 => r.from(1_000, 5_000),
        1..=30 => r.from(30, 120),
        _ => r.below(9),
    };
    let odd_ones = if r.once_in(2) { 12 } else { usize::MAX };
    for _ in 0..pieces {
        match r.below(16) {
            _ if r.once_in(odd_ones) => drop(odd(r, &mut text)),
            0 if r.once_in(2) => numbers::number(r, &mut text),
            1 => names::name(r, &mut text),
            2 => text
                .extend_from_slice(r.pick(&["1.5", "-.5", "1e5", "inf", "NaN", "\"7\"", "'7'", "b\"7\""]).as_bytes()),
            _ => text.extend_from_slice(&numbers::sound(r).1),
        }
        let between =
            [" ", " ", " ", " ", " ", ",", ",", ", ", "\n", "\n    ", "/*8*/", "//8\n", ": ", ")", "\u{85}", "(", ""];
        text.extend_from_slice(r.pick(&between).as_bytes());
    }
    text
}
