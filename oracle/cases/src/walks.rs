//! What the walk of any tape is asked: a text, a tape that is mostly of it, and where they do not agree.
use crate::random::Random;
use crate::tapes::{self, WIDTH};
use crate::{damage, entries, fields, limits};

pub struct Walk {
    pub limit: u64,
    pub links: u64,
    pub count: u64,
    pub text: Vec<u8>,
    pub tape: Vec<u32>,
}

/// One case in so many has a text at the size limit.
const LIMITS: usize = 10_000;

/// Most are of records with their own text; of one in four only the kinds are chosen.
pub fn any(r: &mut Random) -> Walk {
    let mut walk = match r.below(4) {
        0 => of_kinds(r),
        _ => of_fields(r),
    };
    match r.below(32) {
        0..=3 => another_text(r, &mut walk),
        4 | 5 => unfit_text(r, &mut walk),
        6..=8 => unfit_name(r, &mut walk),
        9 => switched(r, &mut walk.tape),
        10..=16 => unfit_tape(r, &mut walk),
        _ => {}
    }
    walk
}

/// Links and count for so many entries: mostly as many; at times a count that leaves some out.
fn asked(r: &mut Random, limit: u64, text: Vec<u8>, tape: Vec<u32>) -> Walk {
    let entries = tape.len() / WIDTH;
    let count = match r.below(8) {
        0 => r.below(entries + 1) as u64,
        _ => tapes::off(r, entries),
    };
    let links = match r.below(12) {
        0 => tapes::off(r, entries),
        1 => entries as u64 + r.below(4) as u64,
        2 => count.saturating_sub(1),
        _ => count,
    };
    Walk { limit, links: links.min(65_536), count, text, tape }
}

fn of_fields(r: &mut Random) -> Walk {
    let tokens = fields::document(r);
    let laid = fields::laid(r, &tokens);
    let limit = fields::limit(r, &tokens);
    asked(r, limit, laid.text, laid.tape)
}

/// Entries of any kinds over a text of few letters, so that names come again.
fn of_kinds(r: &mut Random) -> Walk {
    let kinds = entries::document(r);
    let mut tape = match r.once_in(LIMITS) {
        true => tapes::laid_from(r, &kinds, 65_536 - kinds.len().min(100) as u32),
        false => {
            let gap = r.below(3) as u32;
            tapes::laid_from(r, &kinds, gap)
        }
    };
    widen_raw_names(&mut tape);
    let text = text_of_letters(r, &tape);
    let limit = tapes::limit(r);
    asked(r, limit, text, tape)
}

/// Raw names get three bytes more, and all behind them moves.
fn widen_raw_names(tape: &mut [u32]) {
    let mut more = 0;
    for row in tape.chunks_exact_mut(WIDTH) {
        row[1] += more;
        if row[0] == 10 {
            more += 3;
        }
        row[2] += more;
    }
}

/// As many bytes as the last entry needs, few letters, `r#` at each raw name.
fn text_of_letters(r: &mut Random, tape: &[u32]) -> Vec<u8> {
    let letters = r.pick(&["a", "ab", "ab", "abc#r", "r#"]).as_bytes();
    let length = end(tape).min(65_537) as usize;
    let mut text: Vec<u8> = (0..length).map(|_| byte(r, letters)).collect();
    for row in tape.chunks_exact(WIDTH).filter(|row| row[0] == 10) {
        if let Some(front) = text.get_mut(row[1] as usize..row[1] as usize + 2) {
            front.copy_from_slice(b"r#");
        }
    }
    text
}

fn byte(r: &mut Random, of: &[u8]) -> u8 {
    of[r.below(of.len())]
}

fn end(tape: &[u32]) -> u32 {
    tape.last_chunk::<WIDTH>().map_or(0, |row| row[2])
}

/// A name, or a raw one, among the entries within the text.
fn some_name(r: &mut Random, walk: &Walk, kinds: &[u32]) -> Option<usize> {
    let rows = walk.tape.chunks_exact(WIDTH).enumerate();
    let is_name = |row: &[u32]| kinds.contains(&row[0]) && row[2] as usize <= walk.text.len();
    let names: Vec<usize> = rows.filter(|(_, row)| is_name(row)).map(|(n, _)| n).collect();
    (!names.is_empty()).then(|| names[tapes::one_of(r, names.len())])
}

/// A text that the tape is not of: one name in the place of others, few letters everywhere, characters across the ends of entries, or one that goes on.
fn another_text(r: &mut Random, walk: &mut Walk) {
    match r.below(5) {
        0 => walk.text = text_of_letters(r, &walk.tape),
        1 => copy_name(r, walk),
        2 => {
            for at in 0..walk.text.len() / 2 {
                if r.once_in(3) {
                    walk.text[2 * at..2 * at + 2].copy_from_slice("é".as_bytes());
                }
            }
        }
        3 => walk.text.extend_from_slice(r.pick(&[" ", ")", "a", "//", "é", "\0"]).as_bytes()),
        _ => {
            let letter = byte(r, b"ar#");
            walk.text.iter_mut().filter(|b| b.is_ascii_alphanumeric()).for_each(|b| *b = letter);
        }
    }
}

/// The bytes of one name over those of another, as far as they go.
fn copy_name(r: &mut Random, walk: &mut Walk) {
    let (Some(from), Some(to)) = (some_name(r, walk, &[9, 10]), some_name(r, walk, &[9, 10])) else { return };
    let part = |n: usize| walk.tape[WIDTH * n + 1] as usize..walk.tape[WIDTH * n + 2] as usize;
    let (from, to) = (part(from), part(to));
    let bytes = walk.text[from].to_vec();
    let end = to.end.min(to.start + bytes.len());
    walk.text[to.start..end].copy_from_slice(&bytes[..end - to.start]);
}

/// A text that is cut short, is no UTF-8, or is too long.
fn unfit_text(r: &mut Random, walk: &mut Walk) {
    match r.below(4) {
        0 => {
            let bad = r.pick(damage::NOT_UTF8);
            let at = r.below(walk.text.len() + 1);
            walk.text.splice(at..(at + bad.len()).min(walk.text.len()), bad.iter().copied());
        }
        1 if r.once_in(400) => walk.text = limits::text(r),
        1 | 2 => walk.text.truncate(walk.text.len().saturating_sub(1)),
        _ => walk.text.truncate(r.below(walk.text.len() + 1)),
    }
}

/// A raw name that is none: another byte, `r#` alone, or a name that is said to be raw; at times a raw name that is said to be none, or one of `r#r#`.
fn unfit_name(r: &mut Random, walk: &mut Walk) {
    let kinds: &[u32] = if r.once_in(4) { &[9] } else { &[10] };
    let Some(n) = some_name(r, walk, kinds) else { return };
    let row = tapes::row(&mut walk.tape, n);
    let start = row[1] as usize;
    match r.below(7) {
        0 => walk.text[start] = byte(r, b"Rb#_"),
        1 if row[2] - row[1] > 1 => walk.text[start + 1] = byte(r, b"r_!\""),
        2 => {
            row[2] = row[1] + 1 + r.below(2) as u32;
            mend_gap(&mut walk.tape, n + 1);
        }
        3 if row[2] - row[1] > 4 => walk.text[start..start + 4].copy_from_slice(b"r#r#"),
        4 if row[2] - row[1] > 2 => walk.text[start..start + 2].copy_from_slice(b"r#"),
        _ => row[0] = 19 - row[0],
    }
}

/// Raw names that are said to be none: all of them, or half.
fn switched(r: &mut Random, tape: &mut [u32]) {
    let all = r.from(1, 2);
    for row in tape.chunks_exact_mut(WIDTH).filter(|row| row[0] == 10) {
        if r.once_in(all) {
            row[0] = 9;
        }
    }
}

/// The gap of an entry, if there is one, behind one whose end was changed.
fn mend_gap(tape: &mut [u32], entry: usize) {
    if WIDTH * entry < tape.len() {
        let former_end = tape[WIDTH * entry - WIDTH + 2];
        let row = tapes::row(tape, entry);
        row[4] = row[1] - former_end;
    }
}

/// Numbers of the tape that are cut off, changed or too many; mostly a wrong gap.
fn unfit_tape(r: &mut Random, walk: &mut Walk) {
    let tape = &mut walk.tape;
    let entries = tape.len() / WIDTH;
    match r.below(9) {
        0 => tape.truncate(r.below(tape.len() + 1)),
        1 if entries > 0 => {
            let at = r.below(tape.len());
            tape[at] = tapes::any(r);
        }
        2 => tape.resize(tape.len() + r.below(2 * WIDTH), 7),
        _ if entries > 0 => {
            let entry = tapes::one_of(r, entries);
            let line = r.below(tape[WIDTH * entry + 1] as usize + 1) as u32;
            tapes::wrong_gap(r, tapes::row(tape, entry), line);
        }
        _ => {}
    }
}
