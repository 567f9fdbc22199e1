//! `p A B NEWHEX HEX` and `P COUNT OLDLEN A B HEX N,N,..`: repair is the port's addition, of which the crate knows nothing.
//! A plain model of document 01's sentences, with document 02's on the gap: the crate reads the new text from its front, and what
//! was kept is counted over the two lists of entries. It takes no step that an implementation would take.
use std::io::Write;

use crate::line::{Line, Store};
use crate::read::{entries, print_entries, Entry, WIDTH};
use crate::refusal::{Answer, Refusal};
use crate::text::text;

/// The old text's length, and the cut in it.
struct Cut {
    old_length: usize,
    from: usize,
    to: usize,
}

/// The new entries, and how many of the old ones are kept at each end.
struct Repaired {
    entries: Vec<Entry>,
    before: usize,
    behind: usize,
}

pub fn of_text(words: &mut Line, store: &mut Store, out: &mut Vec<u8>) -> Option<Answer> {
    let (from, to) = (words.number()?, words.number()?);
    words.bytes(&mut store.put)?;
    words.bytes(&mut store.text)?;
    words.end()?;
    let old = &store.text;
    if from > to || to > old.len() {
        return None;
    }
    let new = [&old[..from], &store.put, &old[to..]].concat();
    Some(read_and_repair(old, &Cut { old_length: old.len(), from, to }, &new, out))
}

pub fn of_any_tape(words: &mut Line, store: &mut Store, out: &mut Vec<u8>) -> Option<Answer> {
    let (count, old_length) = (words.number()?, words.number()?);
    let (from, to) = (words.number()?, words.number()?);
    words.bytes(&mut store.text)?;
    words.tape(&mut store.tape)?;
    words.end()?;
    Some(repair(count, &store.tape, &Cut { old_length, from, to }, &store.text, out))
}

/// With room enough for both texts: never 22, and never 23.
fn read_and_repair(old: &[u8], cut: &Cut, new: &[u8], out: &mut Vec<u8>) -> Answer {
    let old = match text(old).and_then(entries) {
        Ok(old) => old,
        Err(refusal) => {
            out.extend_from_slice(b"old ");
            refusal.print(out);
            return Ok(());
        }
    };
    let found = repaired(&old, cut, text(new)?)?;
    print_counts(&found, out);
    print_entries(&found.entries, out);
    Ok(())
}

/// 1, 2, 23, those of reading the new text, and 22 last.
fn repair(count: usize, tape: &[u32], cut: &Cut, new: &[u8], out: &mut Vec<u8>) -> Answer {
    let new = text(new)?;
    let room = tape.len() / WIDTH;
    if !lengths_agree(cut, new.len()) || count > room {
        return Err(Refusal::new(23, 0));
    }
    let old: Vec<Entry> = tape.chunks_exact(WIDTH).take(count).map(Entry::of).collect();
    if !in_order(&old, cut.old_length) {
        return Err(Refusal::new(23, 0));
    }
    let found = repaired(&old, cut, new)?;
    if found.entries.len() > room {
        return Err(Refusal::new(22, 0));
    }
    print_counts(&found, out);
    let afterwards = written(tape, count, &found.entries);
    for (number, between) in afterwards.iter().zip([";"].into_iter().chain(std::iter::repeat(" "))) {
        let _ = write!(out, "{between}{number}");
    }
    Ok(())
}

/// "a ≤ b ≤ old length, new length + b ≥ old length + a".
fn lengths_agree(cut: &Cut, new_length: usize) -> bool {
    let wide = |n: usize| n as u128;
    cut.from <= cut.to
        && cut.to <= cut.old_length
        && wide(new_length) + wide(cut.to) >= wide(cut.old_length) + wide(cut.from)
}

/// "kinds are 1 to 16, each start is below its end, no entry starts before the former's end, and the last ends within the old length";
/// "23 also where a gap does not equal that distance".
fn in_order(entries: &[Entry], length: usize) -> bool {
    entries.iter().all(|e| (1..=16).contains(&e.kind))
        && entries.iter().all(|e| e.start < e.end)
        && entries.windows(2).all(|two| two[0].end <= two[1].start)
        && entries.last().is_none_or(|e| e.end <= length)
        && gaps_agree(entries)
}

/// "The bytes between the former entry's end, or the text's start, and its own start", of entries that start in order.
fn gaps_agree(entries: &[Entry]) -> bool {
    let former_ends = [0].into_iter().chain(entries.iter().map(|e| e.end));
    entries.iter().zip(former_ends).all(|(e, former_end)| e.gap == e.start - former_end)
}

/// Kept before: "the old entries with a quiet byte at or behind their end and before a".
/// Kept behind: "the largest k such that the last k new entries start at or behind the new bytes' end and are the last k old ones,
/// moved by the change of length", where "an entry kept behind must agree in its gap as well"; what holds of the last k holds of fewer.
fn repaired(old: &[Entry], cut: &Cut, new: &str) -> Answer<Repaired> {
    let entries = entries(new)?;
    let quiet_before = |place: usize| new.as_bytes().get(place..cut.from).is_some_and(|b| b.iter().any(is_quiet));
    let before = old.iter().filter(|e| quiet_before(e.end)).count();
    let put_end = new.len() - (cut.old_length - cut.to);
    let change = new.len() as i128 - cut.old_length as i128;
    let from_the_last = entries.iter().rev().zip(old.iter().rev());
    let behind = from_the_last.take_while(|(new, old)| new.start >= put_end && is_moved(old, change, new)).count();
    Ok(Repaired { entries, before, behind })
}

/// "space, tab, LF, CR, comma, colon or any of the six brackets".
pub fn is_quiet(byte: &u8) -> bool {
    b" \t\n\r,:()[]{}".contains(byte)
}

fn is_moved(old: &Entry, change: i128, new: &Entry) -> bool {
    let moved = |place: usize| place as i128 + change;
    old.kind == new.kind
        && old.detail == new.detail
        && old.gap == new.gap
        && moved(old.start) == new.start as i128
        && moved(old.end) == new.end as i128
}

/// "The slice holds the new entries, zeros up to the old count, and beyond it what stood there."
fn written(tape: &[u32], count: usize, entries: &[Entry]) -> Vec<u32> {
    let mut slice = tape.to_vec();
    slice[..WIDTH * count].fill(0);
    for (row, e) in slice.chunks_exact_mut(WIDTH).zip(entries) {
        row.copy_from_slice(&e.row());
    }
    slice
}

fn print_counts(found: &Repaired, out: &mut Vec<u8>) {
    let _ = write!(out, "ok {} {} {}", found.entries.len(), found.before, found.behind);
}
