//! `I LISTROOM CODEROOM COUNT E,E,.. HEX N,N,..` and `n HEX`: many integers in one call, change request 7.
//! The crate reads each of them, as for `i`; the rest is the request's sentences, one after the other.
use std::io::Write;

use crate::integer::value;
use crate::line::{Line, Store};
use crate::read::{entries, Entry, WIDTH};
use crate::refusal::{Answer, Refusal};
use crate::run::parser_at;
use crate::text::{fit, is_place, text};

const INTEGER: u32 = 11;

/// What a code adds to the width "if the value is below zero".
const BELOW_ZERO: usize = 16;

/// What the call is given beside the text and the tape: the lengths of the buffers for magnitudes and codes, the count, and the list of entry numbers.
struct Asked<'a> {
    rooms: [usize; 2],
    count: usize,
    list: &'a [u32],
}

/// "The magnitude and a code."
struct Written {
    magnitude: u128,
    code: usize,
}

pub fn of_any_tape(words: &mut Line, store: &mut Store, out: &mut Vec<u8>) -> Option<Answer> {
    let rooms = [words.number()?, words.number()?];
    let count = words.number()?;
    words.list(&mut store.list)?;
    words.bytes(&mut store.text)?;
    words.tape(&mut store.tape)?;
    words.end()?;
    let asked = Asked { rooms, count, list: &store.list };
    Some(integers(&asked, &store.text, &store.tape, out))
}

pub fn of_text(words: &mut Line, store: &mut Store, out: &mut Vec<u8>) -> Option<Answer> {
    words.bytes(&mut store.text)?;
    words.end()?;
    Some(read_and_list(&store.text, out))
}

/// Every integer of a text in order, into buffers that are long enough.
fn read_and_list(bytes: &[u8], out: &mut Vec<u8>) -> Answer {
    let entries = entries(text(bytes)?)?;
    let tape: Vec<u32> = entries.iter().flat_map(Entry::row).collect();
    let list: Vec<u32> = (0..).zip(&entries).filter(|(_, e)| e.kind == INTEGER).map(|(number, _)| number).collect();
    let asked = Asked { rooms: [list.len(); 2], count: entries.len(), list: &list };
    integers(&asked, bytes, &tape, out)
}

/// "Refusals: 1, 2; 23 where the count doesn't fit the tape; 28, 27 and those of reading by item; then 22 if either buffer is shorter than the list."
fn integers(asked: &Asked, bytes: &[u8], tape: &[u32], out: &mut Vec<u8>) -> Answer {
    let text = text(bytes)?;
    if asked.count > tape.len() / WIDTH {
        return Err(Refusal::new(23, 0));
    }
    let entries: Vec<Entry> = tape.chunks_exact(WIDTH).take(asked.count).map(Entry::of).collect();
    let mut written = Vec::new();
    for (item, &number) in asked.list.iter().enumerate() {
        let answer = single(entries.get(number as usize), text);
        // "with the item's number as the place"; number and reason are the single call's
        written.push(answer.map_err(|refusal| Refusal { place: item, ..refusal })?);
    }
    if asked.rooms.iter().any(|&room| room < asked.list.len()) {
        return Err(Refusal::new(22, 0));
    }
    print(&written, out);
    Ok(())
}

/// One item: its entry is among the first COUNT and starts at a place (28), is an integer of a width (27), and is "read in its entry's width".
fn single(entry: Option<&Entry>, text: &str) -> Answer<Written> {
    let entry = entry.ok_or(Refusal::new(28, 0))?;
    fit(is_place(text, entry.start))?;
    let width = entry.detail;
    if entry.kind != INTEGER || !(1..=8).contains(&width) {
        return Err(Refusal::new(27, 0));
    }
    let value = value(width, &mut parser_at(text, entry.start))?;
    let code = if value < 0 { width + BELOW_ZERO } else { width };
    Ok(Written { magnitude: value.unsigned_abs(), code })
}

fn print(written: &[Written], out: &mut Vec<u8>) {
    out.extend_from_slice(b"ok");
    for (number, between) in written.iter().zip([" "].into_iter().chain(std::iter::repeat(";"))) {
        let _ = write!(out, "{between}{} {}", number.magnitude, number.code);
    }
}
