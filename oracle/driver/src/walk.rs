//! `w LIMIT HEX` and `W LIMIT LINKS COUNT HEX N,N,..`: the walk is the port's addition, of which the crate knows nothing.
//! A plain model of module 10: a document is what `grammar.rs` derives, 25 stands where none begins so any more. With it stands document 02's
//! "within one `( )` of fields no name may come again": every open bracket has a set of its names.
use std::collections::HashSet;
use std::io::Write;

use crate::grammar::Recogniser;
use crate::line::{Line, Store};
use crate::read::{entries, Entry, WIDTH};
use crate::refusal::{Answer, Refusal};
use crate::text::text;

const DEEPEST: usize = 128;

pub fn of_text(words: &mut Line, store: &mut Store, out: &mut Vec<u8>) -> Option<Answer> {
    let limit = words.number()?;
    words.bytes(&mut store.text)?;
    words.end()?;
    Some(read_and_walk(limit, &store.text, out))
}

pub fn of_any_tape(words: &mut Line, store: &mut Store, out: &mut Vec<u8>) -> Option<Answer> {
    let (limit, links, count) = (words.number()?, words.number()?, words.number()?);
    words.bytes(&mut store.text)?;
    words.tape(&mut store.tape)?;
    words.end()?;
    Some(walk(limit, links, count, &store.text, &store.tape, out))
}

fn read_and_walk(limit: usize, bytes: &[u8], out: &mut Vec<u8>) -> Answer {
    let entries = entries(text(bytes)?)?;
    let tape: Vec<u32> = entries.iter().flat_map(Entry::row).collect();
    walk(limit, entries.len(), entries.len(), bytes, &tape, out)
}

/// 1, 2, 28, 23, 22, then what the entries say.
fn walk(limit: usize, links: usize, count: usize, bytes: &[u8], tape: &[u32], out: &mut Vec<u8>) -> Answer {
    let refuse = |number, place| Err(Refusal::new(number, place));
    let text = text(bytes)?.as_bytes();
    if limit > DEEPEST {
        return refuse(28, 0);
    }
    if count > tape.len() / WIDTH {
        return refuse(23, 0);
    }
    let entries: Vec<Entry> = tape.chunks_exact(WIDTH).take(count).map(Entry::of).collect();
    if !in_order(&entries, text.len()) || !raw_names_are_raw(&entries, text) {
        return refuse(23, 0);
    }
    if links < count {
        return refuse(22, 0);
    }
    judge(limit, &entries, text)?;
    out.extend_from_slice(b"ok");
    for link in joined(&entries) {
        let _ = write!(out, " {link}");
    }
    Ok(())
}

/// "Kinds are 1 to 16, each start is below its end, no entry starts before the former's end"; "23 also where a gap does not equal that distance";
/// 23 for "an entry that ends past the text", which is nowhere above 65,536 bytes.
fn in_order(entries: &[Entry], length: usize) -> bool {
    let mut behind = 0;
    for e in entries {
        let fit = (1..=16).contains(&e.kind) && behind <= e.start && e.start < e.end;
        if !fit || e.gap != e.start - behind {
            return false;
        }
        behind = e.end;
    }
    behind <= length
}

const NAME: u32 = 9;
const RAW_NAME: u32 = 10;
const RAW: &[u8] = b"r#";

/// 23 for "a raw name entry that isn't `r#` with more behind it", of entries within the text.
fn raw_names_are_raw(entries: &[Entry], text: &[u8]) -> bool {
    let is_raw = |e: &Entry| text[e.start..e.end].strip_prefix(RAW).is_some_and(|name| !name.is_empty());
    entries.iter().filter(|e| e.kind == RAW_NAME).all(is_raw)
}

fn is_name(kind: u32) -> bool {
    matches!(kind, NAME | RAW_NAME)
}

/// "`r#width` and `width` are one name": the bytes of a name, and those behind the `r#` of a raw one. The kind decides, not the bytes.
fn name<'a>(e: &Entry, text: &'a [u8]) -> &'a [u8] {
    let bytes = &text[e.start..e.end];
    match e.kind {
        RAW_NAME => bytes.strip_prefix(RAW).unwrap_or(bytes),
        _ => bytes,
    }
}

fn opens(kind: u32) -> bool {
    matches!(kind, 1 | 3 | 5)
}

fn closes(kind: u32) -> bool {
    matches!(kind, 2 | 4 | 6)
}

const OPEN_ROUND: u32 = 1;
const COMMA: u32 = 7;
const COLON: u32 = 8;

/// A bracket that is open, and the names of its fields so far.
struct Open<'a> {
    has_fields: bool,
    names: HashSet<&'a [u8]>,
}

/// The bracket at this entry: a `( )` is one of fields "if the first two entries are a name and `:`".
fn opened<'a>(entries: &[Entry], at: usize) -> Open<'a> {
    let kind = |entry: usize| entries.get(entry).map_or(0, |e| e.kind);
    let has_fields = kind(at) == OPEN_ROUND && is_name(kind(at + 1)) && kind(at + 2) == COLON;
    Open { has_fields, names: HashSet::new() }
}

/// Whether an allowed entry directly inside a `( )` of fields names one of them: a name that stands first, or behind a comma.
fn names_field(entries: &[Entry], at: usize) -> bool {
    is_name(entries[at].kind) && matches!(entries[at - 1].kind, OPEN_ROUND | COMMA)
}

/// 25 at the first entry such that no document begins with the entries up to it; 31 at an allowed name of a field that its `( )` has had;
/// 24 at an allowed opening bracket where as many as the limit are open; 26 where the entries begin a document and are none.
fn judge(limit: usize, entries: &[Entry], text: &[u8]) -> Answer {
    let mut so_far = Recogniser::start();
    let mut open: Vec<Open> = Vec::new();
    for (entry, e) in entries.iter().enumerate() {
        let kind = e.kind;
        if !so_far.takes(kind) {
            return Err(Refusal::new(25, entry));
        }
        if let Some(inside) = open.last_mut().filter(|o| o.has_fields && names_field(entries, entry)) {
            if !inside.names.insert(name(e, text)) {
                return Err(Refusal::new(31, entry));
            }
        }
        if opens(kind) {
            if open.len() == limit {
                return Err(Refusal::new(24, entry));
            }
            open.push(opened(entries, entry));
        } else if closes(kind) {
            open.pop();
        }
    }
    match so_far.is_document() {
        true => Ok(()),
        false => Err(Refusal::new(26, entries.len())),
    }
}

/// Brackets to their partners, any other entry to itself.
fn joined(entries: &[Entry]) -> Vec<usize> {
    let mut links: Vec<usize> = (0..entries.len()).collect();
    let mut open = Vec::new();
    for (entry, e) in entries.iter().enumerate() {
        if opens(e.kind) {
            open.push(entry);
        } else if closes(e.kind) {
            if let Some(partner) = open.pop() {
                links.swap(partner, entry);
            }
        }
    }
    links
}
