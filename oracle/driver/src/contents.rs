//! `c KIND START HEX` and `C ENTRY COUNT BUFFER HEX N,N,..`: contents of a string or byte string entry,
//! as a part of the text, then decoded into a buffer.
use std::io::Write;

use ron::parse::{ParsedByteStr, ParsedStr};

use crate::line::{Line, Store};
use crate::read::WIDTH;
use crate::refusal::{Answer, Refusal};
use crate::run::{parser_at, run};
use crate::text::{fit, is_place, text};

const STRING: u32 = 14;
const BYTE_STRING: u32 = 15;

pub fn of_one_entry(words: &mut Line, store: &mut Store, out: &mut Vec<u8>) -> Option<Answer> {
    let (kind, start) = (words.tape_number()?, words.tape_number()?);
    words.bytes(&mut store.text)?;
    words.end()?;
    let found = contents(0, 1, &[kind, start, 0, 0, 0], &store.text);
    print(&found, usize::MAX, out);
    Some(Ok(()))
}

pub fn of_any_tape(words: &mut Line, store: &mut Store, out: &mut Vec<u8>) -> Option<Answer> {
    let (entry, count, buffer) = (words.number()?, words.number()?, words.number()?);
    words.bytes(&mut store.text)?;
    words.tape(&mut store.tape)?;
    words.end()?;
    let found = contents(entry, count, &store.tape, &store.text);
    print(&found, buffer, out);
    Some(Ok(()))
}

/// What stands between the quotes: a part of the text where nothing was escaped.
pub enum Contents<'a> {
    Part(usize, &'a [u8]),
    Decoded(Vec<u8>),
}

pub fn contents<'a>(entry: usize, count: usize, tape: &[u32], bytes: &'a [u8]) -> Answer<Contents<'a>> {
    let text = text(bytes)?;
    let inside = tape.chunks_exact(WIDTH).nth(entry);
    fit(entry < count)?;
    fit(inside.is_none_or(|row| is_place(text, row[1] as usize)))?;
    let row = inside.filter(|_| count <= tape.len() / WIDTH).ok_or(Refusal::new(23, 0))?;
    string(row[0], row[1] as usize, text)
}

fn string(kind: u32, start: usize, text: &str) -> Answer<Contents<'_>> {
    let mut parser = parser_at(text, start);
    match kind {
        STRING => Ok(match run(&mut parser, |p| p.string())? {
            ParsedStr::Slice(s) => part(text, s.as_bytes()),
            ParsedStr::Allocated(s) => Contents::Decoded(s.into_bytes()),
        }),
        BYTE_STRING => Ok(match run(&mut parser, |p| p.byte_string_no_base64())? {
            ParsedByteStr::Slice(b) => part(text, b),
            ParsedByteStr::Allocated(b) => Contents::Decoded(b),
        }),
        _ => Err(Refusal::new(27, 0)),
    }
}

fn part<'a>(text: &str, part: &'a [u8]) -> Contents<'a> {
    Contents::Part(part.as_ptr() as usize - text.as_ptr() as usize, part)
}

fn print(found: &Answer<Contents>, buffer: usize, out: &mut Vec<u8>) {
    print_view(found, out);
    out.extend_from_slice(b" | ");
    match found {
        Ok(Contents::Part(_, bytes)) => print_decoded(bytes, buffer, out),
        Ok(Contents::Decoded(bytes)) => print_decoded(bytes, buffer, out),
        Err(refusal) => refusal.print(out),
    }
}

fn print_view(found: &Answer<Contents>, out: &mut Vec<u8>) {
    match found {
        Ok(Contents::Part(start, part)) => {
            let _ = write!(out, "ok part {start} {}", start + part.len());
        }
        Ok(Contents::Decoded(_)) => Refusal::new(29, 0).print(out),
        Err(refusal) => refusal.print(out),
    }
}

fn print_decoded(bytes: &[u8], buffer: usize, out: &mut Vec<u8>) {
    if bytes.len() > buffer {
        return Refusal::new(22, 0).print(out);
    }
    let _ = write!(out, "ok {}", bytes.len());
    if !bytes.is_empty() {
        out.push(b' ');
    }
    for b in bytes {
        out.push(b"0123456789abcdef"[usize::from(b >> 4)]);
        out.push(b"0123456789abcdef"[usize::from(b & 15)]);
    }
}
