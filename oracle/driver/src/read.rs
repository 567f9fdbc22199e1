//! `r HEX` and `R NUMBERS HEX`: module 9's dispatch by first characters over the crate's readers.
use std::io::Write;

use ron::parse::{ParsedByteStr, ParsedStr, Parser};
use ron::value::Number;

use crate::line::{Line, Store};
use crate::refusal::{Answer, Refusal};
use crate::run::{cursor, parser_at, run};
use crate::text::text;

/// Numbers in one entry of a tape: the one place that says how many.
pub const WIDTH: usize = 5;

pub fn with_room_enough(words: &mut Line, store: &mut Store, out: &mut Vec<u8>) -> Option<Answer> {
    words.bytes(&mut store.text)?;
    words.end()?;
    Some(read(usize::MAX, &store.text, out))
}

pub fn with_numbers(words: &mut Line, store: &mut Store, out: &mut Vec<u8>) -> Option<Answer> {
    let numbers = words.number()?;
    words.bytes(&mut store.text)?;
    words.end()?;
    Some(read(numbers / WIDTH, &store.text, out))
}

/// "Kind, start, end, detail", and the gap: "the bytes between the former entry's end, or the text's start, and its own start".
pub struct Entry {
    pub kind: u32,
    pub start: usize,
    pub end: usize,
    pub detail: usize,
    pub gap: usize,
}

impl Entry {
    /// From its numbers on a tape.
    pub fn of(row: &[u32]) -> Self {
        let place = |n: usize| row[n] as usize;
        Entry { kind: row[0], start: place(1), end: place(2), detail: place(3), gap: place(4) }
    }

    /// Its numbers on a tape.
    pub fn row(&self) -> [u32; WIDTH] {
        [self.kind, self.start as u32, self.end as u32, self.detail as u32, self.gap as u32]
    }
}

/// As an answer lists them.
pub fn print_entries(entries: &[Entry], out: &mut Vec<u8>) {
    for e in entries {
        let _ = write!(out, ";{} {} {} {} {}", e.kind, e.start, e.end, e.detail, e.gap);
    }
}

fn read(room: usize, bytes: &[u8], out: &mut Vec<u8>) -> Answer {
    let entries = entries(text(bytes)?)?;
    if entries.len() > room {
        return Err(Refusal::new(22, 0));
    }
    let _ = write!(out, "ok {}", entries.len());
    print_entries(&entries, out);
    Ok(())
}

/// The entries of a text.
pub fn entries(text: &str) -> Answer<Vec<Entry>> {
    let mut entries = Vec::new();
    entries_into(text, &mut entries)?;
    Ok(entries)
}

/// The same, put behind what a lent vector holds.
pub fn entries_into(text: &str, entries: &mut Vec<Entry>) -> Answer {
    let mut parser = parser_at(text, 0);
    let mut former = 0;
    loop {
        run(&mut parser, |p| p.skip_ws())?;
        if parser.src().is_empty() {
            return Ok(());
        }
        let entry = entry(&mut parser, former)?;
        former = entry.end;
        entries.push(entry);
    }
}

/// The entry where the parser stands; `former` is the end of the one before it, or the text's start.
pub fn entry(parser: &mut Parser, former: usize) -> Answer<Entry> {
    let start = cursor(parser);
    let gap = start - former;
    if parser.check_char('#') {
        let (end, detail) = attribute(parser, start)?;
        return Ok(Entry { kind: 16, start, end, detail, gap });
    }
    let (kind, detail) = token(parser, start)?;
    let end = cursor(parser);
    Ok(Entry { kind, start, end, detail, gap })
}

/// Kind and detail of a token that is no attribute; the parser then stands behind it.
fn token(parser: &mut Parser, start: usize) -> Answer<(u32, usize)> {
    let starts = |parser: &Parser, any: &[&str]| any.iter().any(|s| parser.check_str(s));
    if let Some(kind) = mark(parser) {
        Ok((kind, 0))
    } else if starts(parser, &["\""]) {
        string(parser)
    } else if starts(parser, &["'"]) {
        run(parser, |p| p.char()).map(|c| (13, c as usize))
    } else if parser.check_any_number_start() {
        number(parser, start)
    } else if starts(parser, &["b\"", "br\"", "br#"]) {
        byte_string(parser)
    } else if starts(parser, &["r\"", "r#\"", "r##"]) {
        string(parser)
    } else {
        name(parser, start)
    }
}

/// The kind of one of the eight marks, taken.
fn mark(parser: &mut Parser) -> Option<u32> {
    let found = "()[]{},:".chars().zip(1..).find(|(c, _)| parser.check_char(*c));
    found.map(|(c, kind)| {
        parser.consume_char(c);
        kind
    })
}

fn string(parser: &mut Parser) -> Answer<(u32, usize)> {
    Ok(match run(parser, |p| p.string())? {
        ParsedStr::Allocated(s) => (14, s.len()),
        ParsedStr::Slice(s) => (14, s.len()),
    })
}

fn byte_string(parser: &mut Parser) -> Answer<(u32, usize)> {
    Ok(match run(parser, |p| p.byte_string_no_base64())? {
        ParsedByteStr::Allocated(b) => (15, b.len()),
        ParsedByteStr::Slice(b) => (15, b.len()),
    })
}

fn number(parser: &mut Parser, start: usize) -> Answer<(u32, usize)> {
    let before = parser.src();
    Ok(match run(parser, |p| p.any_number())? {
        Number::I8(_) => (11, 1),
        Number::I16(_) => (11, 2),
        Number::I32(_) => (11, 3),
        Number::I64(_) => (11, 4),
        Number::U8(_) => (11, 5),
        Number::U16(_) => (11, 6),
        Number::U32(_) => (11, 7),
        Number::U64(_) => (11, 8),
        _ => (12, float_suffix(&before[..cursor(parser) - start])),
    })
}

/// No float without a suffix ends in these letters: `inf` does not, and the others have no `f`.
fn float_suffix(float: &str) -> usize {
    match float {
        f if f.ends_with("f32") => 32,
        f if f.ends_with("f64") => 64,
        _ => 0,
    }
}

/// A name, a raw name, 16 behind an `r#` that begins none, or 5 at what begins nothing.
fn name(parser: &mut Parser, start: usize) -> Answer<(u32, usize)> {
    let raw = parser.check_str("r#");
    match parser.skip_identifier() {
        Some(_) => Ok((if raw { 10 } else { 9 }, 0)),
        None if raw => string(parser),
        None => Err(Refusal::new(5, start)),
    }
}

/// End and detail of an attribute. 19 to 21 stand at the `#`. The crate skips whitespace behind the `]` of an `enable`,
/// and notes in its cursor where that began.
fn attribute(parser: &mut Parser, start: usize) -> Answer<(usize, usize)> {
    let found = run(parser, |p| p.document_attribute()).map_err(|refusal| match refusal.number {
        19..=21 => Refusal::new(refusal.number, start),
        _ => refusal,
    })?;
    let [cursor, pre, _] = parser.cursor_numbers();
    let end = if found.is_some() { pre } else { cursor };
    let detail = found.unwrap_or(0);
    Ok((end, detail))
}
