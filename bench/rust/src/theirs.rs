//! The crate's calls. `read` drives it token by token as the oracle does, by the oracle's own code, into a lent vector.
//! `lean` drives the same readers of the crate with less around them: no guard against unwinding, and the reader is chosen by one
//! `match` on the first byte, where the oracle asks the crate up to seventeen questions. What the oracle's driver costs is the
//! difference of the two.
use ron::parse::{ParsedByteStr, ParsedStr, Parser};
use ron::value::Number;

use crate::read::{entries_into, Entry};
use crate::refusal::number;
use crate::run::{cursor, parser_at};
use crate::text::text;

/// Kind and detail of a token.
type Found = ron::error::Result<(u32, usize)>;

/// The entries, as the oracle finds them; the refusal's number where there are none.
pub fn read(bytes: &[u8], into: &mut Vec<Entry>) -> Result<(), u32> {
    into.clear();
    let text = text(bytes).map_err(|r| r.number)?;
    entries_into(text, into).map_err(|r| r.number)
}

/// The same entries, found with less around the crate.
pub fn lean(bytes: &[u8], into: &mut Vec<Entry>) -> Result<(), u32> {
    into.clear();
    let text = text(bytes).map_err(|r| r.number)?;
    lean_entries(text, into).map_err(|e| number(&e))
}

fn lean_entries(text: &str, into: &mut Vec<Entry>) -> ron::error::Result<()> {
    let mut parser = parser_at(text, 0);
    let mut former = 0;
    loop {
        parser.skip_ws()?;
        let start = cursor(&parser);
        let Some(&first) = text.as_bytes().get(start) else { return Ok(()) };
        let (kind, end, detail) = if first == b'#' {
            attribute(&mut parser)?
        } else {
            let (kind, detail) = token(&mut parser, first)?;
            (kind, cursor(&parser), detail)
        };
        into.push(Entry { kind, start, end, detail, gap: start - former });
        former = end;
    }
}

fn token(parser: &mut Parser, first: u8) -> Found {
    match first {
        b'(' => mark(parser, 1),
        b')' => mark(parser, 2),
        b'[' => mark(parser, 3),
        b']' => mark(parser, 4),
        b'{' => mark(parser, 5),
        b'}' => mark(parser, 6),
        b',' => mark(parser, 7),
        b':' => mark(parser, 8),
        b'"' => string(parser),
        b'\'' => Ok((13, parser.char()? as usize)),
        b'0'..=b'9' | b'+' | b'-' | b'.' => any_number(parser),
        b'b' | b'r' | b'i' | b'N' => prefixed(parser),
        _ => name(parser),
    }
}

fn mark(parser: &mut Parser, kind: u32) -> Found {
    parser.advance_bytes(1);
    Ok((kind, 0))
}

/// What may be a name or something else.
fn prefixed(parser: &mut Parser) -> Found {
    match parser.src().as_bytes() {
        [b'b', b'"', ..] | [b'b', b'r', b'"' | b'#', ..] => byte_string(parser),
        [b'r', b'"', ..] | [b'r', b'#', b'"' | b'#', ..] => string(parser),
        [b'r', b'#', ..] => match parser.skip_identifier() {
            Some(_) => Ok((10, 0)),
            None => string(parser),
        },
        [b'r', ..] => name(parser),
        _ if parser.check_any_number_start() => any_number(parser),
        _ => name(parser),
    }
}

fn name(parser: &mut Parser) -> Found {
    match parser.skip_identifier() {
        Some(_) => Ok((9, 0)),
        None => Err(ron::error::Error::UnexpectedChar(' ')),
    }
}

fn string(parser: &mut Parser) -> Found {
    Ok(match parser.string()? {
        ParsedStr::Allocated(s) => (14, s.len()),
        ParsedStr::Slice(s) => (14, s.len()),
    })
}

fn byte_string(parser: &mut Parser) -> Found {
    Ok(match parser.byte_string_no_base64()? {
        ParsedByteStr::Allocated(b) => (15, b.len()),
        ParsedByteStr::Slice(b) => (15, b.len()),
    })
}

fn any_number(parser: &mut Parser) -> Found {
    let (start, before) = (cursor(parser), parser.src());
    Ok(match parser.any_number()? {
        Number::I8(_) => (11, 1),
        Number::I16(_) => (11, 2),
        Number::I32(_) => (11, 3),
        Number::I64(_) => (11, 4),
        Number::U8(_) => (11, 5),
        Number::U16(_) => (11, 6),
        Number::U32(_) => (11, 7),
        Number::U64(_) => (11, 8),
        _ => (12, float_suffix(&before.as_bytes()[..cursor(parser) - start])),
    })
}

fn float_suffix(float: &[u8]) -> usize {
    match float {
        [.., b'f', b'3', b'2'] => 32,
        [.., b'f', b'6', b'4'] => 64,
        _ => 0,
    }
}

/// Kind, end and detail of an attribute.
fn attribute(parser: &mut Parser) -> ron::error::Result<(u32, usize, usize)> {
    let found = parser.document_attribute()?;
    let [cursor, pre, _] = parser.cursor_numbers();
    let end = if found.is_some() { pre } else { cursor };
    Ok((16, end, found.unwrap_or(0)))
}

/// The magnitude of the integer at a place in a width, and whether it is below zero.
pub fn integer(text: &str, place: usize, width: u32) -> ron::error::Result<(u64, bool)> {
    let parser = &mut parser_at(text, place);
    let signed = |value: i64| (value.unsigned_abs(), value < 0);
    Ok(match width {
        1 => signed(parser.integer::<i8>()?.into()),
        2 => signed(parser.integer::<i16>()?.into()),
        3 => signed(parser.integer::<i32>()?.into()),
        4 => signed(parser.integer::<i64>()?),
        5 => (parser.integer::<u8>()?.into(), false),
        6 => (parser.integer::<u16>()?.into(), false),
        7 => (parser.integer::<u32>()?.into(), false),
        _ => (parser.integer::<u64>()?, false),
    })
}
