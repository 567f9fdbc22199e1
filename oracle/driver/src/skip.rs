//! `s CURSOR PRE LEN HEX`: `skip_ws` from a cursor of three numbers.
use std::io::Write;

use ron::parse::{Parser, UNCLOSED_LINE};

use crate::line::{Line, Store};
use crate::refusal::Answer;
use crate::run::run;
use crate::text::{fit, is_place, text};

pub fn skip(words: &mut Line, store: &mut Store, out: &mut Vec<u8>) -> Option<Answer> {
    let (cursor, pre) = (words.number()?, words.number()?);
    let len = words.number_or_mark(UNCLOSED_LINE)?;
    words.bytes(&mut store.text)?;
    words.end()?;
    Some(skip_from(cursor, pre, len, &store.text, out))
}

fn skip_from(cursor: usize, pre: usize, len: usize, bytes: &[u8], out: &mut Vec<u8>) -> Answer {
    let text = text(bytes)?;
    fit(is_place(text, cursor) && is_place(text, pre))?;
    fit(pre <= cursor && (len <= cursor || len == UNCLOSED_LINE))?;
    let mut parser = Parser::with_cursor(text, cursor, pre, len);
    run(&mut parser, |p| p.skip_ws())?;
    let [cursor, pre, len] = parser.cursor_numbers();
    let _ = match len {
        UNCLOSED_LINE => write!(out, "ok {cursor} {pre} mark"),
        _ => write!(out, "ok {cursor} {pre} {len}"),
    };
    Ok(())
}
