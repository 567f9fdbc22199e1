//! `i WIDTH PLACE HEX`: `integer` in one of eight widths.
use std::io::Write;

use ron::parse::Parser;

use crate::line::{Line, Store};
use crate::refusal::{Answer, Refusal};
use crate::run::{cursor, parser_at, run};
use crate::text::{fit, is_place, text};

pub fn typed(words: &mut Line, store: &mut Store, out: &mut Vec<u8>) -> Option<Answer> {
    let width = words.number().filter(|w| (1..=8).contains(w))?;
    let place = words.number()?;
    words.bytes(&mut store.text)?;
    words.end()?;
    Some(typed_at(width, place, &store.text, out))
}

fn typed_at(width: usize, place: usize, bytes: &[u8], out: &mut Vec<u8>) -> Answer {
    let text = text(bytes)?;
    fit(is_place(text, place))?;
    let mut parser = parser_at(text, place);
    let value = value(width, &mut parser).map_err(|refusal| match refusal.number {
        27 => Refusal::new(27, 0),
        _ => refusal,
    })?;
    let _ = write!(out, "ok {value} {}", cursor(&parser));
    Ok(())
}

/// Widths are numbered as on the tape: i8, i16, i32, i64, u8, u16, u32, u64.
pub fn value(width: usize, parser: &mut Parser) -> Answer<i128> {
    Ok(match width {
        1 => run(parser, |p| p.integer::<i8>())?.into(),
        2 => run(parser, |p| p.integer::<i16>())?.into(),
        3 => run(parser, |p| p.integer::<i32>())?.into(),
        4 => run(parser, |p| p.integer::<i64>())?.into(),
        5 => run(parser, |p| p.integer::<u8>())?.into(),
        6 => run(parser, |p| p.integer::<u16>())?.into(),
        7 => run(parser, |p| p.integer::<u32>())?.into(),
        _ => run(parser, |p| p.integer::<u64>())?.into(),
    })
}
