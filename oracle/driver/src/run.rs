//! Runs the crate's functions and turns what they answer into refusals.
use ron::error::Result;
use ron::parse::Parser;

use crate::refusal::{Answer, Refusal};

/// A parser at a place, with no whitespace behind it.
pub fn parser_at(text: &str, place: usize) -> Parser<'_> {
    Parser::with_cursor(text, place, place, 0)
}

/// The crate's cursor.
pub fn cursor(parser: &Parser) -> usize {
    parser.cursor_numbers()[0]
}

/// The crate's answer to a call, or its refusal at the crate's cursor. A panic in the crate stops the oracle.
pub fn run<'a, T>(parser: &mut Parser<'a>, call: impl FnOnce(&mut Parser<'a>) -> Result<T>) -> Answer<T> {
    call(parser).map_err(|error| Refusal::of(&error, cursor(parser)))
}
