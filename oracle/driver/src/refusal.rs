//! Refusals, and the two tables from the crate's errors to the documents' numbers and reasons.
use std::io::Write;

use ron::error::Error;

/// The reason is 0 for every number but 13.
#[derive(Clone, Copy)]
pub struct Refusal {
    pub number: u32,
    pub place: usize,
    pub reason: usize,
}

/// Done, or refused.
pub type Answer<T = ()> = Result<T, Refusal>;

impl Refusal {
    /// One that is no escape's.
    pub fn new(number: u32, place: usize) -> Self {
        Refusal { number, place, reason: 0 }
    }

    /// What the crate answers at this place.
    pub fn of(error: &Error, place: usize) -> Self {
        Refusal { number: number(error), place, reason: reason(error) }
    }

    pub fn print(&self, out: &mut Vec<u8>) {
        let _ = write!(out, "refused {} {} {}", self.number, self.place, self.reason);
    }
}

/// The number of an error that the crate answers.
pub fn number(error: &Error) -> u32 {
    match error {
        Error::UnclosedBlockComment => 4,
        Error::UnexpectedChar(_) => 5,
        Error::Eof => 6,
        Error::ExpectedInteger => 7,
        Error::UnderscoreAtBeginning => 8,
        Error::InvalidIntegerDigit { .. } => 9,
        Error::IntegerOutOfBounds => 10,
        Error::ExpectedFloat => 11,
        Error::FloatUnderscore => 12,
        Error::InvalidEscape(_) => 13,
        Error::ExpectedChar => 14,
        Error::ExpectedByteLiteral => 15,
        Error::ExpectedString => 16,
        Error::ExpectedStringEnd => 17,
        Error::ExpectedByteString => 18,
        Error::ExpectedAttribute => 19,
        // in an attribute's list: a missing comma is 20, no name is 21
        Error::ExpectedAttributeEnd | Error::ExpectedComma => 20,
        Error::NoSuchExtension(_) | Error::ExpectedIdentifier | Error::SuggestRawIdentifier(_) => 21,
        // a typed integer with another suffix
        Error::InvalidValueForType { .. } => 27,
        other => panic!("the crate answered an error that document 01 has no number for: {other:?}"),
    }
}

/// What the crate says of an escape, in the order of change request 1: the first is reason 1.
const REASONS: [&str; 8] = [
    "Non-hex digit found",
    "Unknown escape character",
    "Not a valid byte-escaped Unicode character",
    "Missing { in Unicode escape",
    "Expected 1-6 digits, got 0 digits in Unicode escape",
    "No } at the end of Unicode escape",
    "Not a valid Unicode-escaped character",
    "Unexpected Unicode escape in byte literal",
];

/// The reason behind an error that the crate answers.
fn reason(error: &Error) -> usize {
    match error {
        Error::InvalidEscape(text) => match REASONS.iter().position(|reason| reason == text) {
            Some(before) => before + 1,
            None => panic!("the crate says of an escape what change request 1 has no reason for: {text:?}"),
        },
        _ => 0,
    }
}
