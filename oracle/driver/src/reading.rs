//! What has come of a text, read as a whole text by the crate: its entries, and the refusal behind them. And the bytes that change request 3 speaks of.
use ron::parse::Parser;

use crate::read::{entry, Entry};
use crate::refusal::Refusal;
use crate::repair::is_quiet;
use crate::run::{cursor, parser_at, run};

/// "A deciding byte is a quiet byte or `/`."
pub fn decides(byte: u8) -> bool {
    is_quiet(&byte) || byte == b'/'
}

/// "A stop byte is an ASCII byte other than letters, digits and `_ . + - # \`."
pub fn stops(byte: u8) -> bool {
    byte.is_ascii() && !byte.is_ascii_alphanumeric() && !b"_.+-#\\".contains(&byte)
}

/// "Whose last byte is a comma, colon, bracket or quote (`"` or `'`)."
pub fn closes(byte: u8) -> bool {
    b",:()[]{}\"'".contains(&byte)
}

/// A refusal of reading, and "the place where the reading stood": the crate's cursor.
pub struct Refused {
    pub refusal: Refusal,
    pub stood: usize,
    /// Where the token starts that is refused; nowhere in whitespace and comments between entries.
    pub token: Option<usize>,
}

#[derive(Default)]
pub struct Reading {
    pub entries: Vec<Entry>,
    pub refused: Option<Refused>,
}

pub fn reading(text: &str) -> Reading {
    let mut found = Reading::default();
    let mut parser = parser_at(text, 0);
    loop {
        if let Err(refusal) = run(&mut parser, |p| p.skip_ws()) {
            found.refused = Some(Refused { refusal, stood: cursor(&parser), token: None });
            return found;
        }
        if parser.src().is_empty() {
            return found;
        }
        let (start, former) = (cursor(&parser), found.entries.last().map_or(0, |e| e.end));
        match entry(&mut parser, former).or_else(|refusal| enabled(text, start, former, &mut parser).ok_or(refusal)) {
            Ok(entry) => found.entries.push(entry),
            Err(refusal) => {
                found.refused = Some(Refused { refusal, stood: cursor(&parser), token: Some(start) });
                return found;
            }
        }
    }
}

/// An `enable` that the crate refused for what stands behind its `]`, which it skips too: by document 01 the entry ends there.
/// It is one if the crate takes it where the text ends so; the parser then stands behind it.
fn enabled<'a>(text: &'a str, start: usize, former: usize, parser: &mut Parser<'a>) -> Option<Entry> {
    let [_, end, _] = parser.cursor_numbers();
    let shorter = text.get(..end).filter(|t| start < end && t.ends_with(']'))?;
    let found = entry(&mut parser_at(shorter, start), former).ok().filter(|e| e.end == end)?;
    *parser = parser_at(text, end);
    Some(found)
}

impl Refused {
    /// "Two are given at once: 5 behind a `/`, with its whole character; 5 at a character with which no token starts, if nothing undecided stands before it."
    /// The first is of whitespace and comments between entries: inside an attribute the rule for all others holds.
    pub fn at_once(&self, undecided: usize) -> bool {
        self.refusal.number == 5 && (self.token.is_none() || (self.token == Some(self.stood) && undecided == 0))
    }

    /// "A stop byte stands at or behind the place where the reading stood"; "4, 6 and 17 say that the text has ended: only the end gives them."
    pub fn stays(&self, text: &str) -> bool {
        !matches!(self.refusal.number, 4 | 6 | 17) && text.as_bytes()[self.stood..].iter().any(|&b| stops(b))
    }
}
