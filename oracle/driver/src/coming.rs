//! A text that is arriving, byte by byte. The crate reads what has come behind the last entry given; what each byte gives is the rule of change request 3.
use std::str::from_utf8;

use crate::read::Entry;
use crate::reading::{closes, decides, reading, stops, Reading};
use crate::refusal::{Answer, Refusal};
use crate::run::{cursor, parser_at, run};
use crate::text::LARGEST;

/// "4,096 bytes from s."
pub const HELD: usize = 4_096;

/// What stands behind the last entry given: nothing but a gap that was passed, an open gap, or something that has begun.
#[derive(Clone, Copy, PartialEq, Eq)]
pub enum Standing {
    Passed,
    Slash,
    Line,
    Block,
    Begun,
}

pub struct Coming {
    /// Bytes taken.
    pub taken: usize,
    /// The end of the last entry given.
    pub former: usize,
    /// Whole characters behind it. A gap that was passed is left out, one that is open is a short one in its stead: places are counted from the end.
    pub text: String,
    /// The bytes of a character that has not come whole.
    pub part: Vec<u8>,
    pub standing: Standing,
    /// The length of `text` below which its open comment cannot be closed: it would be read for nothing.
    pub open_below: usize,
}

impl Coming {
    /// One byte: the entries that it decides, and the refusal that is given with it. "Before a byte is taken", it may be barred; "such a byte decides nothing".
    pub fn take(&mut self, byte: u8, given: &mut Vec<Entry>) -> Answer {
        self.bar(byte)?;
        self.taken += 1;
        self.part.push(byte);
        if let Ok(character) = from_utf8(&self.part) {
            self.text.push_str(character);
            self.part.clear();
            if self.is_judged(byte) {
                return self.judge(byte, given);
            }
        }
        Ok(())
    }

    /// "30 if something has begun at s, is undecided, and 4,096 bytes from s have come; else 1 if 65,536 bytes have come; else 2 if with this byte no UTF-8 goes
    /// on (place: the first byte of the sequence)."
    fn bar(&self, byte: u8) -> Answer {
        if self.standing == Standing::Begun && self.text.len() + self.part.len() >= HELD {
            return Err(Refusal::new(30, self.taken - self.text.len() - self.part.len()));
        }
        if self.taken >= LARGEST {
            return Err(Refusal::new(1, 0));
        }
        let sequence = [&self.part, &[byte][..]].concat();
        match from_utf8(&sequence) {
            Err(e) if e.error_len().is_some() => Err(Refusal::new(2, self.taken - self.part.len())),
            _ => Ok(()),
        }
    }

    /// Refusals are judged at stop bytes, at a token's first character and at the one behind a `/`; entries are decided by stop bytes only.
    fn is_judged(&self, byte: u8) -> bool {
        match self.standing {
            Standing::Passed | Standing::Slash => true,
            Standing::Line => byte == b'\n',
            Standing::Block => byte == b'/' && self.text.len() >= self.open_below,
            Standing::Begun => stops(byte),
        }
    }

    /// "Refusals of reading are given with all entries before them."
    fn judge(&mut self, byte: u8, given: &mut Vec<Entry>) -> Answer {
        let Reading { entries, refused } = reading(&self.text);
        let refused = refused.filter(|r| r.at_once(entries.len()) || r.stays(&self.text));
        let count = match refused {
            Some(_) => entries.len(),
            None => decided(&entries, self.text.len(), byte),
        };
        let at = self.at();
        self.give(entries.into_iter().take(count), given);
        match refused {
            Some(refused) => Err(moved(refused.refusal, at)),
            None => {
                self.stand();
                Ok(())
            }
        }
    }

    /// "The end of the text gives the rest"; "at the end, a character cut off is 2".
    pub fn end(&mut self, given: &mut Vec<Entry>) -> Answer {
        if !self.part.is_empty() {
            return Err(Refusal::new(2, self.taken - self.part.len()));
        }
        let Reading { entries, refused } = reading(&self.text);
        let at = self.at();
        self.give(entries.into_iter(), given);
        refused.map_or(Ok(()), |refused| Err(moved(refused.refusal, at)))
    }

    /// Where `text` would begin if all of it had come: below 0 where a short gap stands for no bytes.
    fn at(&self) -> isize {
        self.taken as isize - self.part.len() as isize - self.text.len() as isize
    }

    /// Entries of `text`, as entries of the whole. It is left without them.
    fn give(&mut self, entries: impl Iterator<Item = Entry>, given: &mut Vec<Entry>) {
        let (at, mut end) = (self.at(), 0);
        for e in entries {
            let start = place(e.start, at);
            let entry = Entry { start, end: place(e.end, at), gap: start - self.former, ..e };
            (end, self.former) = (e.end, entry.end);
            given.push(entry);
        }
        self.text.drain(..end);
    }

    /// Finds what stands behind the last entry given, and leaves out what was passed.
    pub fn stand(&mut self) {
        let mut parser = parser_at(&self.text, 0);
        let skipped = run(&mut parser, |p| p.skip_ws());
        let passed = cursor(&parser);
        match skipped {
            Ok(()) if parser.has_unclosed_line_comment() => self.stand_at(Standing::Line, "//".to_string()),
            Ok(()) if parser.src().is_empty() => self.stand_at(Standing::Passed, String::new()),
            Ok(()) => {
                self.standing = Standing::Begun;
                self.text.drain(..passed);
            }
            Err(refusal) if refusal.number == 6 => self.stand_at(Standing::Slash, "/".to_string()),
            Err(_) => {
                let (around, last) = block(&self.text);
                self.stand_at(Standing::Block, open_block(around, last));
                self.open_below = self.text.len() + 2 * around + 1;
            }
        }
    }

    fn stand_at(&mut self, standing: Standing, text: String) {
        (self.standing, self.text) = (standing, text);
    }
}

/// How many of the entries of a text of so many bytes its last byte decides: "its end and, at or behind its end, a deciding byte has come, or an entry has
/// ended, itself or a later one, whose last byte is a comma, colon, bracket or quote".
fn decided(entries: &[Entry], length: usize, byte: u8) -> usize {
    if closes(byte) && entries.last().is_some_and(|e| e.end == length) {
        return entries.len();
    }
    match decides(byte) {
        true => entries.iter().filter(|e| e.end < length).count(),
        false => 0,
    }
}

fn place(in_text: usize, at: isize) -> usize {
    (in_text as isize + at) as usize
}

fn moved(refusal: Refusal, at: isize) -> Refusal {
    Refusal { place: place(refusal.place, at), ..refusal }
}

/// A block comment with so many others around it, open, with this byte last.
pub fn open_block(around: usize, last: Option<char>) -> String {
    let mut text = "/*".repeat(around + 1);
    text.extend(last);
    text
}

/// How many others are around the block comment that a text ends in, and its last byte "if it is an unpaired `*` or `/`": by what closes it.
pub fn block(text: &str) -> (usize, Option<char>) {
    let open = closings(text, "");
    let unpaired = match text.as_bytes().last() {
        Some(b'*') if closings(text, "/") < open => Some('*'),
        Some(b'/') if closings(text, "*") > open => Some('/'),
        _ => None,
    };
    (open - 1, unpaired)
}

/// How many `*/` the crate takes until the comments are closed that a text and one byte more leave open; a space keeps them apart.
fn closings(text: &str, more: &str) -> usize {
    let open = [text, more, " "].concat();
    let closed = [&open, "*/".repeat(open.len() / 2).as_str()].concat();
    let mut parser = parser_at(&closed, 0);
    match run(&mut parser, |p| p.skip_ws()) {
        Ok(()) => (cursor(&parser) - open.len()) / 2,
        Err(_) => panic!("as many closing marks as opening ones close every comment"),
    }
}
