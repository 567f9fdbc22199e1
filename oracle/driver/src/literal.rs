//! The rule of change request 3 once more, word by word: at every byte all that has come is read from its front. Nothing is kept, shortened or
//! left unread, so it is slow; `coming.rs` is held against it (README, "Arrivals").
use std::str::from_utf8;

use crate::arrivals::Given;
use crate::coming::HELD;
use crate::read::Entry;
use crate::reading::{closes, decides, reading, Reading, Refused};
use crate::refusal::{Answer, Refusal};
use crate::run::{cursor, parser_at, run};
use crate::text::LARGEST;

/// One answer for each piece, and one for the end.
pub fn answers(pieces: &[&[u8]]) -> Vec<Given> {
    let text = pieces.concat();
    let (mut answers, mut taken, mut count, mut former) = (Vec::new(), 0, 0, 0);
    let mut refusal = None;
    for piece in pieces {
        let mut entries = Vec::new();
        for _ in *piece {
            if refusal.is_none() {
                refusal = byte(&text[..=taken], &mut count, &mut former, &mut entries).err();
                taken += 1;
            }
        }
        answers.push(Given { entries, refusal });
    }
    let mut entries = Vec::new();
    let refusal = refusal.or_else(|| end(&text, count, &mut entries).err());
    answers.push(Given { entries, refusal });
    answers
}

/// The last byte of what has come; so many entries were given before it, the last of them ended at `former`.
fn byte(come: &[u8], count: &mut usize, former: &mut usize, given: &mut Vec<Entry>) -> Answer {
    let before = &come[..come.len() - 1];
    if let Some(s) = begun(before, *former).filter(|s| before.len() - s >= HELD) {
        return Err(Refusal::new(30, s));
    }
    if before.len() >= LARGEST {
        return Err(Refusal::new(1, 0));
    }
    let text = match from_utf8(come) {
        Ok(text) => text,
        Err(e) if e.error_len().is_some() => return Err(Refusal::new(2, e.valid_up_to())),
        Err(_) => return Ok(()),
    };
    let Reading { entries, refused } = reading(text);
    let refused = refused.filter(|r| r.stays(text) || is_at_once(r, text, entries.len() - *count));
    let sealed = match refused {
        Some(_) => entries.len(),
        None => sealed(&entries, text.as_bytes()),
    };
    for entry in entries.into_iter().take(sealed).skip(*count) {
        (*count, *former) = (*count + 1, entry.end);
        given.push(entry);
    }
    refused.map_or(Ok(()), |refused| Err(refused.refusal))
}

fn end(come: &[u8], count: usize, given: &mut Vec<Entry>) -> Answer {
    let text = from_utf8(come).map_err(|e| Refusal::new(2, e.valid_up_to()))?;
    let Reading { entries, refused } = reading(text);
    given.extend(entries.into_iter().skip(count));
    refused.map_or(Ok(()), |refused| Err(refused.refusal))
}

/// "s is the first byte behind the whitespace and comments that follow the last entry given", if something has begun there.
fn begun(come: &[u8], former: usize) -> Option<usize> {
    let whole = from_utf8(come).map_or_else(|e| e.valid_up_to(), str::len);
    let text = from_utf8(&come[..whole]).ok()?;
    let mut parser = parser_at(text, former);
    run(&mut parser, |p| p.skip_ws()).ok()?;
    (!parser.src().is_empty()).then_some(cursor(&parser))
}

/// "Its end and, at or behind its end, a deciding byte has come, or .. an entry has ended, itself or a later one, whose last byte is a comma, colon, bracket
/// or quote": of entries in order those up to the last such.
fn sealed(entries: &[Entry], come: &[u8]) -> usize {
    let is_sealed = |e: &Entry| come[e.end..].iter().any(|&b| decides(b)) || closes(come[e.end - 1]);
    entries.iter().rposition(is_sealed).map_or(0, |last| last + 1)
}

/// "5 behind a `/`, with its whole character; 5 at a character with which no token starts, if nothing undecided stands before it."
fn is_at_once(refused: &Refused, text: &str, undecided: usize) -> bool {
    let last = text.char_indices().next_back().map(|(at, _)| at);
    refused.refusal.number == 5
        && match refused.token {
            None => refused.refusal.place == text.len(),
            Some(start) => undecided == 0 && last == Some(start) && refused.refusal.place == start,
        }
}
