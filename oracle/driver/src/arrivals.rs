//! `q CUTS HEX` and `Q NUMBERS STATE KEPT PIECE`: reading while a text arrives, change request 3. What a byte gives is decided in `coming.rs`;
//! here are the calls: states, which of them are in order, and the order of the answers.
use std::io::Write;
use std::str::from_utf8;

use crate::coming::{block, open_block, Coming, Standing, HELD};
use crate::line::{Line, Store};
use crate::literal;
use crate::read::{print_entries, Entry, WIDTH};
use crate::refusal::{Answer, Refusal};
use crate::text::LARGEST;

const CLEAR: usize = 0;
const SLASH: usize = 1;
const LINE: usize = 2;
const BLOCK: usize = 3;

/// What a host keeps from call to call: `taken,part,gap,level,last,number,place,reason,former`, and the bytes kept.
struct State {
    taken: usize,
    part: usize,
    gap: usize,
    level: usize,
    last: usize,
    refusal: Refusal,
    former: usize,
    kept: Vec<u8>,
}

/// Entries, and the refusal behind them.
#[derive(Default)]
pub struct Given {
    pub entries: Vec<Entry>,
    pub refusal: Option<Refusal>,
}

pub fn in_pieces(words: &mut Line, store: &mut Store, out: &mut Vec<u8>) -> Option<Answer> {
    words.tape(&mut store.list)?;
    words.bytes(&mut store.text)?;
    words.end()?;
    let pieces = cut(&store.text, &store.list)?;
    let answers = match store.literal {
        true => literal::answers(&pieces),
        false => answers(&pieces),
    };
    for (answer, between) in answers.iter().zip([""].into_iter().chain(std::iter::repeat(" | "))) {
        out.extend_from_slice(between.as_bytes());
        print(answer, out);
    }
    Some(Ok(()))
}

/// Pieces of these lengths, and the rest as the last one.
fn cut<'a>(text: &'a [u8], lengths: &[u32]) -> Option<Vec<&'a [u8]>> {
    let (mut pieces, mut rest) = (Vec::new(), text);
    for &length in lengths {
        let (piece, behind) = rest.split_at_checked(length as usize)?;
        pieces.push(piece);
        rest = behind;
    }
    pieces.push(rest);
    Some(pieces)
}

/// One answer for each piece, each over the state that the former left, and one for the end.
fn answers(pieces: &[&[u8]]) -> Vec<Given> {
    let mut state = State::of(&[0; NUMBERS], &[]);
    let mut answers = Vec::new();
    for piece in pieces {
        let mut coming = state.coming().expect("a state that these calls made");
        answers.push(state.piece(&mut coming, piece));
        state = state.behind(coming, answers.last().and_then(|given| given.refusal));
    }
    let mut coming = state.coming().expect("a state that these calls made");
    answers.push(state.end(&mut coming));
    answers
}

pub fn one_call(words: &mut Line, store: &mut Store, out: &mut Vec<u8>) -> Option<Answer> {
    let room = words.number()? / WIDTH;
    words.tape(&mut store.tape)?;
    words.bytes(&mut store.text)?;
    let is_piece = words.bytes_or_end(&mut store.put)?;
    words.end()?;
    let numbers: [u32; NUMBERS] = store.tape.as_slice().try_into().ok()?;
    let state = State::of(&numbers.map(|n| n as usize), &store.text);
    Some(call(room, &state, is_piece.then_some(&store.put), out))
}

/// "23; the state's own refusal; 22 if the piece's entries, those before its refusal, are more than the room; then entries with or without a refusal."
fn call(room: usize, state: &State, piece: Option<&Vec<u8>>, out: &mut Vec<u8>) -> Answer {
    if !state.is_in_order() {
        return Err(Refusal::new(23, 0));
    }
    let Some(mut coming) = state.coming() else {
        out.extend_from_slice(b"unknown");
        return Ok(());
    };
    let given = match piece {
        Some(piece) => state.piece(&mut coming, piece),
        None => state.end(&mut coming),
    };
    if given.entries.len() > room {
        return Err(Refusal::new(22, 0));
    }
    print(&given, out);
    if piece.is_some() {
        state.behind(coming, given.refusal).print(out);
    }
    Ok(())
}

/// Numbers in a state.
const NUMBERS: usize = 9;

impl State {
    fn of(numbers: &[usize; NUMBERS], kept: &[u8]) -> Self {
        let [taken, part, gap, level, last, number, place, reason, former] = *numbers;
        let refusal = Refusal { number: number as u32, place, reason };
        State { taken, part, gap, level, last, refusal, former, kept: kept.to_vec() }
    }

    fn is_in_order(&self) -> bool {
        let kept = self.kept.len();
        self.taken <= LARGEST
            && self.part <= 3
            && self.part <= kept
            && kept <= HELD
            && kept <= self.taken
            && self.former <= self.taken - kept
            && (kept == self.part || self.gap == CLEAR)
            && self.has_fit_gap()
            && self.has_fit_refusal()
    }

    /// "A block's last byte 0, `*` or `/`, level ≤ taken"; no other gap has a level or a last byte.
    fn has_fit_gap(&self) -> bool {
        match self.gap {
            CLEAR | SLASH | LINE => self.level == 0 && self.last == 0,
            BLOCK => [0, usize::from(b'*'), usize::from(b'/')].contains(&self.last) && self.level <= self.taken,
            _ => false,
        }
    }

    /// "Number, place and reason all 0, or number 1 to 21 or 30, place ≤ taken, a reason of 1 to 8 with 13 and 0 else, nothing kept and the gap Clear."
    fn has_fit_refusal(&self) -> bool {
        let Refusal { number, place, reason } = self.refusal;
        match number {
            0 => place == 0 && reason == 0,
            1..=21 | 30 => {
                let fit_reason = if number == 13 { (1..=8).contains(&reason) } else { reason == 0 };
                place <= self.taken && fit_reason && self.kept.is_empty() && self.gap == CLEAR
            }
            _ => false,
        }
    }

    /// The text that a state in order stands for. The crate reads UTF-8 only: none where the kept bytes are not that with `part` bytes of a character behind.
    fn coming(&self) -> Option<Coming> {
        let (text, part) = self.kept.split_at(self.kept.len() - self.part);
        let is_cut_off =
            part.is_empty() || from_utf8(part).is_err_and(|e| e.valid_up_to() == 0 && e.error_len().is_none());
        let text = from_utf8(text).ok().filter(|_| is_cut_off)?.to_string();
        let last = (self.last != 0).then_some(self.last as u8 as char);
        let (standing, text) = match self.gap {
            SLASH => (Standing::Slash, "/".to_string()),
            LINE => (Standing::Line, "//".to_string()),
            BLOCK => (Standing::Block, open_block(self.level, last)),
            _ if text.is_empty() => (Standing::Passed, text),
            _ => (Standing::Begun, text),
        };
        let open_below = text.len() + 2 * self.level + 1;
        Some(Coming { taken: self.taken, former: self.former, text, part: part.to_vec(), standing, open_below })
    }

    fn own_refusal(&self) -> Option<Given> {
        (self.refusal.number != 0).then_some(Given { entries: Vec::new(), refusal: Some(self.refusal) })
    }

    fn piece(&self, coming: &mut Coming, piece: &[u8]) -> Given {
        self.own_refusal().unwrap_or_else(|| {
            let mut entries = Vec::new();
            let refusal = piece.iter().find_map(|&byte| coming.take(byte, &mut entries).err());
            Given { entries, refusal }
        })
    }

    fn end(&self, coming: &mut Coming) -> Given {
        self.own_refusal().unwrap_or_else(|| {
            let mut entries = Vec::new();
            let refusal = coming.end(&mut entries).err();
            Given { entries, refusal }
        })
    }

    /// The state behind a piece. "After a refusal nothing is kept."
    fn behind(&self, coming: Coming, refusal: Option<Refusal>) -> State {
        if let Some(refusal) = refusal {
            let none = State::of(&[0; NUMBERS], &[]);
            return State { taken: coming.taken, former: coming.former, refusal, ..none };
        }
        let (mut level, mut last) = (0, None);
        let gap = match coming.standing {
            Standing::Passed | Standing::Begun => CLEAR,
            Standing::Slash => SLASH,
            Standing::Line => LINE,
            Standing::Block => {
                (level, last) = block(&coming.text);
                BLOCK
            }
        };
        let begun = if coming.standing == Standing::Begun { coming.text.as_bytes() } else { &[] };
        let kept = [begun, &coming.part].concat();
        let last = last.map_or(0, |byte| byte as usize);
        let part = coming.part.len();
        State { taken: coming.taken, part, gap, level, last, refusal: Refusal::new(0, 0), former: coming.former, kept }
    }

    fn print(&self, out: &mut Vec<u8>) {
        let Refusal { number, place, reason } = self.refusal;
        let State { taken, part, gap, level, last, former, .. } = self;
        let _ = write!(out, " -> {taken},{part},{gap},{level},{last},{number},{place},{reason},{former} ");
        if self.kept.is_empty() {
            out.push(b'-');
        }
        for byte in &self.kept {
            let _ = write!(out, "{byte:02x}");
        }
    }
}

/// "`N;kind start end detail gap;..`, and `;refused NUMBER PLACE REASON` last if refused."
fn print(given: &Given, out: &mut Vec<u8>) {
    let _ = write!(out, "{}", given.entries.len());
    print_entries(&given.entries, out);
    if let Some(refusal) = given.refusal {
        out.push(b';');
        refusal.print(out);
    }
}
