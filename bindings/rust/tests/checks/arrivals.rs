//! A text that arrives, by both ways that the package has, and what holds of every call: of the lower one with its slices, of `Arriving`, and of the whole against one reading.
#![allow(dead_code)]

use crate::checks::{has_its_reason, MARK};
use sarridok::*;
use std::fmt::Write;

/// Entries, and the refusal behind them.
pub type Told = (Vec<Entry>, Option<Refused>);

/// Behind a buffer's bytes, and where nothing is written.
const BEHIND: [u8; 3] = [0xEE; 3];

/// The lower calls, with what stands between them.
#[derive(Clone)]
pub struct Lent {
    pub state: Arrival,
    pub kept: Vec<u8>,
}

impl Lent {
    pub fn new() -> Lent {
        Lent {
            state: begin(),
            kept: Vec::new(),
        }
    }

    /// Hands a piece over: without room, with too little, and then with enough.
    pub fn piece(&mut self, bytes: &[u8]) -> Told {
        let buffer = [&self.kept, bytes, &BEHIND].concat();
        let (state, after, tape, given) = self.called(&buffer, bytes.len(), buffer.len());
        let given = given.expect("there is room, and the state is one of these calls");
        for room in [0, given.count.saturating_sub(1)].into_iter().filter(|room| *room < given.count) {
            let (same, unmoved, unwritten, refused) = self.called(&buffer, bytes.len(), room);
            assert_eq!(refused, Err(Refused::new(Refusal::NoRoom, 0)));
            assert!(same == self.state && unmoved == buffer && unwritten.iter().all(|n| *n == MARK));
        }
        self.checked_buffer(&buffer, &after, &state, given.refused);
        let told = self.checked_entries(&tape, given, state.taken());
        let numbers: [u32; ARRIVAL] = state.into();
        let end = told.0.last().map_or(self.former(), |entry| entry.end);
        assert_eq!((numbers[8] as usize, state.refused()), (end, given.refused));
        self.state = state;
        self.kept = after[..state.kept()].to_vec();
        told
    }

    fn called(&self, buffer: &[u8], n: usize, room: usize) -> (Arrival, Vec<u8>, Vec<u32>, Result<Given, Refused>) {
        let (mut state, mut buffer, mut tape) = (self.state, buffer.to_vec(), vec![MARK; ENTRY * room]);
        let given = piece(&mut state, &mut buffer, n, &mut tape);
        (state, buffer, tape, given)
    }

    fn former(&self) -> usize {
        let numbers: [u32; ARRIVAL] = self.state.into();
        numbers[8] as usize
    }

    /// What is kept are the last bytes that were taken, and the rest of the buffer is as it was. Of a refused text nothing is.
    fn checked_buffer(&self, before: &[u8], after: &[u8], state: &Arrival, refused: Option<Refused>) {
        let (held, kept) = (before.len() - BEHIND.len(), state.kept());
        let taken = self.state.taken() + held - self.kept.len();
        match refused {
            None => assert_eq!(state.taken(), taken),
            Some(_) => assert!(kept == 0 && self.state.taken() <= state.taken() && state.taken() <= taken),
        }
        assert!(kept <= MAX_KEPT && kept <= held && state.taken() <= MAX_TEXT);
        assert_eq!(after[..kept], before[held - kept..held]);
        assert_eq!(after[kept..], before[kept..]);
    }

    /// The entries follow the former ones, without a hole, and nothing stands behind them.
    fn checked_entries(&self, tape: &[u32], given: Given, taken: usize) -> Told {
        let told: Vec<Entry> = entries(tape, given.count).collect();
        assert_eq!(told.len(), given.count);
        assert!(tape[ENTRY * given.count..].iter().all(|n| *n == MARK));
        let mut last = self.former();
        for entry in &told {
            assert!(entry.start < entry.end && entry.end <= taken && last + entry.gap == entry.start);
            last = entry.end;
        }
        if let Some(refused) = given.refused {
            has_its_reason(refused);
            assert!(Refusal::ALL.contains(&refused.refusal) && refused.place <= taken, "{refused}");
        }
        (told, given.refused)
    }

    /// The end, in the same way; nothing but the tape is written.
    pub fn finish(&self) -> Told {
        let buffer = [&self.kept, &BEHIND[..]].concat();
        let mut tape = vec![MARK; ENTRY * buffer.len()];
        let given = finish(&self.state, &buffer, &mut tape).expect("there is room, and the state is one of these calls");
        for room in [0, given.count.saturating_sub(1)].into_iter().filter(|room| *room < given.count) {
            let mut short = vec![MARK; ENTRY * room];
            let refused = finish(&self.state, &buffer, &mut short);
            assert_eq!(refused, Err(Refused::new(Refusal::NoRoom, 0)));
            assert!(short.iter().all(|n| *n == MARK));
        }
        self.checked_entries(&tape, given, self.state.taken())
    }
}

/// What each piece gave, and last the end: by the lower calls and by an `Arriving`, which say the same and keep the same.
pub fn told_each<'a>(pieces: impl IntoIterator<Item = &'a [u8]>) -> Vec<Told> {
    let (mut lent, mut arriving, mut told) = (Lent::new(), Arriving::new(), Vec::new());
    for piece in pieces {
        let of_piece = lent.piece(piece);
        let decided = arriving.push(piece);
        assert_eq!(decided.count(), of_piece.0.len());
        assert_eq!((decided.entries().collect(), decided.refused()), of_piece);
        assert_eq!(decided.result().err(), of_piece.1);
        assert_eq!((arriving.state(), arriving.kept()), (lent.state, &lent.kept[..]));
        told.push(of_piece);
    }
    let end = lent.finish();
    let finished = arriving.finish();
    assert_eq!(finished.count(), end.0.len());
    assert_eq!((finished.entries().collect(), finished.refused()), end);
    assert_eq!(finished.result().err(), end.1);
    told.push(end);
    told
}

/// All that is given. Behind a refusal come no entries, and the same refusal again.
pub fn told_in_all(told: Vec<Told>) -> Told {
    let (mut all, mut refused) = (Vec::new(), None);
    for (entries, behind) in told {
        if refused.is_some() {
            assert_eq!((&entries[..], behind), (&[][..], refused));
        }
        all.extend(entries);
        refused = behind;
    }
    (all, refused)
}

/// A text in pieces of these lengths, over and over; none where they are all 0.
pub fn cut<'a>(text: &'a [u8], lengths: &[usize]) -> Vec<&'a [u8]> {
    let (mut rest, mut pieces) = (text, Vec::new());
    for length in lengths.iter().cycle().take_while(|_| lengths.iter().any(|length| *length != 0)) {
        let (piece, behind) = rest.split_at(rest.len().min(*length));
        pieces.push(piece);
        rest = behind;
        if rest.is_empty() {
            return pieces;
        }
    }
    vec![text]
}

/// In one piece, and so held against one reading.
pub fn told_at_once(text: &[u8]) -> Told {
    let told = told_in_all(told_each([text]));
    is_one_reading(text, &told);
    told
}

/// Unless it is 30, 1 or 2, each where the text calls for it, what was given is what `read` answers, of what comes before a byte that is not taken.
pub fn is_one_reading(text: &[u8], told: &Told) {
    let fit = text.len().min(MAX_TEXT);
    let valid = std::str::from_utf8(&text[..fit]).map_or_else(|bad| bad.valid_up_to(), str::len);
    let mut tape = vec![MARK; ENTRY * text.len()];
    let whole = read(&text[..valid], &mut tape);
    let is_front = |count| entries(&tape, count).take(told.0.len()).eq(told.0.iter().copied());
    if let Ok(count) = whole {
        assert!(is_front(count), "{told:?}");
    }
    match told.1 {
        None => assert!(valid == text.len() && whole == Ok(told.0.len())),
        Some(refused) => match refused.refusal {
            Refusal::EntryTooLong => assert!(refused.place + MAX_KEPT < text.len() && refused.place + MAX_KEPT <= valid + 3),
            Refusal::TooLong => assert!(refused.place == 0 && MAX_TEXT < text.len() && fit < valid + 4),
            Refusal::NotUtf8 => assert!(refused.place == valid && (valid < fit || text.len() == fit)),
            _ => assert_eq!(whole, Err(refused)),
        },
    }
}

/// What is given at which byte, in the words of `docs/ARRIVAL.md`: an entry is kind, start and end, a refusal number and place.
pub fn table_row(text: &[u8]) -> String {
    let mut row = String::new();
    let mut refused = None;
    let told = told_each(text.chunks(1));
    is_one_reading(text, &told_in_all(told.clone()));
    for (at, (entries, behind)) in told.into_iter().enumerate() {
        let new = behind.filter(|_| refused.is_none());
        refused = behind;
        if entries.is_empty() && new.is_none() {
            continue;
        }
        let shown = |e: &Entry| format!("{} {} {}", e.kind.number(), e.start, e.end);
        let mut given: Vec<String> = entries.iter().map(shown).collect();
        given.extend(new.map(|refused| format!("refused {} {}", refused.number(), refused.place)));
        let place = if at == text.len() { "end".to_string() } else { at.to_string() };
        let between = if row.is_empty() { "" } else { " · " };
        write!(row, "{between}{place}: {}", given.join(", ")).expect("a string takes it");
    }
    row
}

/// Whether a state is in order, and the buffer has so many bytes behind what is kept: numbers only.
pub fn is_in_order(numbers: &[u32; ARRIVAL], buffer: usize, n: usize) -> bool {
    let [taken, part, gap, level, last, number, place, reason, former, kept] = *numbers;
    let gap_fits = match gap {
        0..=2 => level == 0 && last == 0,
        3 => level <= taken && [0, u32::from(b'*'), u32::from(b'/')].contains(&last),
        _ => false,
    };
    let refusal_fits = match number {
        0 => place == 0 && reason == 0,
        1..=21 | 30 => place <= taken && if number == 13 { (1..=8).contains(&reason) } else { reason == 0 } && kept == 0 && gap == 0,
        _ => false,
    };
    taken as usize <= MAX_TEXT
        && part <= 3
        && part <= kept
        && kept as usize <= MAX_KEPT
        && kept <= taken
        && former <= taken - kept
        && (gap == 0 || kept == part)
        && gap_fits
        && refusal_fits
        && buffer.checked_sub(kept as usize).map_or(false, |behind| n <= behind)
}

/// Any numbers and bytes: both calls are refused as 23 exactly where they are out of order, and write nothing then. What they give otherwise is no more than there is room for.
pub fn any_state(numbers: [u32; ARRIVAL], buffer: &[u8], n: usize, room: usize) -> Option<Refusal> {
    let not_in_order = Err(Refused::new(Refusal::NotInOrder, 0));
    let (mut state, mut after, mut tape) = (Arrival::from(numbers), buffer.to_vec(), vec![MARK; room]);
    let given = piece(&mut state, &mut after, n, &mut tape);
    assert_eq!(
        given == not_in_order,
        !is_in_order(&numbers, buffer.len(), n),
        "{numbers:?}: {given:?}"
    );
    match given {
        Ok(given) => {
            assert!(given.count <= room / ENTRY && is_in_order(state.as_ref(), buffer.len(), 0));
            assert!(tape[ENTRY * given.count..].iter().all(|x| *x == MARK));
            assert_eq!(state.refused(), given.refused);
        }
        Err(_) => assert!(state == numbers.into() && after == buffer && tape.iter().all(|x| *x == MARK)),
    }
    let mut tape = vec![MARK; room];
    let end = finish(&numbers.into(), buffer, &mut tape);
    assert_eq!(end == not_in_order, !is_in_order(&numbers, buffer.len(), 0), "{numbers:?}: {end:?}");
    let count = end.map_or(0, |end| end.count);
    assert!(tape[ENTRY * count..].iter().all(|x| *x == MARK));
    let kept = buffer.get(..numbers[9] as usize);
    if let Some(kept) = kept {
        let resumed = Arriving::resume(numbers.into(), kept);
        assert_eq!(resumed.is_ok(), is_in_order(&numbers, kept.len(), 0));
    }
    match (given, end) {
        (Err(refused), _) | (_, Err(refused)) => Some(refused.refusal),
        (Ok(given), Ok(_)) => given.refused.map(|refused| refused.refusal),
    }
}
