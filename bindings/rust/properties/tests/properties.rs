//! What holds of every text, tape and number.

#[path = "../../tests/checks/arrivals.rs"]
mod arrivals;
#[path = "../../tests/checks/mod.rs"]
mod checks;
mod given;

use arrivals::*;
use checks::*;
use given::*;
use quickcheck::{QuickCheck, TestResult, Testable};
use sarridok::*;
use std::fmt::{Debug, Display};
use std::sync::atomic::{AtomicU64, Ordering};

/// A property of so many cases.
fn holds<P: Testable>(cases: u64, property: P) {
    QuickCheck::new().tests(cases).quickcheck(property);
}

#[test]
fn every_call_on_any_text() {
    fn property(text: Text) {
        all_calls(&text.0);
    }
    holds(1500, property as fn(Text));
}

#[test]
fn any_place_and_cursor() {
    fn property(text: Text, place: Near, pre: Near, len: Near) {
        let text = &text.0;
        checked_place(text, place.of(text.len()));
        let cursor = ParserCursor {
            cursor: place.of(text.len()),
            pre_ws_cursor: pre.of(text.len()),
            last_ws_len: len.of(text.len()),
        };
        if let Err(refused) = skip(text, cursor) {
            is_refusal(refused, text);
        }
    }
    holds(2000, property as fn(Text, Near, Near, Near));
}

#[test]
fn any_tape() {
    fn property(tape: Tape, text: Good, count: Near, limit: Near, entry: Near) {
        let (tape, text, rows) = (&tape.0, text.0, tape.0.len() / ENTRY);
        let (count, entry) = (count.of(rows), entry.of(rows));
        let _ = checked_walk(text, tape, count, limit.of(MAX_DEPTH), rows);
        let mut out = [0xEE; 8];
        if let Err(refused) = decoded(text, tape, count, entry, &mut out) {
            is_refusal(refused, text);
            assert_eq!(out, [0xEE; 8]);
        }
        if let Err(refused) = contents(text, tape, count, entry) {
            is_refusal(refused, text);
        }
        let mut lent = tape.clone();
        let document = Document::from_parts(text, &mut lent, count);
        assert!(document.entries().count() <= count);
        for (number, entry) in document.entries().enumerate() {
            assert_eq!(document.entry(number), Some(entry));
            assert_eq!(document.gap_of(number), text.get(entry.gap_span()));
        }
        if let Err(refused) = document.integer(entry) {
            is_refusal(refused, text);
        }
    }
    holds(4000, property as fn(Tape, Good, Near, Near, Near));
}

/// A list of entries of what was read, of all or of integers only, and of numbers behind them: what single calls say, in the list's order.
#[test]
fn lists_are_single_calls() {
    static MET: AtomicU64 = AtomicU64::new(0);
    fn property(text: Good, list: List, only: bool, room: Near, code_room: Near) {
        let (tape, count) = checked_read(text.0).expect("a good text");
        let numbers: Vec<u32> = entries(&tape, count)
            .zip(0..)
            .filter(|(entry, _)| !only || entry.kind == Kind::Integer)
            .map(|(_, number)| number)
            .collect();
        let items = list.of(numbers.len()).into_iter();
        let items: Vec<u32> = items.map(|item| numbers.get(item).copied().unwrap_or(item as u32)).collect();
        let rooms = [room, code_room].map(|room| room.of(items.len()).min(items.len() + 3));
        let answer = checked_integers(text.0, &tape, count, &items, rooms);
        if !items.is_empty() {
            MET.fetch_or(1 << answer.err().map_or(0, |refused| refused.number()), Ordering::Relaxed);
        }
    }
    holds(4000, property as fn(Good, List, bool, Near, Near));
    let met = MET.load(Ordering::Relaxed);
    for number in [0, 22, 27, 28] {
        assert!(met >> number & 1 == 1, "never met: {number}");
    }
}

/// The same over tapes that no read has written: each refusal that an item can have is met.
#[test]
fn lists_over_any_tape() {
    static MET: AtomicU64 = AtomicU64::new(0);
    fn property(numerals: Numerals, count: Near, list: List, room: Near) {
        let (text, tape) = (numerals.text.as_bytes(), &numerals.tape);
        let rows = tape.len() / ENTRY;
        let items: Vec<u32> = list.of(rows).into_iter().map(|item| item as u32).collect();
        let room = room.of(items.len()).min(items.len() + 3);
        for count in [rows, count.of(rows)] {
            let answer = checked_integers(text, tape, count, &items, [room, items.len()]);
            if !items.is_empty() {
                MET.fetch_or(1 << answer.err().map_or(0, |refused| refused.number()), Ordering::Relaxed);
            }
        }
    }
    holds(8000, property as fn(Numerals, Near, List, Near));
    let met = MET.load(Ordering::Relaxed);
    for number in [0, 6, 7, 8, 9, 10, 13, 22, 23, 27, 28] {
        assert!(met >> number & 1 == 1, "never met: {number}");
    }
}

/// And over any text and tape at all.
#[test]
fn lists_of_anything() {
    fn property(tape: Tape, text: Text, count: Near, list: List, room: Near) {
        let (tape, rows) = (&tape.0, tape.0.len() / ENTRY);
        let items: Vec<u32> = list.of(rows).into_iter().map(|item| item as u32).collect();
        let room = room.of(items.len()).min(items.len() + 3);
        let _ = checked_integers(&text.0, tape, count.of(rows), &items, [room, room + 1]);
    }
    holds(4000, property as fn(Tape, Text, Near, List, Near));
}

/// All `id` fields of the canal network, in one call and one by one.
#[test]
fn ids_of_the_canal_network() {
    let text = include_bytes!("../../../../bench/canal.ron");
    let (tape, count) = checked_read(text).expect("it is read");
    let mut lent = tape.clone();
    let document = Document::from_parts(text, &mut lent, count);
    let is_id = |i: &usize| document.text_of(i - 2) == Some(&b"id"[..]) && document.text_of(i - 1) == Some(&b":"[..]);
    let ids: Vec<u32> = (2..count).filter(is_id).map(|i| i as u32).collect();
    let values = checked_integers(text, &tape, count, &ids, [ids.len(); 2]).expect("each is read");
    assert!(values.iter().zip(1000u16..).all(|((value, _), id)| *value == Value::from(id)));
    assert_eq!(values.len(), 527);
}

#[test]
fn any_tape_and_cut_in_a_repair() {
    static FIT: AtomicU64 = AtomicU64::new(0);
    fn property(tape: Tape, text: Good, count: Near, len: Near, start: Near, end: Near) {
        let (rows, most) = (tape.0.len() / ENTRY, text.0.len());
        let (count, old_len, a, b) = (count.of(rows), len.of(most), start.of(most), end.of(most));
        let lengths = most as u128 + b as u128 >= old_len as u128 + a as u128;
        let fits = a <= b && b <= old_len && lengths && in_order(&tape.0, count, old_len);
        FIT.fetch_add(fits.into(), Ordering::Relaxed);
        let mut repaired = tape.0.clone();
        match repair(&mut repaired, count, old_len, a..b, text.0) {
            Ok(_) => assert!(fits),
            Err(refused) => {
                is_refusal(refused, text.0);
                assert_eq!(refused.refusal == Refusal::NotInOrder, !fits, "{refused}");
                assert_eq!(repaired, tape.0);
            }
        }
    }
    holds(4000, property as fn(Tape, Good, Near, Near, Near, Near));
    assert!(40 < FIT.load(Ordering::Relaxed), "hardly a tape was in order");
}

#[test]
fn repairs_are_fresh_readings() {
    static ACCEPTED: AtomicU64 = AtomicU64::new(0);
    fn property(old: Good, cut: Cut, piece: Piece) {
        let repaired = checked_repair(old.0, cut.of(old.0.len()), &piece.0);
        ACCEPTED.fetch_add(repaired.is_some().into(), Ordering::Relaxed);
    }
    holds(4000, property as fn(Good, Cut, Piece));
    assert!(400 < ACCEPTED.load(Ordering::Relaxed), "hardly a repair was accepted");
}

/// The fields of a record, nested in each other as they come: refused exactly where a simple look finds a name again, if nothing is wrong before.
#[test]
fn records_name_each_field_once() {
    static ONCE: AtomicU64 = AtomicU64::new(0);
    static AGAIN: AtomicU64 = AtomicU64::new(0);
    fn property(record: Record, limit: Near) {
        let text = record.0.as_bytes();
        let (tape, count) = checked_read(text).expect("a record is read");
        match checked_walk(text, &tape, count, MAX_DEPTH, count) {
            Ok(_) => ONCE.fetch_add(1, Ordering::Relaxed),
            Err(refused) => AGAIN.fetch_add((refused.refusal == Refusal::RepeatedField).into(), Ordering::Relaxed),
        };
        let _ = checked_walk(text, &tape, count, limit.of(4), count);
    }
    holds(4000, property as fn(Record, Near));
    let met = [&ONCE, &AGAIN].map(|met| met.load(Ordering::Relaxed));
    assert!(met.iter().all(|met| 400 < *met), "hardly met: {met:?}");
}

/// What is refused has a reason exactly where an escape is not valid, the text is there as the reason says, and every call gives the same; each reason is met.
#[test]
fn reasons_of_escapes() {
    static MET: AtomicU64 = AtomicU64::new(0);
    fn property(literal: Literal) {
        let text = literal.0.as_bytes();
        let refused = checked_read(text).err();
        if let Some(reason) = refused.and_then(|refused| refused.reason) {
            MET.fetch_or(1 << reason.number(), Ordering::Relaxed);
        }
        let entry = |kind: Kind| [kind.number(), 0, text.len() as u32, 0, 0];
        let own = [
            contents(text, &entry(Kind::String), 1, 0).err(),
            contents(text, &entry(Kind::ByteString), 1, 0).err(),
            integer(text, 0, Width::U8).err(),
        ];
        for of_call in own.into_iter().flatten().filter(|own| own.reason.is_some()) {
            is_refusal(of_call, text);
            assert_eq!(Some(of_call), refused);
        }
    }
    holds(4000, property as fn(Literal));
    let met = MET.load(Ordering::Relaxed);
    for reason in EscapeReason::ALL {
        assert!(met >> reason.number() & 1 == 1, "never met: {reason}");
    }
}

/// However a text is cut, the same is given at the same byte, and in all what one reading gives.
#[test]
fn texts_that_arrive() {
    static MET: AtomicU64 = AtomicU64::new(0);
    fn property(text: Text, cuts: Cuts, more: Cuts) {
        let at_once = told_at_once(&text.0);
        MET.fetch_or(1 << at_once.1.map_or(0, |refused| refused.number()), Ordering::Relaxed);
        let bytes = told_each(text.0.chunks(1));
        for cuts in [cuts, more] {
            let pieces = cut(&text.0, &cuts.0);
            let told = told_each(pieces.iter().copied());
            let mut from = 0;
            for (piece, told) in pieces.iter().zip(&told) {
                let of_bytes = &bytes[from..from + piece.len()];
                assert!(told.0.iter().eq(of_bytes.iter().flat_map(|(entries, _)| entries)));
                from += piece.len();
                let before = from.checked_sub(1).and_then(|last| bytes[last].1);
                assert_eq!(told.1, before);
            }
            assert_eq!(told.last(), bytes.last());
            assert_eq!(told_in_all(told), at_once);
        }
        assert_eq!(told_in_all(bytes), at_once);
    }
    holds(10000, property as fn(Text, Cuts, Cuts));
    let met = MET.load(Ordering::Relaxed);
    for number in [0, 2, 4, 5, 6, 7, 9, 13, 14, 17] {
        assert!(met >> number & 1 == 1, "never met: {number}");
    }
}

/// The same of texts with an entry, a comment or a blank of some 4,096 bytes in them, and of some 65,536 bytes.
#[test]
fn long_texts_that_arrive() {
    static MET: AtomicU64 = AtomicU64::new(0);
    fn property(long: Long, cuts: Cuts) {
        let at_once = told_at_once(&long.0);
        MET.fetch_or(1 << at_once.1.map_or(0, |refused| refused.number()), Ordering::Relaxed);
        let lengths: Vec<usize> = cuts.0.iter().map(|length| length * 311).collect();
        assert_eq!(told_in_all(told_each(cut(&long.0, &lengths))), at_once);
    }
    holds(400, property as fn(Long, Cuts));
    let met = MET.load(Ordering::Relaxed);
    for number in [0, 1, 2, 30] {
        assert!(met >> number & 1 == 1, "never met: {number}");
    }
}

/// A state that a text left, stored, and handed back with damage, or not: refused as 23 exactly where its numbers are out of order.
#[test]
fn any_state_of_an_arrival() {
    static MET: AtomicU64 = AtomicU64::new(0);
    type Damage = Option<(usize, Near)>;
    fn property(text: Text, at: Near, damages: (Damage, Damage), n: Near, room: Near) {
        let (front, rest) = text.0.split_at(at.of(text.0.len()).min(text.0.len()));
        let mut lent = Lent::new();
        let _ = lent.piece(front);
        let mut numbers: [u32; ARRIVAL] = lent.state.into();
        for (at, number) in [damages.0, damages.1].into_iter().flatten() {
            numbers[at % ARRIVAL] = number.of(at % 70) as u32;
        }
        let buffer = [&lent.kept, rest].concat();
        let refusal = any_state(numbers, &buffer, n.of(rest.len()), room.of(4 * ENTRY).min(200 * ENTRY));
        MET.fetch_or(1 << refusal.map_or(0, |refusal| refusal.number()), Ordering::Relaxed);
    }
    holds(10000, property as fn(Text, Near, (Damage, Damage), Near, Near));
    let met = MET.load(Ordering::Relaxed);
    for number in [0, 2, 5, 22, 23] {
        assert!(met >> number & 1 == 1, "never met: {number}");
    }
}

/// Stored behind any piece, a text goes on as if nothing had been; an `Arriving` that is left by it stays as it was.
#[test]
fn arrivals_are_resumed() {
    fn property(text: Text, cuts: Cuts) {
        let mut lent = Lent::new();
        for piece in cut(&text.0, &cuts.0) {
            let resumed = Arriving::resume(lent.state, &lent.kept).expect("it stood so");
            let mut copy = resumed.clone();
            let told = lent.piece(piece);
            let decided = copy.push(piece);
            assert_eq!((decided.entries().collect(), decided.refused()), told);
            let finished = copy.finish();
            assert_eq!((finished.entries().collect(), finished.refused()), lent.finish());
            assert!(resumed.taken() <= lent.state.taken());
        }
    }
    holds(6000, property as fn(Text, Cuts));
}

/// An integer written by Rust is read in a width exactly where it fits the type of that width, else refused at its end.
fn read_back<T>(number: i128, width: Width) -> bool
where
    T: TryFrom<i128> + TryFrom<Value, Error = ValueOutOfRange> + PartialEq + Debug + Display + Copy,
    Value: From<T>,
{
    let text = number.to_string();
    match (T::try_from(number), integer(text.as_bytes(), 0, width)) {
        (Ok(fits), Ok((value, end))) => T::try_from(value) == Ok(fits) && value == Value::from(fits) && end == text.len(),
        (Err(_), Err(refused)) => refused == Refused::new(Refusal::IntegerOutOfBounds, text.len()),
        _ => false,
    }
}

#[test]
fn integers_are_read_back() {
    fn property(number: i128, bits: u8) -> bool {
        let number = number >> (bits % 128);
        read_back::<i8>(number, Width::I8)
            && read_back::<i16>(number, Width::I16)
            && read_back::<i32>(number, Width::I32)
            && read_back::<i64>(number, Width::I64)
            && read_back::<u8>(number, Width::U8)
            && read_back::<u16>(number, Width::U16)
            && read_back::<u32>(number, Width::U32)
            && read_back::<u64>(number, Width::U64)
    }
    holds(4000, property as fn(i128, u8) -> bool);
}

#[test]
fn values_fit_as_their_numbers_do() {
    fn property(magnitude: u64, minus: i64, bits: u8) -> bool {
        let values = [Value::from(magnitude >> (bits % 64)), Value::from(minus >> (bits % 64))];
        values.iter().all(|value| {
            let number = i128::from(*value);
            i8::try_from(*value).ok() == i8::try_from(number).ok()
                && i16::try_from(*value).ok() == i16::try_from(number).ok()
                && i32::try_from(*value).ok() == i32::try_from(number).ok()
                && i64::try_from(*value).ok() == i64::try_from(number).ok()
                && u8::try_from(*value).ok() == u8::try_from(number).ok()
                && u16::try_from(*value).ok() == u16::try_from(number).ok()
                && u32::try_from(*value).ok() == u32::try_from(number).ok()
                && u64::try_from(*value).ok() == u64::try_from(number).ok()
        })
    }
    holds(2000, property as fn(u64, i64, u8) -> bool);
}

/// What Rust writes as a string with escapes decodes to the string.
#[test]
fn strings_are_read_back() {
    fn property(string: String) -> TestResult {
        let text = format!("{string:?}");
        if MAX_TEXT < text.len() {
            return TestResult::discard();
        }
        let mut tape = [0; ENTRY];
        let document = Document::read(text.as_bytes(), &mut tape).expect("a string is read");
        assert_eq!(
            document.entry(0),
            Some(Entry::new(Kind::String, 0..text.len(), string.len() as u32, 0))
        );
        let mut out = vec![0; string.len()];
        assert_eq!(document.decoded(0, &mut out), Ok(string.as_bytes()));
        TestResult::from_bool(document.contents(0).is_ok() != text.contains('\\'))
    }
    holds(2000, property as fn(String) -> TestResult);
}

/// And a character is the detail of its entry.
#[test]
fn characters_are_read_back() {
    fn property(character: char) {
        let text = format!("{character:?}");
        let mut tape = [0; ENTRY];
        let document = Document::read(text.as_bytes(), &mut tape).expect("a char is read");
        assert_eq!(document.entry(0).and_then(|entry| entry.character()), Some(character));
    }
    holds(2000, property as fn(char));
}
