//! What holds of all answers, asked of each: a refused call writes nothing, an accepted one nothing behind what it tells.
#![allow(dead_code)]

use sarridok::*;
use std::collections::HashSet;
use std::ops::Range;

pub const MARK: u32 = 0xA5A5_A5A5;

/// Texts that are read.
pub const GOOD: &[&str] = &[
    "Lock(id: 7)",
    "#![enable(implicit_some)]\nNetwork(name: \"Midland\", at: (52.07, -1.63), nodes: [1, 2u8, 0xFF, b'a',])",
    "{\"a\\u{e9}\": r#\"raw \"quoted\"\"#, 'c': b\"bytes\\x00\", r#type: inf, x: NaN,}",
    "// a line\n/* a /* nested */ block */ [-1i8, +2.5e3f32, 1_000, 0b1010_1010u16]",
    "((((((((()))))))))",
    "\u{2028}Weir\u{85}(  )\t\r\n// to the end",
    "\"\\xC3\\xA9\\\n   more\"",
    "Dŵr(λίμνη: 水路, r#река: 'é')",
    "",
];

/// A tape full of marks, with room for every entry of a text.
pub fn marked(text: &[u8]) -> Vec<u32> {
    vec![MARK; ENTRY * (text.len() + 2)]
}

pub fn is_refusal(refused: Refused, text: &[u8]) {
    assert!(Refusal::ALL.contains(&refused.refusal), "{refused}");
    assert!(refused.place <= text.len(), "{refused}");
    has_its_reason(refused);
    if let Some(reason) = refused.reason {
        let text = std::str::from_utf8(text).expect("else it is refused for that");
        let (before, behind) = text.split_at(refused.place);
        assert!(stands_there(reason, before, behind), "{refused}: {text:?}");
    }
}

/// An escape that is not valid has a reason, and nothing else has one.
pub fn has_its_reason(refused: Refused) {
    assert_eq!(refused.reason.is_some(), refused.refusal == Refusal::InvalidEscape, "{refused}");
}

/// Whether the text before and behind a reason's place is what the reason says.
fn stands_there(reason: EscapeReason, before: &str, behind: &str) -> bool {
    let is_hex = |c: char| c.is_ascii_hexdigit();
    let digits = |mark: &str, n: usize| matches!(before.rsplit_once(mark), Some((_, d)) if d.len() == n && d.chars().all(is_hex));
    let unicode = before.strip_suffix('}').and_then(|text| text.rsplit_once("\\u{"));
    let value = unicode.and_then(|(_, digits)| u32::from_str_radix(digits, 16).ok());
    let mut front = before.chars();
    let last = front.next_back();
    match reason {
        EscapeReason::DigitNotHex => {
            let front = front.as_str().trim_end_matches(is_hex);
            !last.map_or(true, is_hex) && (front.ends_with("\\x") || front.ends_with("\\u{"))
        }
        EscapeReason::UnknownLetter => front.as_str().ends_with('\\') && !last.map_or(true, |c| "'\"\\nrt0xu".contains(c)),
        EscapeReason::NotByteEscaped => digits("\\x", 2),
        EscapeReason::MissingOpenBrace => before.ends_with("\\u") && !behind.starts_with('{'),
        EscapeReason::NoDigits => digits("\\u{", 0) && behind.starts_with('}'),
        EscapeReason::NoClosingBrace => digits("\\u{", 6) && !behind.starts_with('}'),
        EscapeReason::NotACharacter => value.map_or(false, |value| char::from_u32(value).is_none()),
        EscapeReason::UnicodeInByteLiteral => {
            unicode.map_or(false, |(front, _)| front.ends_with("b'")) && value.and_then(char::from_u32).is_some()
        }
        _ => false,
    }
}

/// Reads, and asks what holds of every read.
pub fn checked_read(text: &[u8]) -> Result<(Vec<u32>, usize), Refused> {
    let mut tape = marked(text);
    match read(text, &mut tape) {
        Ok(count) => {
            let mut last = 0;
            assert_eq!(entries(&tape, count).count(), count);
            for entry in entries(&tape, count) {
                assert!(last <= entry.start && entry.start < entry.end && entry.end <= text.len());
                assert_eq!((entry.gap, entry.gap_span()), (entry.start - last, last..entry.start));
                last = entry.end;
            }
            assert!(tape[ENTRY * count..].iter().all(|n| *n == MARK));
            if 0 < count {
                let mut short = vec![MARK; ENTRY * count - 1];
                assert_eq!(read(text, &mut short), Err(Refused::new(Refusal::NoRoom, 0)));
                assert!(short.iter().all(|n| *n == MARK));
            }
            Ok((tape, count))
        }
        Err(refused) => {
            is_refusal(refused, text);
            assert!(tape.iter().all(|n| *n == MARK));
            Err(refused)
        }
    }
}

/// Whether the first entries of a tape are in order and end within so many bytes.
pub fn in_order(tape: &[u32], count: usize, most: usize) -> bool {
    let mut last = 0;
    let mut follows = |entry: Entry| {
        let distance = entry.start.checked_sub(last);
        last = entry.end;
        entry.start < entry.end && distance == Some(entry.gap)
    };
    entries(tape, count).filter(|entry| follows(*entry)).count() == count && last <= most
}

/// The name of an entry: its bytes, of a raw name those behind `r#`. None where it is no name, or not of this text.
fn name_of(text: &[u8], entry: Entry) -> Option<&[u8]> {
    let bytes = text.get(entry.span())?;
    match entry.kind {
        Kind::Name => Some(bytes),
        Kind::RawName => bytes.strip_prefix(b"r#").filter(|name| !name.is_empty()),
        _ => None,
    }
}

/// Whether every raw name of the first entries is `r#` with more behind it.
fn raws_fit(text: &[u8], tape: &[u32], count: usize) -> bool {
    entries(tape, count).all(|entry| entry.kind != Kind::RawName || name_of(text, entry).is_some())
}

/// What is refused before the grammar is asked, in its order.
fn walk_front(text: &[u8], tape: &[u32], count: usize, limit: usize, room: usize) -> Option<Refused> {
    if MAX_TEXT < text.len() {
        return Some(Refused::new(Refusal::TooLong, 0));
    }
    if let Err(bad) = std::str::from_utf8(text) {
        return Some(Refused::new(Refusal::NotUtf8, bad.valid_up_to()));
    }
    let unfit = [
        (MAX_DEPTH < limit, Refusal::Unfit),
        (
            !in_order(tape, count, text.len()) || !raws_fit(text, tape, count),
            Refusal::NotInOrder,
        ),
        (room < count, Refusal::NoRoom),
    ];
    let first = unfit.iter().find(|(holds, _)| *holds);
    first.map(|(_, refusal)| Refused::new(*refusal, 0))
}

/// The first entry that names a field again, of entries that are a document up to there. What begins with a name and a colon is a `( )` of fields,
/// and each name behind one of its commas a field.
pub fn named_again(text: &[u8], tape: &[u32], count: usize) -> Option<usize> {
    let all: Vec<Entry> = entries(tape, count).collect();
    let kind = |i: usize| all.get(i).map(|entry| entry.kind);
    let mut open: Vec<Option<HashSet<&[u8]>>> = Vec::new();
    for (i, entry) in all.iter().enumerate() {
        match entry.kind {
            Kind::OpenParen => {
                let named = kind(i + 1).map_or(false, |k| [Kind::Name, Kind::RawName].contains(&k));
                open.push((named && kind(i + 2) == Some(Kind::Colon)).then(HashSet::new));
            }
            Kind::OpenBracket | Kind::OpenBrace => open.push(None),
            Kind::CloseParen | Kind::CloseBracket | Kind::CloseBrace => drop(open.pop()),
            _ => {
                let may = 0 < i && [Some(Kind::OpenParen), Some(Kind::Comma)].contains(&kind(i - 1));
                if let (true, Some(name), Some(Some(names))) = (may, name_of(text, *entry), open.last_mut()) {
                    if !names.insert(name) {
                        return Some(i);
                    }
                }
            }
        }
    }
    None
}

/// Walks at a limit, and asks what holds of every walk.
pub fn checked_walk(text: &[u8], tape: &[u32], count: usize, limit: usize, room: usize) -> Result<Vec<u32>, Refused> {
    let mut links = vec![MARK; room];
    let front = walk_front(text, tape, count, limit, room);
    let walked = walk(text, tape, count, limit, &mut links);
    if front.is_some() {
        assert_eq!(walked.err(), front);
    }
    match walked {
        Ok(()) => {
            assert!(links[count..].iter().all(|n| *n == MARK));
            for (i, link) in links[..count].iter().enumerate() {
                assert_eq!(links[*link as usize] as usize, i);
            }
            assert_eq!(named_again(text, tape, count), None);
            Ok(links)
        }
        Err(refused) => {
            has_its_reason(refused);
            assert!(links.iter().all(|n| *n == MARK));
            if front.is_none() {
                checked_verdict(refused, named_again(text, tape, count), count);
            }
            Err(refused)
        }
    }
}

/// A refusal of the grammar stands before every field that is named again, or is that field.
fn checked_verdict(refused: Refused, again: Option<usize>, count: usize) {
    match refused.refusal {
        Refusal::RepeatedField => assert_eq!(Some(refused.place), again),
        Refusal::DepthLimitPassed | Refusal::NotAllowedHere => {
            assert!(refused.place < count && again.map_or(true, |i| refused.place < i), "{refused}");
        }
        Refusal::TapeEndsEarly => assert_eq!((refused.place, again), (count, None)),
        _ => panic!("{refused}"),
    }
}

/// Contents and decoding of every entry of a tape, and of one behind the last.
pub fn checked_strings(text: &[u8], tape: &[u32], count: usize) {
    let mut room = vec![0xEE; text.len() + 1];
    for entry in 0..=count {
        room.fill(0xEE);
        match decoded(text, tape, count, entry, &mut room) {
            Ok(n) => {
                assert!(room[n..].iter().all(|b| *b == 0xEE));
                if let Ok(part) = contents(text, tape, count, entry) {
                    assert_eq!(part, &room[..n]);
                }
                if 0 < n {
                    let mut short = vec![0xEE; n - 1];
                    let refused = decoded(text, tape, count, entry, &mut short).unwrap_err();
                    assert_eq!(refused, Refused::new(Refusal::NoRoom, 0));
                    assert!(short.iter().all(|b| *b == 0xEE));
                }
            }
            Err(refused) => {
                is_refusal(refused, text);
                assert!(room.iter().all(|b| *b == 0xEE));
                assert_eq!(contents(text, tape, count, entry), Err(refused));
            }
        }
    }
}

/// The calls at a place.
pub fn checked_place(text: &[u8], place: usize) {
    for width in Width::ALL {
        match integer(text, place, *width) {
            Ok((value, end)) => {
                assert!(place < end && end <= text.len());
                assert!(!(value.minus && value.magnitude == 0));
            }
            Err(refused) => is_refusal(refused, text),
        }
    }
    for newtype in NewtypeMode::ALL {
        for tuple in TupleMode::ALL {
            if let Err(refused) = struct_kind(text, place, *newtype, *tuple) {
                is_refusal(refused, text);
            }
        }
    }
    match skip(text, ParserCursor::at(place)) {
        Ok(moved) => {
            assert!(place <= moved.cursor && moved.cursor <= text.len() && moved.pre_ws_cursor <= moved.cursor);
            let again = skip(text, moved).expect("a cursor that was handed out fits");
            assert_eq!(again.cursor, moved.cursor);
        }
        Err(refused) => is_refusal(refused, text),
    }
}

/// What the call for one integer says of an item of a list, in its entry's width.
fn single(text: &str, tape: &[u32], count: usize, item: u32) -> Result<(Value, Width), Refused> {
    let [unfit, other_kind] = [Refusal::Unfit, Refusal::OtherKind].map(|refusal| Refused::new(refusal, 0));
    if count <= item as usize {
        return Err(unfit);
    }
    let (kind, start, detail) = match tape[ENTRY * item as usize..] {
        [kind, start, _, detail, ..] => (kind, start as usize, detail),
        _ => panic!("the count fits the tape"),
    };
    if !text.is_char_boundary(start) {
        return Err(unfit);
    }
    let width = Width::try_from(detail)
        .ok()
        .filter(|_| kind == Kind::Integer.number())
        .ok_or(other_kind)?;
    integer(text.as_bytes(), start, width).map(|(value, _)| (value, width))
}

/// What a list is answered with, told by single calls: item by item, each refusal at the item's number, and then the room.
pub fn by_singles(text: &[u8], tape: &[u32], count: usize, items: &[u32], room: usize) -> Result<Vec<(Value, Width)>, Refused> {
    if MAX_TEXT < text.len() {
        return Err(Refused::new(Refusal::TooLong, 0));
    }
    let text = std::str::from_utf8(text).map_err(|bad| Refused::new(Refusal::NotUtf8, bad.valid_up_to()))?;
    if tape.len() / ENTRY < count {
        return Err(Refused::new(Refusal::NotInOrder, 0));
    }
    let mut values = Vec::new();
    for (place, item) in items.iter().enumerate() {
        values.push(single(text, tape, count, *item).map_err(|mut refused| {
            refused.place = place;
            refused
        })?);
    }
    if room < items.len() {
        return Err(Refused::new(Refusal::NoRoom, 0));
    }
    Ok(values)
}

/// Asks for the integers of a list in one call, with room for so many magnitudes and codes, and holds it against single calls.
pub fn checked_integers(text: &[u8], tape: &[u32], count: usize, items: &[u32], rooms: [usize; 2]) -> Result<Vec<(Value, Width)>, Refused> {
    let [room, code_room] = rooms;
    let wanted = by_singles(text, tape, count, items, room.min(code_room));
    let (mut magnitudes, mut codes) = (vec![u64::from(MARK); room], vec![0xEE; code_room]);
    let answer = integers(text, tape, count, items, &mut magnitudes, &mut codes);
    assert_eq!(answer.err(), wanted.as_ref().err().copied());
    let written = wanted.as_ref().map_or(0, Vec::len);
    assert!(magnitudes[written..].iter().all(|n| *n == MARK.into()) && codes[written..].iter().all(|code| *code == 0xEE));
    for (k, (value, width)) in wanted.iter().flatten().enumerate() {
        let code = width.number() + if value.minus { 16 } else { 0 };
        assert_eq!((magnitudes[k], u32::from(codes[k])), (value.magnitude, code));
        assert_eq!(Value::coded(magnitudes[k], codes[k]), Some((*value, *width)));
    }
    let (mut lent, before) = (tape.to_vec(), (magnitudes.clone(), codes.clone()));
    let document = Document::from_parts(text, &mut lent, count);
    let listed = document.integers(items, &mut magnitudes, &mut codes);
    assert_eq!(listed.as_ref().map_or(0, |values| values.len()), written);
    assert_eq!(listed.map(|values| values.collect()), wanted);
    assert_eq!((magnitudes, codes), before);
    if let Err(refused) = wanted {
        has_its_reason(refused);
    }
    wanted
}

/// All integers of a tape in one call, forwards and backwards, and each entry alone, as well as one behind the last.
pub fn checked_lists(text: &[u8], tape: &[u32], count: usize) {
    let is_integer = |entry: &Entry| entry.width().is_some();
    let numbered = entries(tape, count).zip(0..).filter(|(entry, _)| is_integer(entry));
    let mut items: Vec<u32> = numbered.map(|(_, number)| number).collect();
    let forwards = checked_integers(text, tape, count, &items, [items.len(); 2]).expect("each was read");
    items.reverse();
    let backwards = checked_integers(text, tape, count, &items, [items.len() + 2, items.len()]).expect("each was read");
    assert!(forwards.iter().eq(backwards.iter().rev()));
    if !items.is_empty() {
        let (all, less) = (items.len(), items.len() - 1);
        for rooms in [[all, less], [less, all], [0, 0]] {
            let short = checked_integers(text, tape, count, &items, rooms);
            assert_eq!(short, Err(Refused::new(Refusal::NoRoom, 0)));
        }
    }
    for number in 0..=count {
        items.push(number as u32);
        let _ = checked_integers(text, tape, count, &items, [items.len(); 2]);
        let _ = checked_integers(text, tape, count, &[number as u32], [0, 1]);
        items.pop();
    }
}

/// A document says of a text what the calls say.
pub fn checked_document(text: &[u8], tape: &[u32], count: usize) {
    let mut room = vec![MARK; tape.len()];
    let document = Document::read(text, &mut room).expect("the text was read");
    assert_eq!((document.text(), document.tape(), document.count()), (text, tape, count));
    assert!(document.entries().eq(entries(tape, count)));
    let mut out = vec![0; text.len()];
    let mut same = vec![0; text.len()];
    for (number, entry) in document.entries().enumerate() {
        assert_eq!(document.entry(number), Some(entry));
        assert_eq!(document.text_of(number), Some(&text[entry.span()]));
        assert_eq!(document.gap_of(number), Some(&text[entry.gap_span()]));
        assert_eq!(read(&text[entry.gap_span()], &mut []), Ok(0), "an entry in a gap");
        assert_eq!(document.contents(number), contents(text, tape, count, number));
        let len = decoded(text, tape, count, number, &mut same);
        assert_eq!(document.decoded(number, &mut out), len.map(|len| &same[..len]));
        assert_eq!(entry.decoded_len(), len.ok());
        match entry.width() {
            Some(width) => assert_eq!(document.integer(number), integer(text, entry.start, width).map(|(value, _)| value)),
            None => assert_eq!(document.integer(number), Err(Refused::new(Refusal::OtherKind, 0))),
        }
    }
    assert_eq!(
        (document.entry(count), document.text_of(count), document.gap_of(count)),
        (None, None, None)
    );
    assert_eq!(document.integer(count), Err(Refused::new(Refusal::Unfit, 0)));
}

/// Every call on a text.
pub fn all_calls(text: &[u8]) {
    for place in 0..=text.len() + 1 {
        checked_place(text, place);
    }
    if let Ok((tape, count)) = checked_read(text) {
        checked_strings(text, &tape, count);
        checked_lists(text, &tape, count);
        checked_document(text, &tape, count);
        for limit in [0, 1, 2, MAX_DEPTH, MAX_DEPTH + 1, usize::MAX] {
            let _ = checked_walk(text, &tape, count, limit, count);
        }
    }
}

/// An entry as it stands from the text's end, where moving changes nothing: start, end, kind, detail and gap.
type FromEnd = (usize, usize, Kind, u32, usize);

fn from_end(entries: Entries<'_>, len: usize) -> Vec<FromEnd> {
    let told = |e: Entry| (len - e.start, len - e.end, e.kind, e.detail, e.gap);
    entries.map(told).collect()
}

/// How many entries are kept behind a change that has `rest` bytes behind it: from the last on, those that start there and are the old ones, moved.
fn kept_behind(old: &[FromEnd], new: &[FromEnd], rest: usize) -> usize {
    let pairs = old.iter().rev().zip(new.iter().rev());
    pairs.take_while(|(old, new)| old == new && new.0 <= rest).count()
}

/// A repair answers and leaves what a fresh reading of the new text does. The answer is what was kept, where it was accepted.
pub fn checked_repair(old: &[u8], cut: Range<usize>, piece: &[u8]) -> Option<Repaired> {
    let new = [&old[..cut.start], piece, &old[cut.end..]].concat();
    let rest = old.len() - cut.end;
    let mut tape = vec![MARK; ENTRY * (old.len() + new.len() + 1)];
    let mut fresh = tape.clone();
    let mut document = Document::read(old, &mut tape).expect("the old text is good");
    let (before, count) = (document.tape().to_vec(), document.count());
    let old_entries = from_end(document.entries(), old.len());
    match (document.repair(cut, &new), read(&new, &mut fresh)) {
        (Ok(repaired), Ok(n)) => {
            let most = ENTRY * count.max(n);
            assert_eq!((repaired.count, document.count(), document.text()), (n, n, &new[..]));
            assert!(repaired.before + repaired.behind <= n);
            let new_entries = from_end(entries(&fresh, n), new.len());
            assert_eq!(repaired.behind, kept_behind(&old_entries, &new_entries, rest));
            assert_eq!(document.tape()[..ENTRY * n], fresh[..ENTRY * n]);
            assert!(document.tape()[ENTRY * n..most].iter().all(|x| *x == 0));
            assert!(document.tape()[most..].iter().all(|x| *x == MARK));
            Some(repaired)
        }
        (Err(refused), Err(other)) => {
            assert_eq!(refused, other);
            assert_eq!((document.tape(), document.count(), document.text()), (&before[..], count, old));
            None
        }
        (repaired, read) => panic!("{repaired:?}, {read:?}"),
    }
}
