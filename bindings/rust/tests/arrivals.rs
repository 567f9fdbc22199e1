//! Texts that arrive: what is given at which byte, however they are cut, at every limit. What holds of any text and any cuts is asked in ../properties.
#![cfg(feature = "alloc")]

#[path = "checks/arrivals.rs"]
mod arrivals;
mod checks;

use arrivals::*;
use checks::GOOD;
use sarridok::*;

fn refused(refusal: Refusal, place: usize) -> Refused {
    Refused::new(refusal, place)
}

/// Texts that are refused, each in another way, or behind entries.
const REFUSED: &[&str] = &[
    "[7, *]",
    "Lock(id: 7, \"\\q\", 8)",
    "[1, 2, /x",
    "[1, /",
    "/*/*/",
    "a /* b */ /* c",
    "[\"not closed",
    "r##\"not closed\"#, 7",
    "{'ab': 7}",
    "[b'\\u{41}', 8]",
    "(300ai8, 7)",
    "[0x, 1]",
    "[0b12]",
    "[_1, 1__.e]",
    "#![enable(foo)] 7",
    "#![ foo ] 7",
    "#![enable(implicit_some",
    "[7, €, 8]",
    "[256u8]",
];

/// Bytes of which some are no UTF-8.
const NOT_UTF8: &[&[u8]] = &[
    b"x\xC3 y",
    b"[7, \x80, 8]",
    b"[7, \"\xE2\x80\", 8]",
    b"x \xE2\x80",
    b"x\x80",
    b"// \xF0\x9F\x9A\n[7]",
    b"/* \xED\xA0\x80 */ 7",
    b"[\"\xC3\xA9\xC3\", 7]",
    b"\xFF",
];

fn texts<'a>() -> impl Iterator<Item = &'a [u8]> {
    let strings = GOOD.iter().chain(REFUSED).map(|text| text.as_bytes());
    strings.chain(NOT_UTF8.iter().copied())
}

/// The rows of `docs/ARRIVAL.md`.
#[test]
fn what_is_given_at_which_byte() {
    for (text, row) in [
        ("Lock(id: 7)", "4: 9 0 4, 1 4 5 · 7: 9 5 7, 8 7 8 · 10: 11 9 10, 2 10 11"),
        ("a b", "1: 9 0 1 · end: 9 2 3"),
        ("a\"x y\"", "3: 9 0 1 · 5: 14 1 6"),
        ("'a'b'c'", "2: 13 0 3 · 6: 11 3 7"),
        ("a\u{85}b\u{85}c ", "7: 9 0 1, 9 3 4, 9 6 7"),
        ("r#\"a\"# ", "6: 14 0 6"),
        ("r\"a\"", "3: 14 0 4"),
        ("300a,", "4: 12 0 3, 9 3 4, 7 4 5"),
        ("300ai8 ", "6: refused 10 6"),
        ("\"\\q", "end: refused 17 1"),
        ("\"\\q\"", "3: refused 13 3"),
        ("\"\\q, b\"", "6: refused 13 3"),
        ("\"\\\"\\q!", "5: refused 13 5"),
        ("'ab'", "3: refused 14 2"),
        ("b'\\u{41}'", "8: refused 13 8"),
        ("*a", "0: refused 5 0"),
        ("a*", "1: 9 0 1, refused 5 1"),
        ("€a", "2: refused 5 0"),
        ("a€ ", "4: 9 0 1, refused 5 1"),
        ("/x", "1: refused 5 2"),
        ("a/ ", "1: 9 0 1 · 2: refused 5 3"),
        ("/*/*/", "end: refused 4 5"),
        ("#![enable(foo)]", "13: refused 21 0"),
        ("#![ foo ", "7: refused 19 0"),
        ("", ""),
        ("// to the end", ""),
    ] {
        assert_eq!(table_row(text.as_bytes()), row, "{text:?}");
    }
    for (text, row) in [
        (&b"x\xC3 "[..], "2: refused 2 1"),
        (b"x \xE2\x80", "1: 9 0 1 · end: refused 2 2"),
        (b"x\x80", "1: refused 2 1"),
        (b"[7, \"\xE2\x82\", 8]", "0: 3 0 1 · 2: 11 1 2, 7 2 3 · 7: refused 2 5"),
    ] {
        assert_eq!(table_row(text), row, "{text:?}");
    }
}

/// The limit of what may be undecided: 4,096 bytes, and another follows.
#[test]
fn long_entries() {
    let name = |n: usize, behind: &str| "a".repeat(n) + behind;
    let string = |n: usize, behind: &str| format!("\"{}\"{behind}", "a".repeat(n - 2));
    for (text, row) in [
        (name(4095, " "), "4095: 9 0 4095"),
        (name(4096, " "), "4096: refused 30 0"),
        (name(4097, ""), "4096: refused 30 0"),
        (name(4096, ""), "end: 9 0 4096"),
        (string(4095, ""), "4094: 14 0 4095"),
        (string(4096, ""), "4095: 14 0 4096"),
        (string(4096, " 7 "), "4095: 14 0 4096 · 4098: 11 4097 4098"),
        (string(4097, ""), "4096: refused 30 0"),
        (format!("[{}", name(4095, ",")), "0: 3 0 1 · 4096: 9 1 4096, 7 4096 4097"),
        (format!("[{}", name(4096, ",")), "0: 3 0 1 · 4097: refused 30 1"),
        (format!("\"{}\\q\"!", "a".repeat(4092)), "4095: refused 13 4095"),
        (format!("0x{}", "g".repeat(4101)), "4096: refused 30 0"),
        (format!("0x{}", "g".repeat(4094)), "end: refused 7 2"),
        (format!("/*{}*/a ", "x".repeat(5000)), "5005: 9 5004 5005"),
        (format!("{}a ", " ".repeat(5000)), "5001: 9 5000 5001"),
        (format!("//{}\n7", "é".repeat(4000)), "end: 11 8003 8004"),
        (format!("\"{}é\"", "a".repeat(4093)), "4096: refused 30 0"),
        (format!("\"{}é\"", "a".repeat(4092)), "4095: 14 0 4096"),
        (format!("\"{}é", "a".repeat(4094)), "4096: refused 30 0"),
    ] {
        assert_eq!(table_row(text.as_bytes()), row, "{} bytes from {:?}", text.len(), &text[..4]);
    }
}

/// The longest text, and one byte more, in pieces of several lengths.
#[test]
fn long_texts() {
    let canal = include_bytes!("../../../bench/canal.ron");
    let at_once = told_at_once(canal);
    assert_eq!(at_once.1, None);
    for length in [1000, 4095, 4096, 4097, 60_000] {
        assert_eq!(told_in_all(told_each(canal.chunks(length))), at_once, "{length}");
    }
    for fill in ["[", " ", "7,", "// a comment\n", "\"words in a string\", ", "/*"] {
        let mut text = fill.repeat(MAX_TEXT / fill.len());
        text += &" ".repeat(MAX_TEXT - text.len());
        let open = fill == "/*";
        let at_most = told_at_once(text.as_bytes());
        assert_eq!(at_most.1, open.then_some(refused(Refusal::UnclosedBlockComment, MAX_TEXT)));
        text += " ";
        let one_more = told_at_once(text.as_bytes());
        assert_eq!(one_more, (at_most.0, Some(refused(Refusal::TooLong, 0))));
        for length in [511, 4096, 4097, 65_536] {
            assert_eq!(told_in_all(told_each(text.as_bytes().chunks(length))), one_more, "{length}");
        }
    }
    // What is undecided at the last byte comes with the end, and 30 before 1.
    let name = " ".repeat(MAX_TEXT - 3) + "abc";
    assert_eq!(told_at_once(name.as_bytes()).0.len(), 1);
    assert_eq!(told_at_once((name + " ").as_bytes()), (vec![], Some(refused(Refusal::TooLong, 0))));
    let long = " ".repeat(MAX_TEXT - MAX_KEPT) + &"a".repeat(MAX_KEPT);
    assert_eq!(told_at_once(long.as_bytes()).0.len(), 1);
    let too_long = refused(Refusal::EntryTooLong, MAX_TEXT - MAX_KEPT);
    assert_eq!(told_at_once((long + " ").as_bytes()), (vec![], Some(too_long)));
}

/// An `Arriving` takes a piece of any length: more than a text may have, too.
#[test]
fn endless_pieces() {
    let mut arriving = Arriving::new();
    let decided = arriving.push(&vec![b'['; 1_000_000]);
    assert_eq!((decided.count(), decided.refused()), (MAX_TEXT, Some(refused(Refusal::TooLong, 0))));
    assert!(decided.into_iter().map(|entry| entry.start).eq(0..MAX_TEXT));
    assert_eq!((arriving.taken(), arriving.kept()), (MAX_TEXT, &[][..]));
    let finished = arriving.finish();
    assert_eq!((finished.count(), (&finished).into_iter().count()), (0, 0));
    assert_eq!(finished.refused(), Some(refused(Refusal::TooLong, 0)));
}

/// Pieces of every length, and of lengths in turn, with empty ones among them.
#[test]
fn however_it_is_cut() {
    for text in texts() {
        let at_once = told_at_once(text);
        for length in 1..=17 {
            assert_eq!(told_in_all(told_each(text.chunks(length))), at_once, "{length}");
        }
        for lengths in [&[1, 2][..], &[3, 0, 1], &[0, 5], &[7, 1, 1, 0, 0, 2]] {
            assert_eq!(told_in_all(told_each(cut(text, lengths))), at_once, "{lengths:?}");
        }
        for at in 0..=text.len() {
            let (front, rest) = text.split_at(at);
            assert_eq!(told_in_all(told_each([front, rest])), at_once, "{at}");
        }
    }
}

/// What is given by a byte does not depend on the cuts: what a piece gives are the rows of its bytes.
#[test]
fn each_byte_gives_the_same() {
    for text in texts() {
        let bytes = told_each(text.chunks(1));
        for length in [2, 3, 5, 8] {
            let pieces = told_each(text.chunks(length));
            for (told, of_bytes) in pieces.iter().zip(bytes[..text.len()].chunks(length)) {
                let entries: Vec<Entry> = of_bytes.iter().flat_map(|(entries, _)| entries).copied().collect();
                assert_eq!((&told.0, told.1), (&entries, of_bytes.last().and_then(|told| told.1)));
            }
            assert_eq!(pieces.last(), bytes.last());
        }
    }
}

/// A loss of power behind every byte: numbers and bytes are all that is needed to go on.
#[test]
fn stored_and_resumed() {
    let long = format!("[\"{}\", {}, ", "é".repeat(1500), "b".repeat(4000));
    for text in texts().chain([long.as_bytes()]) {
        let mut without = Arriving::new();
        let (mut numbers, mut bytes) = ([0; ARRIVAL], Vec::new());
        for piece in text.chunks(1) {
            let mut resumed = Arriving::resume(numbers.into(), &bytes).expect("it stood so");
            let decided = resumed.push(piece);
            let same = without.push(piece);
            assert!(decided.entries().eq(same.entries()) && decided.refused() == same.refused());
            assert_eq!(resumed.taken(), without.taken());
            numbers = *resumed.state().as_ref();
            bytes = resumed.kept().to_vec();
            assert_eq!(Arrival::from(numbers), without.state());
        }
        let resumed = Arriving::resume(numbers.into(), &bytes).expect("it stood so").finish();
        let finished = without.finish();
        assert!(resumed.entries().eq(finished.entries()) && resumed.refused() == finished.refused());
    }
}

/// After a refusal every piece and the end get the same one, with nothing before it, and nothing is taken.
#[test]
fn the_same_refusal_again() {
    for text in REFUSED.iter().map(|text| text.as_bytes()).chain(NOT_UTF8.iter().copied()) {
        let mut lent = Lent::new();
        let (_, mut behind) = lent.piece(text);
        if behind.is_none() {
            // Only the end refuses it: a piece may still go on.
            let (_, at_end) = lent.finish();
            assert!(at_end.is_some(), "{text:?}");
            assert_eq!(lent.finish().1, at_end);
            behind = lent.piece(b"\n\xFF \xFF").1;
            assert!(behind.is_some());
        }
        let state = lent.state;
        for more in [&b""[..], b" ", b"[7, 8]", b"\xFF", &[b'a'; 5000]] {
            assert_eq!(lent.piece(more), (vec![], behind), "{text:?}");
            assert_eq!((lent.state, lent.finish()), (state, (vec![], behind)));
        }
    }
}

/// Without room nothing is taken, and the piece may be handed over again: at once or in smaller pieces.
#[test]
fn no_room() {
    let (mut state, mut buffer) = (begin(), *b"[7, 8, weir ");
    for room in 0..6 * ENTRY {
        let mut tape = vec![1; room];
        let answer = piece(&mut state, &mut buffer, 12, &mut tape);
        assert_eq!(answer, Err(refused(Refusal::NoRoom, 0)), "{room}");
        assert!(state == begin() && buffer == *b"[7, 8, weir " && tape.iter().all(|n| *n == 1));
    }
    let mut tape = [1; 2 * ENTRY];
    assert_eq!(piece(&mut state, &mut buffer, 2, &mut tape).map(|given| given.count), Ok(1));
    assert_eq!((state.kept(), state.taken(), &buffer), (1, 2, b"77, 8, weir "));
    // What is left stands behind what is kept, and is in the buffer already.
    buffer.copy_from_slice(b"7, 8, weir  ");
    assert_eq!(piece(&mut state, &mut buffer, 10, &mut tape), Err(refused(Refusal::NoRoom, 0)));
    let mut tape = [1; 5 * ENTRY + 4];
    assert_eq!(piece(&mut state, &mut buffer, 10, &mut tape).map(|given| given.count), Ok(5));
    assert!(tape[5 * ENTRY..].iter().all(|n| *n == 1));
    assert_eq!((state.kept(), state.taken()), (0, 12));
    // The end without room, of two entries that nothing has decided.
    let (mut state, mut buffer) = (begin(), *b"a\xC2\x85b");
    assert_eq!(piece(&mut state, &mut buffer, 4, &mut []).map(|given| given.count), Ok(0));
    for room in 0..2 * ENTRY {
        assert_eq!(finish(&state, &buffer, &mut vec![1; room]), Err(refused(Refusal::NoRoom, 0)));
    }
    assert_eq!(finish(&state, &buffer, &mut [1; 2 * ENTRY]).map(|given| given.count), Ok(2));
}

/// A refusal needs no room, but the entries before it do.
#[test]
fn no_room_before_a_refusal() {
    let (mut state, mut buffer) = (begin(), *b"*[7]");
    let given = piece(&mut state, &mut buffer, 4, &mut []).unwrap();
    assert_eq!((given.count, given.refused), (0, Some(refused(Refusal::UnexpectedChar, 0))));
    let (mut state, mut buffer) = (begin(), *b"[*7]");
    assert_eq!(piece(&mut state, &mut buffer, 4, &mut []), Err(refused(Refusal::NoRoom, 0)));
    let given = piece(&mut state, &mut buffer, 4, &mut [0; ENTRY]).unwrap();
    assert_eq!((given.count, given.refused), (1, Some(refused(Refusal::UnexpectedChar, 1))));
}

/// Numbers that no text has left: 23, first of all.
#[test]
fn states_out_of_order() {
    let mut lent = Lent::new();
    let _ = lent.piece(b"[7, \"we\xC3");
    let good: [u32; ARRIVAL] = lent.state.into();
    assert_eq!(good, [8, 1, 0, 0, 0, 0, 0, 0, 3, 4]);
    let with = |at: usize, number: u32| {
        let mut numbers = good;
        numbers[at] = number;
        numbers
    };
    let buffer = [&lent.kept[..], b"\xA9\"", &[0; 9]].concat();
    assert_eq!(any_state(good, &buffer, 2, 9 * ENTRY), None);
    for wrong in [
        with(0, 6),
        with(0, 65_537),
        with(0, u32::MAX),
        with(1, 4),
        with(1, 5),
        with(2, 1),
        with(2, 2),
        with(2, 3),
        with(2, 4),
        with(2, 256),
        with(3, 1),
        with(4, u32::from(b'*')),
        with(5, 13),
        with(5, 22),
        with(5, 256 + 13),
        with(6, 1),
        with(7, 1),
        with(8, 5),
        with(9, 0),
        with(9, 6),
        with(9, 4097),
        with(9, u32::MAX),
    ] {
        assert_eq!(any_state(wrong, &buffer, 2, 9 * ENTRY), Some(Refusal::NotInOrder), "{wrong:?}");
        assert_eq!(any_state(wrong, &buffer, 0, 0), Some(Refusal::NotInOrder), "{wrong:?}");
    }
    // More bytes than the buffer has, or fewer than are kept.
    assert_eq!(any_state(good, &buffer, buffer.len() - 3, 9 * ENTRY), Some(Refusal::NotInOrder));
    assert_eq!(any_state(good, &buffer, usize::MAX, 9 * ENTRY), Some(Refusal::NotInOrder));
    assert_eq!(any_state(good, &buffer[..3], 0, 9 * ENTRY), Some(Refusal::NotInOrder));
    assert_eq!(any_state(good, &[], 0, 0), Some(Refusal::NotInOrder));
    // Nothing is cut off: 256 + a number is not that number.
    let block = [9, 0, 3, 1, 0, 0, 0, 0, 0, 0];
    assert_eq!(any_state(block, b"", 0, 0), None);
    for (at, number) in [(3, 10), (4, 1), (4, 256), (4, 256 + 42), (7, 256), (5, 256)] {
        let mut wrong = block;
        wrong[at] = number;
        assert_eq!(any_state(wrong, b"", 0, 0), Some(Refusal::NotInOrder), "{wrong:?}");
    }
    // A refusal that was given.
    for (number, place, reason, fits) in [
        (13, 9, 8, true),
        (13, 9, 0, false),
        (13, 9, 9, false),
        (4, 10, 0, false),
        (30, 0, 0, true),
        (31, 0, 0, false),
    ] {
        let state = [9, 0, 0, 0, 0, number, place, reason, 0, 0];
        assert_eq!(any_state(state, b"7", 1, 0) != Some(Refusal::NotInOrder), fits, "{state:?}");
    }
    assert_eq!(Arriving::resume(good.into(), b"").unwrap_err(), refused(Refusal::NotInOrder, 0));
    assert_eq!(Arriving::resume(good.into(), &buffer).unwrap_err(), refused(Refusal::NotInOrder, 0));
    assert!(Arriving::resume(good.into(), &lent.kept).is_ok());
}

/// The numbers of a state by name.
#[test]
fn numbers_of_a_state() {
    assert_eq!((Arrival::default(), Arriving::default().state()), (begin(), begin()));
    let mut arriving = Arriving::new();
    let _ = arriving.push(b"[7, /* /* *");
    assert_eq!(arriving.state().as_ref(), &[11, 0, 3, 1, 42, 0, 0, 0, 3, 0]);
    let _ = arriving.push(b"/ */ \"\\q\"");
    let numbers: [u32; ARRIVAL] = arriving.state().into();
    assert_eq!(numbers[5..8], [13, 19, 2]);
    let escape = Refused::invalid_escape(EscapeReason::UnknownLetter, 19);
    assert_eq!(arriving.state().refused(), Some(escape));
    assert_eq!(Arriving::resume(numbers.into(), &[]).unwrap().push(b"8").refused(), Some(escape));
    let odd = Arrival::from([0, 0, 0, 0, 0, 256, 0, 0, 0, 7]);
    assert_eq!((odd.refused(), odd.kept()), (None, 7));
}

/// Characters that a cut goes through, whole and broken.
#[test]
fn characters_over_a_cut() {
    for (front, rest, count, behind) in [
        (&b"[\"\xF0\x9F"[..], &b"\x9A\xA4\"]"[..], 3, None),
        (b"D\xC5", b"\xB5r(7)", 4, None),
        (b"// \xC3", b"\xA9\n7", 1, None),
        (b"[\"\xF0\x9F", b"\x9A\"]", 1, Some(refused(Refusal::NotUtf8, 2))),
        (b"[\"\xF0\x9F", b"[", 1, Some(refused(Refusal::NotUtf8, 2))),
        (b"[\"\xF0", b"\x8F\x9A\xA4\"]", 1, Some(refused(Refusal::NotUtf8, 2))),
        (b"[ \xE2\x82", b"", 1, Some(refused(Refusal::NotUtf8, 2))),
        (b"[ \xE2\x82", b"\xAC", 1, Some(refused(Refusal::UnexpectedChar, 2))),
        (b"/\xE2\x82", b"\xAC", 0, Some(refused(Refusal::UnexpectedChar, 4))),
    ] {
        let told = told_in_all(told_each([front, rest]));
        assert_eq!((told.0.len(), told.1), (count, behind), "{front:?}");
        assert_eq!(told_at_once(&[front, rest].concat()), told);
    }
}
