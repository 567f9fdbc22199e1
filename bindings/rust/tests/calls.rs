//! Every call on chosen texts and at every limit. What holds of any text, tape and number is asked in ../properties.

mod checks;

use checks::*;
use sarridok::*;

fn refused(refusal: Refusal, place: usize) -> Refused {
    Refused::new(refusal, place)
}

#[test]
fn good_texts() {
    for text in GOOD {
        let (tape, count) = checked_read(text.as_bytes()).unwrap_or_else(|why| panic!("{text:?}: {why}"));
        let walked = checked_walk(text.as_bytes(), &tape, count, MAX_DEPTH, count);
        assert_eq!(
            walked.err(),
            text.is_empty().then_some(refused(Refusal::TapeEndsEarly, 0)),
            "{text:?}"
        );
        all_calls(text.as_bytes());
    }
}

#[test]
fn answers_of_the_requirements() {
    let number = |text: &str, width| integer(text.as_bytes(), 0, width).map(|(value, end)| (i128::from(value), end));
    assert_eq!(number("255", Width::U8), Ok((255, 3)));
    assert_eq!(number("256", Width::U8), Err(refused(Refusal::IntegerOutOfBounds, 3)));
    assert_eq!(number("25f", Width::U8), Err(refused(Refusal::InvalidIntegerDigit, 2)));
    assert_eq!(number("-0", Width::U8), Ok((0, 2)));
    assert_eq!(number("-128", Width::I8), Ok((-128, 4)));
    assert_eq!(number("-129", Width::I8), Err(refused(Refusal::IntegerOutOfBounds, 4)));
    assert_eq!(number("-9223372036854775808", Width::I64), Ok((i128::from(i64::MIN), 20)));
    assert_eq!(number("18446744073709551615", Width::U64), Ok((i128::from(u64::MAX), 20)));
    assert_eq!(number("1u16", Width::U8), Err(refused(Refusal::OtherKind, 0)));
    let kind = |text: &str| struct_kind(text.as_bytes(), 0, NewtypeMode::NoParensMeanUnit, TupleMode::DifferentiateNewtype);
    assert_eq!(kind("(\"a\"/*,*/)"), Ok(StructType::NewtypeTuple));
    assert_eq!(kind("(\"a\",1)"), Ok(StructType::NonNewtypeTuple));
    assert_eq!(kind("(a: 1)"), Ok(StructType::Named));
    assert_eq!(kind("()"), Ok(StructType::EmptyTuple));
    assert_eq!(kind("A"), Ok(StructType::Unit));
    let read_refused = |text: &str| checked_read(text.as_bytes()).unwrap_err();
    assert_eq!(read_refused("/*/*/"), refused(Refusal::UnclosedBlockComment, 5));
    assert_eq!(read_refused("\"\\q"), refused(Refusal::ExpectedStringEnd, 1));
    assert_eq!(read_refused("0x"), refused(Refusal::ExpectedInteger, 2));
    let moved = skip(b"a /* */ b", ParserCursor::at(1)).unwrap();
    assert_eq!((moved.cursor, moved.pre_ws_cursor, moved.last_ws_len), (8, 1, 7));
    let line = skip(b"// open", ParserCursor::at(0)).unwrap();
    assert_eq!(line.last_ws_len, ParserCursor::WS_CURSOR_UNCLOSED_LINE);
    assert_eq!(line.cursor, 7);
}

/// The reason of each escape and its place, whichever call reads it.
#[test]
fn escapes_have_their_reasons() {
    use EscapeReason::*;
    let escape = Refused::invalid_escape;
    for (text, reason, place) in [
        (r#""\xg""#, DigitNotHex, 4),
        (r#""\u{1""#, DigitNotHex, 6),
        (r#""\xC3\x!""#, DigitNotHex, 8),
        (r#""\q""#, UnknownLetter, 3),
        (r#"#![type="\q"]"#, UnknownLetter, 11),
        (r#""\xC3""#, NotByteEscaped, 5),
        (r"'\x80'", NotByteEscaped, 5),
        (r#""\xC3\x41""#, NotByteEscaped, 9),
        (r#""\u41""#, MissingOpenBrace, 3),
        (r#""\u{}""#, NoDigits, 4),
        (r"b'\u{}'", NoDigits, 5),
        (r#""\u{1234567}""#, NoClosingBrace, 10),
        (r#""\u{123456""#, NoClosingBrace, 10),
        (r#""\u{D800}""#, NotACharacter, 9),
        (r"b'\u{D800}'", NotACharacter, 10),
        (r"b'\u{41}'", UnicodeInByteLiteral, 8),
    ] {
        assert_eq!(checked_read(text.as_bytes()).unwrap_err(), escape(reason, place), "{text}");
        all_calls(text.as_bytes());
    }
    assert_eq!(integer(br"b'\u{41}'", 0, Width::U8).unwrap_err(), escape(UnicodeInByteLiteral, 8));
    let kind = struct_kind(br#"("\q")"#, 0, NewtypeMode::NoParensMeanUnit, TupleMode::DifferentiateNewtype);
    assert_eq!(kind.unwrap_err(), escape(UnknownLetter, 4));
    // No read gives the entry of such a string: the tape is made by hand.
    let (closed, tape) = (br#"["\u{}"]"#, [Kind::String.number(), 1, 7, 1, 1]);
    assert_eq!(contents(closed, &tape, 1, 0).unwrap_err(), escape(NoDigits, 5));
    assert_eq!(decoded(closed, &tape, 1, 0, &mut [0]).unwrap_err(), escape(NoDigits, 5));
    let mut tape = [0; ENTRY];
    let mut document = Document::read(br#""a""#, &mut tape).unwrap();
    assert_eq!(document.repair(1..2, br#""\u41""#).unwrap_err(), escape(MissingOpenBrace, 3));
    assert_eq!(checked_repair(br#"["a", 7]"#, 2..3, br"\xC3"), None);
}

/// Blanks and comments before an entry are in its gap, by their bytes; neighbours have none, and what stands behind the last entry is in none.
#[test]
fn gaps_of_chosen_texts() {
    for (text, gaps) in [
        ("//ab\n7", &[5][..]),
        ("Lock(id: 7)", &[0, 0, 0, 0, 1, 0]),
        (" \t[7,/*é*/ 8 ] // x", &[2, 0, 0, 7, 1]),
        ("#![enable(implicit_some)]\n\n(7)", &[0, 2, 0, 0]),
        ("\u{2028}a\u{85}b", &[3, 2]),
        ("/* /* */ */ // x", &[]),
    ] {
        let (tape, count) = checked_read(text.as_bytes()).unwrap();
        let found: Vec<usize> = entries(&tape, count).map(|entry| entry.gap).collect();
        assert_eq!(found, gaps, "{text}");
    }
}

/// A gap that is not the distance is out of order for walk and repair, which write nothing, but only below the count; the other calls do not look at it.
#[test]
fn wrong_gaps() {
    let (text, edit) = (br#"Lock(id: -7, name: "Foxton")"#, br#"Lock(id: 512, name: "Foxton")"#);
    let (tape, count) = checked_read(text).unwrap();
    for number in 0..count {
        for off in [1, u32::MAX] {
            let mut wrong = tape.clone();
            let gap = &mut wrong[ENTRY * number + ENTRY - 1];
            *gap = gap.wrapping_add(off);
            let mut lent = wrong.clone();
            let not_in_order = refused(Refusal::NotInOrder, 0);
            assert_eq!(checked_walk(text, &wrong, count, MAX_DEPTH, count), Err(not_in_order));
            assert_eq!(repair(&mut lent, count, text.len(), 9..11, edit), Err(not_in_order));
            assert_eq!(lent, wrong);
            checked_strings(text, &wrong, count);
            assert_eq!(contents(text, &wrong, count, 8), Ok(&b"Foxton"[..]));
            assert_ne!(checked_walk(text, &wrong, number, MAX_DEPTH, count), Err(not_in_order));
        }
    }
}

/// An entry right behind the change is kept only with the gap that it had.
#[test]
fn kept_with_their_gaps() {
    for (old, cut, piece, before, behind) in [
        ("[7, 8, 9]", 4..6, "/*8,*/", 3, 1),
        ("[7, 8, 9]", 4..5, "5", 3, 3),
        ("a b", 2..2, " ", 1, 0),
        ("a b", 2..2, "", 1, 1),
        ("a  b", 1..2, "", 0, 0),
        (" 1", 0..1, "", 0, 0),
        ("1", 0..0, " ", 0, 0),
        ("ab c", 0..1, "", 0, 1),
    ] {
        let repaired = checked_repair(old.as_bytes(), cut, piece.as_bytes()).unwrap();
        assert_eq!((repaired.before, repaired.behind), (before, behind), "{old}, {piece}");
    }
}

/// A tape has room for its length divided by `ENTRY`, rounded down.
#[test]
fn room_of_every_length() {
    for len in 0..=3 * ENTRY {
        let fits = 2 * ENTRY <= len;
        let mut tape = vec![0; len];
        let read = read(b"[]", &mut tape);
        assert_eq!(read, if fits { Ok(2) } else { Err(refused(Refusal::NoRoom, 0)) }, "{len}");
        let walked = checked_walk(b"[]", &tape, 2, MAX_DEPTH, 2).map(|_| ());
        assert_eq!(walked, if fits { Ok(()) } else { Err(refused(Refusal::NotInOrder, 0)) }, "{len}");
    }
}

#[test]
fn empty_slices() {
    assert_eq!(read(b"", &mut []), Ok(0));
    assert_eq!(read(b"a", &mut []), Err(refused(Refusal::NoRoom, 0)));
    assert_eq!(walk(b"", &[], 0, 128, &mut []), Err(refused(Refusal::TapeEndsEarly, 0)));
    assert_eq!(walk(b"", &[], 1, 128, &mut []), Err(refused(Refusal::NotInOrder, 0)));
    assert_eq!(repair(&mut [], 0, 0, 0..0, b"").map(|r| r.count), Ok(0));
    assert_eq!(repair(&mut [], 0, 0, 0..0, b"7").unwrap_err().refusal, Refusal::NoRoom);
    assert_eq!(contents(b"", &[], 0, 0), Err(refused(Refusal::Unfit, 0)));
    assert_eq!(decoded(b"", &[], 0, 0, &mut []), Err(refused(Refusal::Unfit, 0)));
    all_calls(b"");
}

#[test]
fn every_limit() {
    let deep = "[".repeat(128) + &"]".repeat(128);
    let deep = deep.as_bytes();
    let (tape, count) = checked_read(deep).unwrap();
    for limit in 0..128 {
        let answer = checked_walk(deep, &tape, count, limit, count);
        assert_eq!(answer, Err(refused(Refusal::DepthLimitPassed, limit)));
    }
    let links = checked_walk(deep, &tape, count, 128, count + 3).unwrap();
    assert_eq!((links[0], links[255]), (255, 0));
    assert_eq!(checked_walk(deep, &tape, count, 129, count).unwrap_err().refusal, Refusal::Unfit);
    assert_eq!(
        checked_walk(deep, &tape, count, 128, count - 1).unwrap_err().refusal,
        Refusal::NoRoom
    );
}

/// Within one `( )` of fields no name comes again, and a raw name is what stands behind `r#`. The place is the entry that comes again, told before its colon is asked for.
#[test]
fn fields_named_again() {
    use Refusal::*;
    for (text, limit, refusal, place) in [
        ("(a:1,a:2)", 128, RepeatedField, 5),
        ("(width:1,r#width:2)", 128, RepeatedField, 5),
        ("(r#width:1,width:2)", 128, RepeatedField, 5),
        ("Lock(a:1,b:2,a:3,b:4)", 128, RepeatedField, 10),
        ("(é:1,r#é:2)", 128, RepeatedField, 5),
        ("(a:1,a)", 128, RepeatedField, 5),
        ("(a:1,a", 128, RepeatedField, 5),
        ("(a:1,a(2))", 128, RepeatedField, 5),
        ("(a:1,a:[)", 128, RepeatedField, 5),
        ("(a:1,a:[[]])", 1, RepeatedField, 5),
        ("(a:[],a:1)", 1, DepthLimitPassed, 3),
        ("(a:1 a:2)", 128, NotAllowedHere, 4),
        ("(a:(b:1,b:2),a:3)", 128, RepeatedField, 8),
        ("(a:(b:1),a:3)", 128, RepeatedField, 9),
        ("(a:[(b:1,c:2,b:3", 128, RepeatedField, 13),
    ] {
        let (tape, count) = checked_read(text.as_bytes()).unwrap();
        let walked = checked_walk(text.as_bytes(), &tape, count, limit, count);
        assert_eq!(walked, Err(refused(refusal, place)), "{text}");
    }
    for text in [
        "(a:(a:1),b:2)",
        "[(a:1),(a:1)]",
        "(a,a)",
        "[a,a]",
        "{a:1,a:2}",
        "a(a:1,b:2)",
        "(a:1,A:2,aa:3,r#aA:4)",
        "(e\u{301}:1,é:2)",
    ] {
        let (tape, count) = checked_read(text.as_bytes()).unwrap();
        assert!(checked_walk(text.as_bytes(), &tape, count, MAX_DEPTH, count).is_ok(), "{text}");
    }
}

/// Records of any number of fields, with every two of them the same in turn where they are few; the links stay.
#[test]
fn records_of_many_fields() {
    for fields in [2, 3, 15, 16, 17, 18, 40, 127, 128, 129, 600, 2500] {
        let names: Vec<String> = (0..fields).map(|i| format!("f{:x}", i * 7919 % 65_521)).collect();
        let text = |names: &[String]| format!("({})", names.iter().map(|name| format!("{name}:1,")).collect::<String>());
        let walked = |names: &[String]| {
            let text = text(names);
            let (tape, count) = checked_read(text.as_bytes()).unwrap();
            checked_walk(text.as_bytes(), &tape, count, MAX_DEPTH, count).map(drop)
        };
        assert_eq!(walked(&names), Ok(()));
        let step = if fields <= 18 { 1 } else { fields / 7 };
        for first in (0..fields).step_by(step) {
            for second in (first + 1..fields).rev().step_by(step) {
                let mut twice = names.clone();
                twice[second] = format!("r#{}", names[first]);
                assert_eq!(walked(&twice), Err(refused(Refusal::RepeatedField, 1 + 4 * second)));
            }
        }
    }
}

/// The tape need not be the text's: what counts is the bytes where its names stand. A document has its own text.
#[test]
fn walks_over_other_texts() {
    let (tape, count) = checked_read(b"(ab:1,r#ac:2)").unwrap();
    let over = |text: &[u8]| checked_walk(text, &tape, count, MAX_DEPTH, count).map(drop);
    assert_eq!(over(b"(ab:1,r#ac:2)"), Ok(()));
    assert_eq!(over(b"[xy 3;r#xz.4]\n"), Ok(()));
    assert_eq!(over(b"(ac:1,r#ac:2)"), Err(refused(Refusal::RepeatedField, 5)));
    let not_in_order = Err(refused(Refusal::NotInOrder, 0));
    for text in [&b"(ab:1,r#ac:2"[..], b"", b"(ab:1,r_ac:2)", b"(ab:1,b#ac:2)"] {
        assert_eq!(over(text), not_in_order, "{text:?}");
    }
    assert_eq!(over(b"(ab:1,r#ac:\xFF)"), Err(refused(Refusal::NotUtf8, 11)));
    assert_eq!(over(&[b' '; MAX_TEXT + 1]), Err(refused(Refusal::TooLong, 0)));
    // A raw name of nothing; and what is cut off is told by the kind, not by the bytes.
    let raw = Kind::RawName.number();
    assert_eq!(
        checked_walk(b"r#a", &[raw, 0, 2, 0, 0], 1, MAX_DEPTH, 1),
        not_in_order.map(|()| vec![])
    );
    assert_eq!(checked_walk(b"r#a", &[raw, 0, 3, 0, 0], 1, MAX_DEPTH, 1), Ok(vec![0]));
    let twice = b"(r#a:1,r#a:2)";
    let (mut tape, count) = checked_read(twice).unwrap();
    assert_eq!(
        checked_walk(twice, &tape, count, MAX_DEPTH, count),
        Err(refused(Refusal::RepeatedField, 5))
    );
    tape[ENTRY] = Kind::Name.number();
    assert!(checked_walk(twice, &tape, count, MAX_DEPTH, count).is_ok());
}

/// After a repair the document walks over its new text.
#[test]
fn repaired_documents_are_walked_by_their_own_text() {
    let mut tape = [0; ENTRY * 16];
    let mut links = [MARK; 9];
    let mut document = Document::read(b"(ab:1,ac:2)", &mut tape).unwrap();
    assert_eq!(document.walk(MAX_DEPTH, &mut links), Ok(()));
    let before = links;
    document.repair(7..8, b"(ab:1,ab:2)").unwrap();
    assert_eq!(document.walk(MAX_DEPTH, &mut links), Err(refused(Refusal::RepeatedField, 5)));
    assert_eq!(links, before);
}

#[test]
fn largest_texts() {
    for piece in ["[", "7,", "a ", "\"\"", "// x\n", "/*", "é"] {
        let mut text = piece.repeat(MAX_TEXT / piece.len());
        text += &" ".repeat(MAX_TEXT - text.len());
        let _ = checked_read(text.as_bytes());
        text.push(' ');
        assert_eq!(checked_read(text.as_bytes()).unwrap_err(), refused(Refusal::TooLong, 0));
        assert_eq!(
            integer(text.as_bytes(), usize::MAX, Width::U8).unwrap_err(),
            refused(Refusal::TooLong, 0)
        );
    }
}

/// A list in any order, with entries that come twice: the values and their codes.
#[test]
fn lists_of_integers() {
    let text = b"[7, -5, 300, b'a', -0, -9223372036854775808, -0u8, 0xFF, 1_000i64, 18446744073709551615]";
    let (tape, count) = checked_read(text).unwrap();
    let items = [11, 1, 3, 3, 5, 7, 9, 13, 15, 17, 19];
    let values = checked_integers(text, &tape, count, &items, [12, 13]).unwrap();
    let values: Vec<(i128, u32)> = values.iter().map(|(value, width)| ((*value).into(), width.number())).collect();
    let (lowest, highest) = (i64::MIN.into(), u64::MAX.into());
    let wanted = [
        (lowest, 4),
        (7, 5),
        (-5, 1),
        (-5, 1),
        (300, 6),
        (97, 5),
        (0, 1),
        (0, 5),
        (255, 5),
        (1000, 4),
        (highest, 8),
    ];
    assert_eq!(values, wanted);
    let mut codes = [0; 11];
    integers(text, &tape, count, &items, &mut [0; 11], &mut codes).unwrap();
    assert_eq!(codes, [20, 5, 17, 17, 6, 5, 1, 5, 5, 4, 8]);
    // No item over a count that fits is accepted, in no room; what is asked first is told first.
    assert_eq!(checked_integers(text, &tape, count, &[], [0, 0]), Ok(vec![]));
    assert_eq!(checked_integers(b"", &[], 0, &[], [0, 0]), Ok(vec![]));
    for (items, rooms, refusal, place) in [
        (&[1, 3, 21][..], [3, 3], Refusal::Unfit, 2),
        (&[1, 2, 21], [0, 0], Refusal::OtherKind, 1),
        (&[u32::MAX, 2], [2, 2], Refusal::Unfit, 0),
        (&[1, 3], [1, 2], Refusal::NoRoom, 0),
        (&[1, 3], [2, 1], Refusal::NoRoom, 0),
    ] {
        let answer = checked_integers(text, &tape, count, items, rooms);
        assert_eq!(answer, Err(refused(refusal, place)), "{items:?}");
    }
    let room = tape.len() / ENTRY;
    for count in [room + 1, usize::MAX] {
        let answer = checked_integers(text, &tape, count, &[99], [0, 0]);
        assert_eq!(answer, Err(refused(Refusal::NotInOrder, 0)));
    }
    let answer = checked_integers(b"7\xFF", &tape, usize::MAX, &[99], [0, 0]);
    assert_eq!(answer, Err(refused(Refusal::NotUtf8, 1)));
    let answer = checked_integers(&[b'7'; MAX_TEXT + 1], &tape, usize::MAX, &[99], [0, 0]);
    assert_eq!(answer, Err(refused(Refusal::TooLong, 0)));
}

/// Entries of no integer, and integers that do not read in their entry's width: the number is the single call's, the place the item's.
#[test]
fn items_that_are_refused() {
    use Refusal::*;
    for (text, kind, start, width, refusal) in [
        ("7", 11, 2, 5, Unfit),
        ("7", 11, u32::MAX, 5, Unfit),
        ("7é", 11, 2, 5, Unfit),
        ("7é", 9, 2, 5, Unfit),
        ("7", 12, 0, 5, OtherKind),
        ("7", 0, 0, 5, OtherKind),
        ("7", 77, 0, 5, OtherKind),
        ("7", 11, 0, 0, OtherKind),
        ("7", 11, 0, 9, OtherKind),
        ("7", 11, 0, 256 + 5, OtherKind),
        ("7 1u16", 11, 2, 5, OtherKind),
        ("7", 11, 1, 5, Eof),
        ("7 x", 11, 2, 5, ExpectedInteger),
        ("7 _1", 11, 2, 5, UnderscoreAtBeginning),
        ("7 0b2", 11, 2, 5, InvalidIntegerDigit),
        ("7 256", 11, 2, 5, IntegerOutOfBounds),
        ("7 -129", 11, 2, 1, IntegerOutOfBounds),
        ("7 b'ab'", 11, 2, 5, ExpectedByteLiteral),
    ] {
        let tape = [11, 0, 1, 5, 0, kind, start, 0, width, 0];
        let answer = checked_integers(text.as_bytes(), &tape, 2, &[0, 0, 1, 0], [4, 4]);
        assert_eq!(answer, Err(refused(refusal, 2)), "{text}");
    }
    for (text, reason) in [
        (r"7 b'\x4'", EscapeReason::DigitNotHex),
        (r"7 b'\u{41}'", EscapeReason::UnicodeInByteLiteral),
    ] {
        let answer = checked_integers(text.as_bytes(), &[11, 2, 0, 5, 0], 1, &[0], [1, 1]);
        assert_eq!(answer, Err(Refused::invalid_escape(reason, 0)), "{text}");
    }
    // Where an entry ends is not looked at.
    let answer = checked_integers(b"1.5", &[11, 0, 0, 5, 7], 1, &[0], [1, 1]);
    assert_eq!(answer, Ok(vec![(Value::from(1), Width::U8)]));
}

/// As many integers as a text has room for, each asked for twice.
#[test]
fn longest_lists() {
    let text = format!("[{}]", "7,".repeat((MAX_TEXT - 2) / 2));
    let (tape, count) = checked_read(text.as_bytes()).unwrap();
    let items: Vec<u32> = (0..2).flat_map(|_| (1..count as u32 - 1).step_by(2)).collect();
    let (mut magnitudes, mut codes) = (vec![0; items.len()], vec![0; items.len()]);
    assert_eq!(integers(text.as_bytes(), &tape, count, &items, &mut magnitudes, &mut codes), Ok(()));
    assert!(items.len() == 65_534 && magnitudes.iter().all(|n| *n == 7) && codes.iter().all(|code| *code == 5));
}

/// Numbers that name no width and no mode are refused 28 at 0, behind 1 and 2 of the text; nothing is written.
#[test]
fn unfit_numbers() {
    extern "C" {
        fn sarridok_integer(text: *const u8, text_len: usize, place: usize, width: u32, magnitude: *mut u64) -> u64;
        fn sarridok_struct_kind(text: *const u8, text_len: usize, place: usize, newtype: u32, tuple: u32) -> u64;
    }
    let unfit = |number: u64, place: u64| (1 << 63) + (number << 32) + place;
    for (text, refusal) in [
        (&b"7"[..], unfit(28, 0)),
        (&b"7\xFF"[..], unfit(2, 1)),
        (&[0; 65_537][..], unfit(1, 0)),
    ] {
        for width in [0, 9, 256 + 5, u32::MAX] {
            let mut magnitude = 41;
            // Safety: the slice and the number are valid.
            let answer = unsafe { sarridok_integer(text.as_ptr(), text.len(), 0, width, &mut magnitude) };
            assert_eq!((answer, magnitude), (refusal, 41));
        }
        for (newtype, tuple) in [(2, 0), (0, 2), (u32::MAX, 1), (1, 256)] {
            // Safety: the slice is valid.
            let answer = unsafe { sarridok_struct_kind(text.as_ptr(), text.len(), 0, newtype, tuple) };
            assert_eq!(answer, refusal);
        }
    }
}
