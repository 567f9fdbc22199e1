//! Numbers and what they name, values and the archive's version.

use sarridok::*;

#[test]
fn the_archive_is_of_this_version() {
    let part = |part: &str| part.parse::<u32>().unwrap();
    let package = 10_000 * part(env!("CARGO_PKG_VERSION_MAJOR"))
        + 100 * part(env!("CARGO_PKG_VERSION_MINOR"))
        + part(env!("CARGO_PKG_VERSION_PATCH"));
    assert_eq!(version(), package);
}

#[test]
fn refusals_have_their_numbers() {
    let numbers: Vec<u8> = Refusal::ALL.iter().map(|refusal| refusal.number()).collect();
    assert!(numbers.windows(2).all(|pair| pair[0] < pair[1]), "{numbers:?}");
    assert!(numbers[0] == 1 && !numbers.contains(&3));
    assert_eq!(Refusal::try_from(30), Ok(Refusal::EntryTooLong));
    assert_eq!(Refusal::try_from(31), Ok(Refusal::RepeatedField));
    for number in 0..=u8::MAX {
        match Refusal::try_from(number) {
            Ok(refusal) => assert_eq!(u8::from(refusal), number),
            Err(unknown) => assert_eq!(unknown.number(), number.into()),
        }
    }
    for refusal in Refusal::ALL {
        assert_eq!(refusal.to_string(), refusal.text());
        assert!(!refusal.text().is_empty());
    }
}

#[test]
fn reasons_have_their_words() {
    for reason in EscapeReason::ALL {
        assert_eq!(reason.to_string(), reason.text());
        assert!(!reason.text().is_empty());
        let refused = Refused::invalid_escape(*reason, 7);
        assert_eq!((refused.number(), refused.place, refused.reason), (13, 7, Some(*reason)));
        assert_eq!(refused.to_string(), format!("refused 13 at 7: the escape is not valid: {reason}"));
    }
    let without = Refused::new(Refusal::InvalidEscape, 7);
    assert_eq!(without.reason, None);
    assert_eq!(without.to_string(), "refused 13 at 7: the escape is not valid");
}

/// The case of a number has that number, and every number behind those of the list names none.
macro_rules! is_numbered {
    ($name:ident, $numbers:expr) => {
        let numbers: Vec<u32> = $name::ALL.iter().map(|case| u32::from(*case)).collect();
        assert_eq!(numbers, Vec::from_iter($numbers));
        for number in (0..300).chain([u32::MAX]) {
            let found = $name::try_from(number);
            assert_eq!(found.map(|case| case.number()).ok(), numbers.contains(&number).then_some(number));
            if let Ok(byte) = u8::try_from(number) {
                assert_eq!($name::try_from(byte), found);
            }
        }
    };
}

#[test]
fn numbers_name_cases() {
    is_numbered!(Kind, 1..=16);
    is_numbered!(Width, 1..=8);
    is_numbered!(NewtypeMode, 0..=1);
    is_numbered!(TupleMode, 0..=1);
    is_numbered!(StructType, 0..=5);
    is_numbered!(Extension, [1, 2, 4, 8]);
    is_numbered!(EscapeReason, 1..=8);
}

#[test]
fn values_at_the_bounds() {
    assert_eq!(i64::try_from(Value::from(i64::MIN)), Ok(i64::MIN));
    assert_eq!(u64::try_from(Value::from(u64::MAX)), Ok(u64::MAX));
    assert_eq!(Value::from(u64::MAX).to_string(), "18446744073709551615");
    assert_eq!(Value::from(-7i8).to_string(), "-7");
    assert!(i64::try_from(Value::from(1u64 << 63)).is_err());
    assert!(u64::try_from(Value::from(-1i8)).is_err());
    assert!(i8::try_from(Value::from(128u8)).is_err());
    assert_eq!(Value::from(0i8), Value::from(0u64));
    assert!(!Value::from(0i8).minus);
}

#[test]
fn details_of_entries() {
    let text = "#![enable(implicit_some, unwrap_newtypes)] (7, 'é', \"a\\n\", b\"b\", c)";
    let mut tape = [0; ENTRY * 64];
    let document = Document::read(text.as_bytes(), &mut tape).unwrap();
    let at = |number| document.entry(number).unwrap();
    assert!(at(0).enables(Extension::ImplicitSome) && at(0).enables(Extension::UnwrapNewtypes));
    assert!(!at(0).enables(Extension::ExplicitStructNames) && !at(2).enables(Extension::UnwrapNewtypes));
    assert_eq!(
        (at(2).width(), at(2).character(), at(2).decoded_len()),
        (Some(Width::U8), None, None)
    );
    assert_eq!((at(4).width(), at(4).character()), (None, Some('é')));
    assert_eq!(
        (at(6).decoded_len(), at(8).decoded_len(), at(10).decoded_len()),
        (Some(2), Some(1), None)
    );
}

/// What stands before an entry, by its number of bytes and as a part of the text.
#[test]
fn gaps_of_entries() {
    let mut tape = [0; ENTRY * 8];
    let document = Document::read(b" [7, /* 8, */ 9] // x", &mut tape).unwrap();
    let gaps: Vec<usize> = document.entries().map(|entry| entry.gap).collect();
    assert_eq!(gaps, [1, 0, 0, 10, 0]);
    assert_eq!(document.entry(3), Some(Entry::new(Kind::Integer, 14..15, Width::U8.number(), 10)));
    assert_eq!(document.entry(3).unwrap().gap_span(), 4..14);
    assert_eq!(document.gap_of(3), Some(&b" /* 8, */ "[..]));
    assert_eq!((document.gap_of(4), document.gap_of(5)), (Some(&b""[..]), None));
}

/// Parts that do not belong together are refused or have no entry; nothing panics.
#[test]
fn parts_of_no_document() {
    let mut tape = [[9, 0, 90, 0, 0], [77, 0, 1, 0, 0], [11, 0, 1, 9, 0]].concat();
    let mut document = Document::from_parts(b"7", &mut tape, usize::MAX);
    let mut entries = document.entries();
    assert!(entries.next().is_some() && entries.next().is_none() && entries.next().is_none());
    assert_eq!(document.text_of(0), None);
    assert_eq!(
        (document.entry(1), document.entry(3), document.entry(usize::MAX - 1)),
        (None, None, None)
    );
    assert_eq!(document.integer(2).unwrap_err().refusal, Refusal::OtherKind);
    assert_eq!(document.integer(3).unwrap_err().refusal, Refusal::Unfit);
    assert_eq!(document.integers(&[], &mut [], &mut []).unwrap_err().refusal, Refusal::NotInOrder);
    assert_eq!(document.contents(0).unwrap_err().refusal, Refusal::NotInOrder);
    assert_eq!(document.decoded(0, &mut []).unwrap_err().refusal, Refusal::NotInOrder);
    assert_eq!(document.walk(MAX_DEPTH, &mut []).unwrap_err().refusal, Refusal::NotInOrder);
    assert_eq!(document.repair(0..1, b"8").unwrap_err().refusal, Refusal::NotInOrder);
    let (text, tape, count) = document.into_parts();
    assert_eq!((text, tape.len(), count), (&b"7"[..], ENTRY * 3, usize::MAX));
    let entry = Entry::new(Kind::Name, 2..3, 0, usize::MAX);
    assert_eq!(entry.gap_span(), 0..2);
}

/// What stands behind the count is no entry, though it looks like one.
#[test]
fn entries_end_at_the_count() {
    let mut tape = [9, 0, 1, 0, 0, 9, 2, 3, 0, 1];
    let document = Document::from_parts(b"a b", &mut tape, 1);
    assert_eq!(document.entries().count(), 1);
    assert_eq!((document.text_of(0), document.entry(1)), (Some(&b"a"[..]), None));
}

/// The values of a list have a length, which counts down, and are handed out in the list's order; the iterator may be copied.
#[test]
fn values_of_a_list() {
    let mut tape = [0; ENTRY * 8];
    let document = Document::read(b"[7, -8, 900]", &mut tape).unwrap();
    let (mut magnitudes, mut codes) = ([1; 5], [1; 4]);
    let mut values = document.integers(&[5, 1, 3], &mut magnitudes, &mut codes).unwrap();
    assert_eq!((values.len(), values.size_hint()), (3, (3, Some(3))));
    assert_eq!(values.next(), Some((Value::from(900), Width::U16)));
    let rest = values.clone();
    assert_eq!((values.next(), values.len()), (Some((Value::from(7), Width::U8)), 1));
    assert_eq!(values.next(), Some((Value::from(-8), Width::I8)));
    assert_eq!((values.next(), values.next(), values.len()), (None, None, 0));
    assert_eq!(rest.map(|(value, _)| i128::from(value)).sum::<i128>(), -1);
    let none = document.integers(&[], &mut [], &mut []).unwrap();
    assert_eq!((none.len(), none.last()), (0, None));
    assert_eq!((magnitudes, codes), ([900, 7, 8, 1, 1], [6, 5, 17, 1]));
}

#[test]
fn codes_of_values() {
    for code in 0..=u8::MAX {
        let width = Width::try_from(code % BELOW_ZERO).ok().filter(|_| code < 2 * BELOW_ZERO);
        let minus = BELOW_ZERO <= code;
        let coded = Value::coded(7, code);
        assert_eq!(coded.map(|(_, width)| width), width);
        assert!(coded.map_or(true, |(value, _)| (value.minus, value.magnitude) == (minus, 7)));
        assert_eq!(Value::coded(0, code).is_some(), width.is_some() && !minus);
    }
}

/// A document may be repaired as often as a host likes, with each text in a buffer of its own.
#[test]
fn edit_after_edit() {
    let mut text = b"[1]".to_vec();
    let mut tape = [0; ENTRY * 64];
    let mut count = read(&text, &mut tape).unwrap();
    for n in 2..20u8 {
        let mut new = text.clone();
        new.splice(text.len() - 1..text.len() - 1, format!(", {n}").bytes());
        let mut document = Document::from_parts(&text, &mut tape, count);
        document.repair(text.len() - 1..text.len() - 1, &new).unwrap();
        let last = document.integer(document.count() - 2).unwrap();
        assert_eq!(u8::try_from(last), Ok(n));
        count = document.count();
        text = new;
    }
    assert_eq!(count, 39);
}

/// A host that finds no room lends more.
#[test]
fn more_room() {
    let mut tape = vec![0; ENTRY];
    let document = match Document::read(b"[1, 2]", &mut tape) {
        Err(refused) if refused.refusal == Refusal::NoRoom => {
            tape.resize(ENTRY * 6, 0);
            Document::read(b"[1, 2]", &mut tape).unwrap()
        }
        other => panic!("{other:?}"),
    };
    assert_eq!(document.count(), 5);
}

#[cfg(feature = "std")]
#[test]
fn errors() {
    fn is_error<E: std::error::Error + Send + Sync + 'static>() {}
    is_error::<Refused>();
    is_error::<UnknownNumber>();
    is_error::<ValueOutOfRange>();
}
