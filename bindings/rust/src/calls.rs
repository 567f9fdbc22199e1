//! The calls.

use crate::answer::taken_apart;
use crate::raw;
use crate::{NewtypeMode, ParserCursor, Refused, Repaired, StructType, TupleMode, Value, Width};
use core::ops::Range;

/// The version of the archive that was linked: major * 10,000 + minor * 100 + patch, so 700 is 0.7.0.
///
/// ```
/// assert_eq!(sarridok::version(), 700);
/// ```
pub fn version() -> u32 {
    // Safety: it takes and writes nothing.
    unsafe { raw::sarridok_version() }
}

/// Reads a text into a tape, [`ENTRY`](crate::ENTRY) numbers to an entry, and answers the number of entries; what stands behind them stays.
/// A text has at most as many entries as bytes. Whitespace and comments make no entry, but the next one's gap.
///
/// # Errors
/// Refused as `TooLong`, `NotUtf8`, then by the first refusal of reading (4 to 21), and as `NoRoom` last.
///
/// ```
/// use sarridok::{read, ENTRY};
/// let mut tape = [0; ENTRY * 6];
/// assert_eq!(read(b"Lock(id: 7)", &mut tape), Ok(6));
/// assert_eq!(tape[ENTRY * 4..ENTRY * 5], [11, 9, 10, 5, 1]);
/// let refused = read(b"'\\xC3'", &mut tape).unwrap_err();
/// assert_eq!(refused.to_string(), "refused 13 at 5: the escape is not valid: not a byte-escaped character");
/// ```
pub fn read(text: &[u8], tape: &mut [u32]) -> Result<usize, Refused> {
    // Safety: both slices are valid for the call, and the one that is written is borrowed alone.
    let answer = unsafe { raw::sarridok_read(text.as_ptr(), text.len(), tape.as_mut_ptr(), tape.len()) };
    Ok(taken_apart(answer)?.size())
}

/// Joins the brackets of a tape, one link to an entry: a bracket's link is its partner, any other entry's its own number. `limit` is how many brackets may
/// be open at once, 0 to 128. Within one `( )` of fields no name may come again; `r#width` and `width` are one name.
///
/// Names are read off the text, so give the one that the tape was read from, or walk by [`Document::walk`](crate::Document::walk), which has it. Any other text is answered
/// too, by the bytes that stand there.
///
/// Entries are in order where each has a kind, starts below its end, and has a gap that leads from the former entry's end, or the text's start, to its start.
///
/// # Errors
/// Refused as `TooLong`, `NotUtf8`, `Unfit` for a limit above 128, `NotInOrder` for a count above the tape's room, entries that are not in order or end behind the text, or a
/// raw name that is not `r#` with more behind it, `NoRoom`, then by the first, in the order of entries, of 24, 25, 26 and 31. `RepeatedField` names the entry that comes again.
///
/// ```
/// use sarridok::{read, walk, Refusal, ENTRY};
/// let mut tape = [0; ENTRY * 3];
/// let count = read(b"[7]", &mut tape)?;
/// let mut links = [0; 3];
/// walk(b"[7]", &tape, count, 128, &mut links)?;
/// assert_eq!(links, [2, 1, 0]);
/// assert_eq!(walk(b"[7]", &tape, count, 0, &mut links).unwrap_err().refusal, Refusal::DepthLimitPassed);
/// tape[ENTRY - 1] = 7; // the gap of the first entry, which is its start
/// assert_eq!(walk(b"[7]", &tape, count, 128, &mut links).unwrap_err().refusal, Refusal::NotInOrder);
///
/// let text = b"(width: 1, r#width: 2)";
/// let mut tape = [0; ENTRY * 9];
/// let count = read(text, &mut tape)?;
/// let refused = walk(text, &tape, count, 128, &mut [0; 9]).unwrap_err();
/// assert_eq!(refused.to_string(), "refused 31 at 5: a field of this name stands in the same brackets already");
/// # Ok::<(), sarridok::Refused>(())
/// ```
pub fn walk(text: &[u8], tape: &[u32], count: usize, limit: usize, links: &mut [u32]) -> Result<(), Refused> {
    // Safety: as in `read`.
    let answer = unsafe {
        raw::sarridok_walk(
            text.as_ptr(),
            text.len(),
            tape.as_ptr(),
            tape.len(),
            count,
            limit,
            links.as_mut_ptr(),
            links.len(),
        )
    };
    taken_apart(answer)?;
    Ok(())
}

/// Makes the tape of an old text that of `text`: the old text had `old_len` bytes, and those of `cut` were replaced. `count` is the number of old entries.
///
/// # Errors
/// Refused as `TooLong`, `NotUtf8`, `NotInOrder` for a cut or lengths that cannot be, a count above the tape's room, or entries that are not in order (as [`walk`] says) or end
/// behind `old_len`, then by the first refusal of reading (4 to 21), and as `NoRoom` last.
///
/// ```
/// use sarridok::{read, repair, ENTRY};
/// let mut tape = [0; ENTRY * 16];
/// let count = read(b"[7, 8, 9]", &mut tape)?;
/// let repaired = repair(&mut tape, count, 9, 4..6, b"[7, /*8,*/ 9]")?;
/// // Kept behind is the bracket alone: more bytes stand before the 9 now.
/// assert_eq!((repaired.count, repaired.before, repaired.behind), (5, 3, 1));
/// # Ok::<(), sarridok::Refused>(())
/// ```
pub fn repair(tape: &mut [u32], count: usize, old_len: usize, cut: Range<usize>, text: &[u8]) -> Result<Repaired, Refused> {
    let (mut before, mut behind) = (0, 0);
    // Safety: as in `read`; the two numbers are this function's own.
    let answer = unsafe {
        raw::sarridok_repair(
            tape.as_mut_ptr(),
            tape.len(),
            count,
            old_len,
            cut.start,
            cut.end,
            text.as_ptr(),
            text.len(),
            &mut before,
            &mut behind,
        )
    };
    let count = taken_apart(answer)?.size();
    Ok(Repaired {
        count,
        before: before as usize,
        behind: behind as usize,
    })
}

/// The integer at a place, and the place behind it. A byte literal is `u8`.
///
/// # Errors
/// Refused as `TooLong`, `NotUtf8`, `Unfit` for the place, then by those of reading (6 to 15), and as `OtherKind` for another suffix.
///
/// ```
/// use sarridok::{integer, Width};
/// let (value, end) = integer(b"-128", 0, Width::I8)?;
/// assert_eq!((i8::try_from(value), end), (Ok(-128), 4));
/// assert_eq!(integer(b"256", 0, Width::U8).unwrap_err().to_string(), "refused 10 at 3: the integer is out of bounds");
/// let refused = integer(br"b'\u{41}'", 0, Width::U8).unwrap_err();
/// assert_eq!(refused.to_string(), "refused 13 at 8: the escape is not valid: Unicode in a byte literal");
/// # Ok::<(), sarridok::Refused>(())
/// ```
pub fn integer(text: &[u8], place: usize, width: Width) -> Result<(Value, usize), Refused> {
    let mut magnitude = 0;
    // Safety: the slice is valid for the call; the number is this function's own.
    let answer = unsafe { raw::sarridok_integer(text.as_ptr(), text.len(), place, width.number(), &mut magnitude) };
    let pair = taken_apart(answer)?;
    Ok((Value::new(pair.high == 1, magnitude), pair.size()))
}

/// The integers that a list of entry numbers names, each in its entry's width, as [`integer`] reads it at the entry's start. For each item, in the list's order, the number
/// without its minus stands at the front of `magnitudes`, and at that of `codes` the width's number, with [`BELOW_ZERO`](crate::BELOW_ZERO) added below 0; what is behind them stays.
/// [`Value::coded`] puts the two together, and [`Document::integers`](crate::Document::integers) hands the values out in turn.
///
/// Entries may come in any order and more than once; of each only kind, start and detail are looked at.
///
/// # Errors
/// Refused as `TooLong`, `NotUtf8`, `NotInOrder` for a count above the tape's room, then by the first item that has a refusal, with the item's number in the list, from 0, for the
/// place: `Unfit` for an entry number not below the count or a start that is unfit, `OtherKind` for an entry that is no integer of a width, those of reading (6 to 15), and
/// `OtherKind` for another suffix. As `NoRoom` last, where `magnitudes` or `codes` is shorter than the list. An item's number above 2^32 - 1 is told as 2^32 - 1.
///
/// ```
/// use sarridok::{integers, read, Refusal, Refused, ENTRY};
/// let text = b"[7, -5, 300]";
/// let mut tape = [0; ENTRY * 7];
/// let count = read(text, &mut tape)?;
/// let (mut magnitudes, mut codes) = ([0; 3], [0; 3]);
/// integers(text, &tape, count, &[5, 3, 1], &mut magnitudes, &mut codes)?;
/// assert_eq!((magnitudes, codes), ([300, 5, 7], [6, 16 + 1, 5]));
///
/// // Entry 2 is a comma: item 1 of the list refuses all of it.
/// let refused = integers(text, &tape, count, &[1, 2], &mut magnitudes, &mut codes).unwrap_err();
/// assert_eq!(refused, Refused::new(Refusal::OtherKind, 1));
/// assert_eq!((magnitudes, codes), ([300, 5, 7], [6, 16 + 1, 5]));
/// # Ok::<(), sarridok::Refused>(())
/// ```
pub fn integers(text: &[u8], tape: &[u32], count: usize, items: &[u32], magnitudes: &mut [u64], codes: &mut [u8]) -> Result<(), Refused> {
    // Safety: the slices are valid for the call, and the two that are written are borrowed alone.
    let answer = unsafe {
        raw::sarridok_integers(
            text.as_ptr(),
            text.len(),
            tape.as_ptr(),
            tape.len(),
            count,
            items.as_ptr(),
            items.len(),
            magnitudes.as_mut_ptr(),
            magnitudes.len(),
            codes.as_mut_ptr(),
            codes.len(),
        )
    };
    taken_apart(answer)?;
    Ok(())
}

/// The bytes inside the string or byte string that an entry names, where nothing in it was escaped. Of the entry only kind and start are looked at.
///
/// # Errors
/// Refused as `TooLong`, `NotUtf8`, `Unfit`, `NotInOrder`, `OtherKind`, then by those of reading the string, and as `HoldsEscape` last.
///
/// ```
/// let text = br#"["weir", "a\nb"]"#;
/// let mut tape = [0; sarridok::ENTRY * 16];
/// let count = sarridok::read(text, &mut tape)?;
/// assert_eq!(sarridok::contents(text, &tape, count, 1)?, b"weir");
/// assert_eq!(sarridok::contents(text, &tape, count, 3).unwrap_err().refusal, sarridok::Refusal::HoldsEscape);
/// # Ok::<(), sarridok::Refused>(())
/// ```
pub fn contents<'a>(text: &'a [u8], tape: &[u32], count: usize, entry: usize) -> Result<&'a [u8], Refused> {
    // Safety: both slices are valid for the call; nothing is written.
    let answer = unsafe { raw::sarridok_contents(text.as_ptr(), text.len(), tape.as_ptr(), tape.len(), count, entry) };
    let span = taken_apart(answer)?;
    Ok(&text[span.high as usize..span.size()])
}

/// The same decoded, in every case: how many bytes stand at the front of `out`; what is behind them stays.
///
/// # Errors
/// Refused as `TooLong`, `NotUtf8`, `Unfit`, `NotInOrder`, `OtherKind`, then by those of reading the string, and as `NoRoom` last.
///
/// ```
/// let text = br#""\xC3\xA9""#;
/// let mut tape = [0; sarridok::ENTRY];
/// let count = sarridok::read(text, &mut tape)?;
/// let mut out = [0; 3];
/// assert_eq!(sarridok::decoded(text, &tape, count, 0, &mut out), Ok(2));
/// assert_eq!(out, [0xC3, 0xA9, 0]);
/// # Ok::<(), sarridok::Refused>(())
/// ```
pub fn decoded(text: &[u8], tape: &[u32], count: usize, entry: usize, out: &mut [u8]) -> Result<usize, Refused> {
    // Safety: as in `read`.
    let answer = unsafe {
        raw::sarridok_decoded(
            text.as_ptr(),
            text.len(),
            tape.as_ptr(),
            tape.len(),
            count,
            entry,
            out.as_mut_ptr(),
            out.len(),
        )
    };
    Ok(taken_apart(answer)?.size())
}

/// The kind of the struct at a place.
///
/// # Errors
/// Refused as `TooLong`, `NotUtf8`, `Unfit` for the place, then by those of reading.
///
/// ```
/// use sarridok::{struct_kind, NewtypeMode, StructType, TupleMode};
/// let kind = struct_kind(b"(\"a\"/*,*/)", 0, NewtypeMode::NoParensMeanUnit, TupleMode::DifferentiateNewtype)?;
/// assert_eq!(kind, StructType::NewtypeTuple);
/// # Ok::<(), sarridok::Refused>(())
/// ```
pub fn struct_kind(text: &[u8], place: usize, newtype: NewtypeMode, tuple: TupleMode) -> Result<StructType, Refused> {
    // Safety: the slice is valid for the call; nothing is written.
    let answer = unsafe { raw::sarridok_struct_kind(text.as_ptr(), text.len(), place, newtype.number(), tuple.number()) };
    let number = taken_apart(answer)?.low;
    Ok(StructType::try_from(number).expect("the archive answers a struct type"))
}

/// Behind the whitespace and comments at a cursor.
///
/// # Errors
/// Refused as `TooLong`, `NotUtf8`, `Unfit` for the cursor, then by 4 to 6.
///
/// ```
/// use sarridok::{skip, ParserCursor};
/// let moved = skip(b"/* weir */ 7", ParserCursor::at(0))?;
/// assert_eq!(moved, ParserCursor { cursor: 11, pre_ws_cursor: 0, last_ws_len: 11 });
/// # Ok::<(), sarridok::Refused>(())
/// ```
pub fn skip(text: &[u8], cursor: ParserCursor) -> Result<ParserCursor, Refused> {
    let (mut pre, mut len) = (0, 0);
    // Safety: the slice is valid for the call; the two numbers are this function's own.
    let answer = unsafe {
        raw::sarridok_skip(
            text.as_ptr(),
            text.len(),
            cursor.cursor,
            cursor.pre_ws_cursor,
            cursor.last_ws_len,
            &mut pre,
            &mut len,
        )
    };
    Ok(ParserCursor {
        cursor: taken_apart(answer)?.size(),
        pre_ws_cursor: pre as usize,
        last_ws_len: len as usize,
    })
}
