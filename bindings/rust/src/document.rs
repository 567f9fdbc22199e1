//! A text, its tape and the number of its entries, kept together.

use crate::{contents, decoded, entries, integer, integers, read, repair, walk};
use crate::{Entries, Entry, Integers, Refusal, Refused, Repaired, Value, ENTRY};
use core::ops::Range;

/// A text that was read: the text and its tape, both lent, and the number of its entries.
///
/// ```
/// use sarridok::{Document, Kind, ENTRY, MAX_DEPTH};
///
/// let mut tape = [0; ENTRY * 16];
/// let mut document = Document::read(br#"Lock(id: 7, name: "weir")"#, &mut tape)?;
/// assert_eq!(document.count(), 10);
/// assert_eq!(document.entry(4).unwrap().kind, Kind::Integer);
/// assert_eq!(document.text_of(2), Some(&b"id"[..]));
/// assert_eq!(document.gap_of(4), Some(&b" "[..]));
/// assert_eq!(u8::try_from(document.integer(4)?), Ok(7));
/// assert_eq!(document.contents(8)?, b"weir");
///
/// let mut links = [0; 16];
/// document.walk(MAX_DEPTH, &mut links)?;
/// assert_eq!((links[1], links[9]), (9, 1));
///
/// let repaired = document.repair(9..10, br#"Lock(id: 80, name: "weir")"#)?;
/// assert_eq!((repaired.before, repaired.behind), (4, 5));
/// assert_eq!(document.text_of(4), Some(&b"80"[..]));
/// # Ok::<(), sarridok::Refused>(())
/// ```
#[derive(Debug)]
pub struct Document<'a> {
    text: &'a [u8],
    tape: &'a mut [u32],
    count: usize,
}

impl<'a> Document<'a> {
    /// Reads a text into a tape. [`ENTRY`] numbers for each byte of the text are room enough.
    ///
    /// # Errors
    /// As [`read`].
    pub fn read(text: &'a [u8], tape: &'a mut [u32]) -> Result<Document<'a>, Refused> {
        let count = read(text, tape)?;
        Ok(Document { text, tape, count })
    }

    /// A document of what was read before. Nothing is believed of its parts: what is not in order is refused by each call that needs it.
    pub fn from_parts(text: &'a [u8], tape: &'a mut [u32], count: usize) -> Document<'a> {
        Document { text, tape, count }
    }

    /// Text, tape and number of entries.
    pub fn into_parts(self) -> (&'a [u8], &'a mut [u32], usize) {
        (self.text, self.tape, self.count)
    }

    /// The text.
    pub fn text(&self) -> &'a [u8] {
        self.text
    }

    /// The tape, with what stands behind its entries.
    pub fn tape(&self) -> &[u32] {
        self.tape
    }

    /// The number of entries.
    pub fn count(&self) -> usize {
        self.count
    }

    /// The entries in turn.
    pub fn entries(&self) -> Entries<'_> {
        entries(self.tape, self.count)
    }

    /// An entry by its number.
    pub fn entry(&self, number: usize) -> Option<Entry> {
        if self.count <= number {
            return None;
        }
        let rows = self.tape.get(number.checked_mul(ENTRY)?..)?;
        entries(rows, 1).next()
    }

    /// The bytes of the text that an entry stands for.
    pub fn text_of(&self, number: usize) -> Option<&'a [u8]> {
        self.text.get(self.entry(number)?.span())
    }

    /// The bytes of the text that stand before an entry, from the former one's end or the text's start: whitespace and comments.
    pub fn gap_of(&self, number: usize) -> Option<&'a [u8]> {
        self.text.get(self.entry(number)?.gap_span())
    }

    /// Joins the brackets, as [`walk`] does: one link to an entry, at most `limit` brackets open at once, and no field named again in its `( )`.
    ///
    /// # Errors
    /// As [`walk`].
    pub fn walk(&self, limit: usize, links: &mut [u32]) -> Result<(), Refused> {
        walk(self.text, self.tape, self.count, limit, links)
    }

    /// The bytes inside a string or byte string, where nothing in it was escaped.
    ///
    /// # Errors
    /// As [`contents`].
    pub fn contents(&self, number: usize) -> Result<&'a [u8], Refused> {
        contents(self.text, self.tape, self.count, number)
    }

    /// The same decoded, in every case: the front of `out`. How long it is stands in [`Entry::decoded_len`].
    ///
    /// # Errors
    /// As [`decoded`].
    pub fn decoded<'o>(&self, number: usize, out: &'o mut [u8]) -> Result<&'o [u8], Refused> {
        let len = decoded(self.text, self.tape, self.count, number, out)?;
        Ok(&out[..len])
    }

    /// The value of an integer, in its own width.
    ///
    /// # Errors
    /// Refused as [`Refusal::Unfit`] for a number not below the count, as [`Refusal::OtherKind`] for an entry that is no integer of a width, then as [`integer`].
    pub fn integer(&self, number: usize) -> Result<Value, Refused> {
        let entry = self.entry(number).ok_or(Refused::new(Refusal::Unfit, 0))?;
        let width = entry.width().ok_or(Refused::new(Refusal::OtherKind, 0))?;
        let (value, _) = integer(self.text, entry.start, width)?;
        Ok(value)
    }

    /// The values of the integers that a list of entry numbers names, each with its width, in the list's order: one call, which judges the text once.
    /// The two buffers, each as long as the list, are what it writes them into.
    ///
    /// # Errors
    /// As [`integers`]; the place of an item's refusal is the item's number in the list.
    ///
    /// ```
    /// use sarridok::{Document, Refusal, Refused, Width, ENTRY};
    /// let mut tape = [0; ENTRY * 7];
    /// let document = Document::read(b"[7, -5, 300]", &mut tape)?;
    /// let (mut magnitudes, mut codes) = ([0; 3], [0; 3]);
    /// let values = document.integers(&[5, 3, 1], &mut magnitudes, &mut codes)?;
    /// assert_eq!(values.len(), 3);
    /// let values: Vec<(i32, Width)> = values.map(|(value, width)| (i32::try_from(value).unwrap(), width)).collect();
    /// assert_eq!(values, [(300, Width::U16), (-5, Width::I8), (7, Width::U8)]);
    ///
    /// let refused = document.integers(&[1, 2], &mut magnitudes, &mut codes).unwrap_err();
    /// assert_eq!(refused, Refused::new(Refusal::OtherKind, 1));
    /// let refused = document.integers(&[1, 3], &mut magnitudes[..1], &mut codes).unwrap_err();
    /// assert_eq!(refused, Refused::new(Refusal::NoRoom, 0));
    /// # Ok::<(), sarridok::Refused>(())
    /// ```
    pub fn integers<'o>(&self, items: &[u32], magnitudes: &'o mut [u64], codes: &'o mut [u8]) -> Result<Integers<'o>, Refused> {
        integers(self.text, self.tape, self.count, items, magnitudes, codes)?;
        Ok(Integers::new(magnitudes, codes, items.len()))
    }

    /// Makes this the document of `text`, in which the bytes of `cut` of the old text were replaced.
    ///
    /// # Errors
    /// As [`repair`]; the document then stays that of the old text.
    pub fn repair(&mut self, cut: Range<usize>, text: &'a [u8]) -> Result<Repaired, Refused> {
        let repaired = repair(self.tape, self.count, self.text.len(), cut, text)?;
        self.text = text;
        self.count = repaired.count;
        Ok(repaired)
    }
}

impl<'d> IntoIterator for &'d Document<'_> {
    type Item = Entry;
    type IntoIter = Entries<'d>;

    fn into_iter(self) -> Entries<'d> {
        self.entries()
    }
}
