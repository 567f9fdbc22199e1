//! The entries of a tape.

use crate::{Extension, Kind, Width, ENTRY};
use core::iter::FusedIterator;
use core::ops::Range;
use core::slice::ChunksExact;

/// An entry of a tape. Later versions add what more a tape says of it.
#[derive(Clone, Copy, Debug, PartialEq, Eq, Hash)]
#[non_exhaustive]
pub struct Entry {
    /// What it is.
    pub kind: Kind,
    /// The place of its first byte.
    pub start: usize,
    /// The place behind its last byte.
    pub end: usize,
    /// What its kind says of it, else 0.
    pub detail: u32,
    /// How many bytes stand before it, from the former entry's end, or the text's start, to its start: whitespace and comments. Those behind the last entry are in no gap.
    pub gap: usize,
}

impl Entry {
    /// An entry of a kind over a part of the text, behind a gap of so many bytes.
    pub const fn new(kind: Kind, span: Range<usize>, detail: u32, gap: usize) -> Entry {
        Entry {
            kind,
            start: span.start,
            end: span.end,
            detail,
            gap,
        }
    }

    /// The numbers of an entry, where the kind is one.
    fn of(row: &[u32]) -> Option<Entry> {
        match *row {
            [kind, start, end, detail, gap] => {
                let kind = Kind::try_from(kind).ok()?;
                Some(Entry::new(kind, start as usize..end as usize, detail, gap as usize))
            }
            _ => None,
        }
    }

    /// From its first byte to behind its last.
    pub const fn span(&self) -> Range<usize> {
        self.start..self.end
    }

    /// The gap: from the former entry's end, or the text's start, to its first byte. One that is longer than its start, as no read writes it, begins at 0.
    pub const fn gap_span(&self) -> Range<usize> {
        self.start.saturating_sub(self.gap)..self.start
    }

    /// The width of an integer.
    pub fn width(&self) -> Option<Width> {
        self.detail_of(Kind::Integer).and_then(|width| Width::try_from(width).ok())
    }

    /// The character of a char.
    pub fn character(&self) -> Option<char> {
        self.detail_of(Kind::Char).and_then(char::from_u32)
    }

    /// How many bytes a string or byte string decodes to.
    pub fn decoded_len(&self) -> Option<usize> {
        let len = self.detail_of(Kind::String).or_else(|| self.detail_of(Kind::ByteString));
        len.map(|len| len as usize)
    }

    /// Whether it is an attribute that enables an extension.
    pub fn enables(&self, extension: Extension) -> bool {
        self.detail_of(Kind::Attribute).map_or(false, |sum| sum & extension.number() != 0)
    }

    fn detail_of(&self, kind: Kind) -> Option<u32> {
        (self.kind == kind).then_some(self.detail)
    }
}

/// The first entries of a tape, up to one whose kind is none.
///
/// ```
/// use sarridok::{entries, Entry, Kind, Width};
/// let tape = [11, 9, 10, 5, 1];
/// let integer = entries(&tape, 1).next().unwrap();
/// assert_eq!(integer, Entry::new(Kind::Integer, 9..10, 5, 1));
/// assert_eq!(integer.width(), Some(Width::U8));
/// assert_eq!((integer.span(), integer.gap_span()), (9..10, 8..9));
/// ```
pub fn entries(tape: &[u32], count: usize) -> Entries<'_> {
    let numbers = count.saturating_mul(ENTRY).min(tape.len());
    Entries {
        rows: tape[..numbers].chunks_exact(ENTRY),
    }
}

/// The entries of a tape in turn. It is what [`entries`] answers.
#[derive(Clone, Debug)]
pub struct Entries<'a> {
    rows: ChunksExact<'a, u32>,
}

impl Iterator for Entries<'_> {
    type Item = Entry;

    fn next(&mut self) -> Option<Entry> {
        let entry = self.rows.next().and_then(Entry::of);
        if entry.is_none() {
            self.rows = [].chunks_exact(ENTRY);
        }
        entry
    }

    fn size_hint(&self) -> (usize, Option<usize>) {
        (0, Some(self.rows.len()))
    }
}

impl FusedIterator for Entries<'_> {}
