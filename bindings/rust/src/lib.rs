//! Sarridok: a proved reader of RON text.
//!
//! These are safe functions over the archive of `sarridok_c`, whose every function is proved to answer and to write exactly what one definition says, for all
//! bytes and all numbers, and to end. This crate passes numbers and slices on and takes the answer apart. Slices of Rust are what the archive asks of its
//! caller: valid, and what is written overlaps nothing else.
//!
//! Every call takes arbitrary bytes and numbers. What is unfit gets a numbered [`Refusal`] with a place, an escape that is not valid an [`EscapeReason`] too, and a refused
//! call writes nothing: but for a text that arrives, of which the entries before its refusal are given with it.
//!
//! A [`Document`] keeps a text, its tape and the number of its entries together:
//!
//! ```
//! use sarridok::{Document, Kind, ENTRY, MAX_DEPTH};
//!
//! let text = b"Lock(id: 7)";
//! let mut tape = [0; ENTRY * 11];
//! let document = Document::read(text, &mut tape)?;
//! let kinds: Vec<Kind> = document.entries().map(|entry| entry.kind).collect();
//! assert_eq!(kinds, [Kind::Name, Kind::OpenParen, Kind::Name, Kind::Colon, Kind::Integer, Kind::CloseParen]);
//!
//! let mut links = [0; 6];
//! document.walk(MAX_DEPTH, &mut links)?;
//! assert_eq!(links, [0, 5, 2, 3, 4, 1]);
//! # Ok::<(), sarridok::Refused>(())
//! ```
//!
//! [`Arriving`] reads a text while it comes, in pieces of any length. Each gives the entries that it decides; in all they are those of one reading, however the text was cut:
//!
//! ```
//! use sarridok::{Arriving, Kind};
//!
//! let (mut arriving, mut kinds) = (Arriving::new(), Vec::new());
//! for piece in [&b"Lo"[..], b"ck(id", b": 7)"] {
//!     let decided = arriving.push(piece);
//!     kinds.extend(decided.entries().map(|entry| entry.kind));
//!     decided.result()?;
//! }
//! arriving.finish().result()?;
//! assert_eq!(kinds, [Kind::Name, Kind::OpenParen, Kind::Name, Kind::Colon, Kind::Integer, Kind::CloseParen]);
//! # Ok::<(), sarridok::Refused>(())
//! ```
//!
//! Below both stand the calls themselves, by their names: [`read`], [`walk`], [`repair`], [`integer`], [`integers`], [`contents`], [`decoded`], [`struct_kind`] and [`skip`], and
//! for a text that arrives [`begin`], [`piece`] and [`finish`].
//!
//! Without the feature `std`, which adds `std::error::Error` for the errors, no standard library is asked for. Nothing is allocated but by [`Arriving`], which the feature
//! `alloc`, a part of `std`, adds. The archive itself asks for `memset`, and links only into x86-64 programs.
#![no_std]
#![warn(missing_docs)]
#![deny(unsafe_code)]

#[cfg(feature = "alloc")]
extern crate alloc;
#[cfg(any(feature = "std", test))]
extern crate std;

mod answer;
#[allow(unsafe_code)]
mod arrival;
#[cfg(feature = "alloc")]
mod arriving;
#[allow(unsafe_code)]
mod calls;
mod document;
mod entry;
mod integers;
mod kinds;
mod numbered;
mod raw;
mod refusal;
mod value;

pub use arrival::{begin, finish, piece, Arrival, Given};
#[cfg(feature = "alloc")]
pub use arriving::{Arriving, Decided, Finished};
pub use calls::{contents, decoded, integer, integers, read, repair, skip, struct_kind, version, walk};
pub use document::Document;
pub use entry::{entries, Entries, Entry};
pub use integers::Integers;
pub use kinds::{Extension, Kind, NewtypeMode, ParserCursor, Repaired, StructType, TupleMode, Width};
pub use numbered::UnknownNumber;
pub use refusal::{EscapeReason, Refusal, Refused};
pub use value::{Value, ValueOutOfRange};

/// The longest text, in bytes; a longer one is refused as [`Refusal::TooLong`].
pub const MAX_TEXT: usize = 65_536;

/// The highest depth limit of a walk.
pub const MAX_DEPTH: usize = 128;

/// What a code of [`integers`] has above its width's number where the value is below 0.
pub const BELOW_ZERO: u8 = 16;

/// How many numbers of a tape an entry has: kind, start, end, detail, gap. A tape has room for its length divided by it, rounded down. Later versions may have more.
pub const ENTRY: usize = 5;

/// How many numbers stand between two pieces of a text that arrives: those of an [`Arrival`]. Later versions may have more.
pub const ARRIVAL: usize = 10;

/// How many bytes are kept at most between two pieces. An entry that is undecided when so many have come from its start, and another follows, is refused as
/// [`Refusal::EntryTooLong`].
pub const MAX_KEPT: usize = 4096;

/// The examples of the README are tests too.
#[cfg(doctest)]
#[doc = include_str!("../README.md")]
mod readme {}
