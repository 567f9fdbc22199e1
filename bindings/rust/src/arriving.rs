//! A text that arrives, with a buffer and a tape of its own.

use crate::{begin, entries, finish, piece};
use crate::{Arrival, Entries, Entry, Given, Refusal, Refused, ENTRY, MAX_KEPT};
use alloc::vec::Vec;

/// How many bytes of a piece are handed over at once: with what is kept, twice as many stand in the buffer at most.
const PART: usize = MAX_KEPT;

/// A text that arrives: pieces are pushed as they come, and each gives the entries that it decides, as [`piece`] says. It has a buffer and a tape of its own, so there is always
/// room. The buffer never has more than twice [`MAX_KEPT`] bytes, and the tape room for the entries of one piece and as many more as the buffer has bytes.
///
/// The text itself is not kept. A caller that wants the bytes of entries appends each piece to a text of its own: places are those of the whole text.
///
/// ```
/// use sarridok::{integer, Arriving, Kind, Refusal};
///
/// let (mut arriving, mut text, mut kinds) = (Arriving::new(), Vec::new(), Vec::new());
/// for piece in ["Lock(id: 1", "7, na", "me: \"Foxton\")"] {
///     text.extend_from_slice(piece.as_bytes());
///     let decided = arriving.push(piece.as_bytes());
///     for entry in decided.entries() {
///         kinds.push(entry.kind);
///         if let Some(width) = entry.width() {
///             let (value, _) = integer(&text[entry.span()], 0, width)?;
///             assert_eq!(u32::try_from(value), Ok(17));
///         }
///     }
///     decided.result()?;
/// }
/// let finished = arriving.finish();
/// assert_eq!((finished.count(), finished.refused()), (0, None));
/// assert_eq!(kinds[..5], [Kind::Name, Kind::OpenParen, Kind::Name, Kind::Colon, Kind::Integer]);
///
/// // A refusal stands behind the entries before it, and every later piece gets it too.
/// let mut arriving = Arriving::new();
/// let decided = arriving.push(b"[7, \"\\q\", 8]");
/// assert_eq!(decided.count(), 3);
/// assert_eq!(decided.refused().unwrap().to_string(), "refused 13 at 7: the escape is not valid: unknown letter");
/// assert_eq!(arriving.push(b"9").refused().unwrap().refusal, Refusal::InvalidEscape);
/// assert_eq!(arriving.finish().result().unwrap_err().refusal, Refusal::InvalidEscape);
/// # Ok::<(), sarridok::Refused>(())
/// ```
#[derive(Clone, Debug)]
pub struct Arriving {
    state: Arrival,
    /// What is kept; the piece stands behind it only while it is taken.
    buffer: Vec<u8>,
    tape: Vec<u32>,
}

impl Arriving {
    /// A text of which nothing has come.
    pub fn new() -> Arriving {
        Arriving {
            state: begin(),
            buffer: Vec::new(),
            tape: Vec::new(),
        }
    }

    /// Takes the next piece of the text, of any length: the entries that it decides, and the refusal behind them if the text is refused.
    pub fn push(&mut self, piece: &[u8]) -> Decided<'_> {
        let (mut rest, mut count) = (piece, 0);
        loop {
            let (part, behind) = rest.split_at(rest.len().min(PART));
            let given = self.take(part, count);
            count += given.count;
            if behind.is_empty() || given.refused.is_some() {
                return Decided {
                    entries: entries(&self.tape, count),
                    count,
                    refused: given.refused,
                };
            }
            rest = behind;
        }
    }

    /// Takes a part of a piece whose first entries stand on the tape.
    fn take(&mut self, part: &[u8], before: usize) -> Given {
        self.buffer.extend_from_slice(part);
        self.make_room(before + self.buffer.len());
        let tape = &mut self.tape[ENTRY * before..];
        let given = piece(&mut self.state, &mut self.buffer, part.len(), tape);
        self.buffer.truncate(self.state.kept());
        given.expect("the state is the archive's own, and there is room for an entry to each byte")
    }

    /// So that so many entries fit the tape.
    fn make_room(&mut self, entries: usize) {
        if self.tape.len() < ENTRY * entries {
            self.tape.resize(ENTRY * entries, 0);
        }
    }

    /// The text ends here: the entries that nothing had decided yet, and what the text is refused with if it is.
    pub fn finish(mut self) -> Finished {
        self.make_room(self.buffer.len());
        let given = finish(&self.state, &self.buffer, &mut self.tape);
        let given = given.expect("the state is the archive's own, and there is room for an entry to each byte");
        Finished {
            tape: self.tape,
            count: given.count,
            refused: given.refused,
        }
    }

    /// Where the text stands. With [`kept`](Arriving::kept) it is all that has to be stored to [`resume`](Arriving::resume).
    pub fn state(&self) -> Arrival {
        self.state
    }

    /// The bytes that are kept, at most [`MAX_KEPT`]: those from the first undecided entry's start on.
    pub fn kept(&self) -> &[u8] {
        &self.buffer
    }

    /// How many bytes of the text were taken.
    pub fn taken(&self) -> usize {
        self.state.taken()
    }

    /// Goes on where a text stood, with what was kept of it then: as after a loss of power.
    ///
    /// # Errors
    /// Refused as [`Refusal::NotInOrder`] where the numbers are out of order or do not belong to so many bytes. That the bytes are the text's own is not seen.
    ///
    /// ```
    /// use sarridok::{Arriving, Kind, Refusal};
    ///
    /// let mut arriving = Arriving::new();
    /// assert_eq!(arriving.push(b"[7, \"Fox").count(), 3);
    /// let (numbers, bytes): ([u32; 10], Vec<u8>) = (arriving.state().into(), arriving.kept().to_vec());
    /// drop(arriving);
    ///
    /// let mut arriving = Arriving::resume(numbers.into(), &bytes)?;
    /// let decided = arriving.push(b"ton\"]");
    /// let string = decided.entries().next().unwrap();
    /// assert_eq!((string.kind, string.span()), (Kind::String, 4..12));
    ///
    /// let refused = Arriving::resume(numbers.into(), b"\"").unwrap_err();
    /// assert_eq!(refused.refusal, Refusal::NotInOrder);
    /// # Ok::<(), sarridok::Refused>(())
    /// ```
    pub fn resume(mut state: Arrival, kept: &[u8]) -> Result<Arriving, Refused> {
        if kept.len() != state.kept() {
            return Err(Refused::new(Refusal::NotInOrder, 0));
        }
        let mut buffer = kept.to_vec();
        // A piece of no bytes leaves a state that is in order as it is, and any other is refused.
        let _ = piece(&mut state, &mut buffer, 0, &mut [])?;
        Ok(Arriving {
            state,
            buffer,
            tape: Vec::new(),
        })
    }
}

/// The same as [`Arriving::new`].
impl Default for Arriving {
    fn default() -> Arriving {
        Arriving::new()
    }
}

/// What a piece decided: entries, and the refusal behind them if the text is refused. It is what [`Arriving::push`] answers.
#[derive(Clone, Debug)]
#[must_use = "a piece's entries are given once, and the text may be refused behind them"]
pub struct Decided<'a> {
    entries: Entries<'a>,
    count: usize,
    refused: Option<Refused>,
}

impl<'a> Decided<'a> {
    /// The entries in turn; of a refused text those before the refusal.
    pub fn entries(&self) -> Entries<'a> {
        self.entries.clone()
    }

    /// How many entries.
    pub fn count(&self) -> usize {
        self.count
    }

    /// What the text is refused with.
    pub fn refused(&self) -> Option<Refused> {
        self.refused
    }

    /// The refusal as an error, for a caller that has no more to do then.
    ///
    /// # Errors
    /// The refusal, if there is one; the entries before it have been given.
    pub fn result(&self) -> Result<(), Refused> {
        self.refused.map_or(Ok(()), Err)
    }
}

impl<'a> IntoIterator for Decided<'a> {
    type Item = Entry;
    type IntoIter = Entries<'a>;

    fn into_iter(self) -> Entries<'a> {
        self.entries
    }
}

/// What the end of a text decided: the last entries, and the refusal behind them if the text is refused. It is what [`Arriving::finish`] answers.
#[derive(Clone, Debug)]
#[must_use = "the last entries are given here, and the text may be refused behind them"]
pub struct Finished {
    tape: Vec<u32>,
    count: usize,
    refused: Option<Refused>,
}

impl Finished {
    /// The entries in turn; of a refused text those before the refusal.
    pub fn entries(&self) -> Entries<'_> {
        entries(&self.tape, self.count)
    }

    /// How many entries.
    pub fn count(&self) -> usize {
        self.count
    }

    /// What the text is refused with. `None`: it is accepted.
    pub fn refused(&self) -> Option<Refused> {
        self.refused
    }

    /// The refusal as an error.
    ///
    /// # Errors
    /// The refusal, if there is one.
    pub fn result(&self) -> Result<(), Refused> {
        self.refused.map_or(Ok(()), Err)
    }
}

impl<'f> IntoIterator for &'f Finished {
    type Item = Entry;
    type IntoIter = Entries<'f>;

    fn into_iter(self) -> Entries<'f> {
        self.entries()
    }
}
