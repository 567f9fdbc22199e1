//! A text that arrives, piece by piece: the calls, and the numbers that stand between two of them.

use crate::answer::{refused_of, taken_apart};
use crate::raw;
use crate::{Refusal, Refused, ARRIVAL};

// Where the numbers stand that are told by name.
const TAKEN: usize = 0;
const NUMBER: usize = 5;
const PLACE: usize = 6;
const REASON: usize = 7;
const KEPT: usize = 9;

/// Where a text stands between two pieces: [`ARRIVAL`] plain numbers, which a host may store, with the bytes that are kept, over a loss of power.
///
/// The numbers are, from the first: how many bytes were taken; how many of the kept ones, at their end, belong to a character that has not come whole; what is open where
/// nothing has begun (0 nothing, 1 a `/`, 2 a line comment, 3 a block comment); how many other comments are around that block comment, and its last byte if that may
/// be half of a mark; number, place and reason of the refusal that was given, all 0 before; where the last entry given ended; how many bytes are kept.
///
/// Any numbers may be made an `Arrival`: nothing is believed of them, and what is out of order is refused by [`piece`] and [`finish`].
///
/// ```
/// use sarridok::{begin, Arrival};
/// let numbers: [u32; 10] = begin().into();
/// assert_eq!(numbers, [0; 10]);
/// assert_eq!(Arrival::from(numbers), begin());
/// ```
#[derive(Clone, Copy, Debug, PartialEq, Eq, Hash)]
pub struct Arrival([u32; ARRIVAL]);

impl Arrival {
    /// How many bytes of the text were taken.
    pub const fn taken(&self) -> usize {
        self.0[TAKEN] as usize
    }

    /// How many bytes are kept at the buffer's front, at most [`MAX_KEPT`](crate::MAX_KEPT): those from the first undecided entry's start on.
    pub const fn kept(&self) -> usize {
        self.0[KEPT] as usize
    }

    /// The refusal that was given; every later piece gets it, and the end too.
    pub fn refused(&self) -> Option<Refused> {
        let number = u8::try_from(self.0[NUMBER]).ok().filter(|number| *number != 0)?;
        let reason = u8::try_from(self.0[REASON]).unwrap_or(0);
        Some(refused_of(number, reason, self.0[PLACE]))
    }
}

/// The same as [`begin`].
impl Default for Arrival {
    fn default() -> Arrival {
        begin()
    }
}

impl From<[u32; ARRIVAL]> for Arrival {
    fn from(numbers: [u32; ARRIVAL]) -> Arrival {
        Arrival(numbers)
    }
}

impl From<Arrival> for [u32; ARRIVAL] {
    fn from(state: Arrival) -> [u32; ARRIVAL] {
        state.0
    }
}

impl AsRef<[u32; ARRIVAL]> for Arrival {
    fn as_ref(&self) -> &[u32; ARRIVAL] {
        &self.0
    }
}

/// What a piece or the end of a text gives: entries, and a refusal behind them where the text is refused. It is what [`piece`] and [`finish`] answer.
#[derive(Clone, Copy, Debug, PartialEq, Eq, Hash)]
#[non_exhaustive]
#[must_use = "the text may be refused behind its entries"]
pub struct Given {
    /// How many entries stand at the tape's front.
    pub count: usize,
    /// What the text is refused with behind these entries. Every later piece gets the same, and the end too.
    pub refused: Option<Refused>,
}

/// 22 and 23 refuse the call, which has taken and written nothing; any other number refuses the text, behind the entries.
fn given(answer: u64, count: u64) -> Result<Given, Refused> {
    let refused = taken_apart(answer).err();
    match refused {
        Some(refused) if matches!(refused.refusal, Refusal::NoRoom | Refusal::NotInOrder) => Err(refused),
        _ => Ok(Given {
            count: count as usize,
            refused,
        }),
    }
}

/// Where a text stands before its first byte.
///
/// ```
/// let state = sarridok::begin();
/// assert_eq!((state.taken(), state.kept(), state.refused()), (0, 0, None));
/// ```
pub fn begin() -> Arrival {
    let mut numbers = [0; ARRIVAL];
    // Safety: the slice is this function's own.
    let answer = unsafe { raw::sarridok_begin(numbers.as_mut_ptr(), numbers.len()) };
    taken_apart(answer).expect("there is room for the numbers of a state");
    Arrival(numbers)
}

/// Takes a piece of a text that arrives, and writes the entries that it decides to the front of the tape; what stands behind them stays. [`Arriving`](crate::Arriving)
/// does the same with a buffer and a tape of its own.
///
/// What is kept of the text stands at the buffer's front, [`Arrival::kept`] bytes, and the caller has put the `n` bytes of the piece behind it. Afterwards what is kept then
/// stands there, so [`MAX_KEPT`](crate::MAX_KEPT) bytes more than the longest piece are enough for a buffer. A piece decides at most as many entries as there
/// are bytes in it and kept before it.
///
/// An entry is decided once its end has come and, at or behind that end, a space, a tab, a line's end, a comma, a colon, a bracket or a `/`; one that ends in a comma, a colon,
/// a bracket or a quote at once, and with it all before it. However a text is cut, the same is given at the same byte, and in all what [`read`](crate::read) gives of the whole
/// text, with three exceptions: bytes that are no UTF-8 and the byte behind the 65,536th are told when they come, and an entry that is undecided when
/// [`MAX_KEPT`](crate::MAX_KEPT) bytes from its start have come and another follows is refused as [`Refusal::EntryTooLong`]. Places are those of the whole text.
///
/// A refusal of the text stands behind the entries before it, in [`Given::refused`]; every later piece gets the same one, without entries.
///
/// # Errors
/// Refused as `NotInOrder` for a state that is out of order, or bytes that the buffer does not have, then as `NoRoom` for a tape that has no room for all entries of the piece.
/// Nothing was taken or written then, and the piece may be handed over again.
///
/// ```
/// use sarridok::{begin, entries, finish, piece, Kind, Refusal, ENTRY, MAX_KEPT};
///
/// let (mut state, mut buffer, mut tape) = (begin(), [0; MAX_KEPT + 16], [0; ENTRY * 16]);
/// let mut hand_over = |bytes: &[u8], tape: &mut [u32]| {
///     buffer[state.kept()..][..bytes.len()].copy_from_slice(bytes);
///     piece(&mut state, &mut buffer, bytes.len(), tape)
/// };
///
/// // The bracket is decided at once, and what stands before it too; the 1 may go on.
/// assert_eq!(hand_over(b"Lock(id: 1", &mut tape)?.count, 4);
/// let given = hand_over(b"7 ", &mut tape)?;
/// let entry = entries(&tape, given.count).next().unwrap();
/// assert_eq!((entry.kind, entry.span(), entry.gap), (Kind::Integer, 9..11, 1));
///
/// // Without room nothing is taken, and the piece may be handed over again.
/// assert_eq!(hand_over(b", weir *", &mut []).unwrap_err().refusal, Refusal::NoRoom);
/// let given = hand_over(b", weir *", &mut tape)?;
/// assert_eq!(given.count, 2);
/// assert_eq!(given.refused.unwrap().to_string(), "refused 5 at 19: an unexpected character stands here or just before");
/// assert_eq!(hand_over(b")", &mut tape)?.refused, given.refused);
/// assert_eq!(finish(&state, &buffer, &mut tape)?.refused, given.refused);
/// # Ok::<(), sarridok::Refused>(())
/// ```
pub fn piece(state: &mut Arrival, buffer: &mut [u8], n: usize, tape: &mut [u32]) -> Result<Given, Refused> {
    let mut count = 0;
    // Safety: the slices are valid for the call and borrowed alone; the count is this function's own.
    let answer = unsafe {
        raw::sarridok_piece(
            state.0.as_mut_ptr(),
            state.0.len(),
            buffer.as_mut_ptr(),
            buffer.len(),
            n,
            tape.as_mut_ptr(),
            tape.len(),
            &mut count,
        )
    };
    given(answer, count)
}

/// The end of a text that arrived: the entries of what is kept, at the front of the tape, and what the text is refused with if it is. State and buffer stay as they are; a piece
/// that is handed over to them afterwards goes on as if no end had been asked for.
///
/// # Errors
/// As [`piece`].
///
/// ```
/// use sarridok::{begin, finish, piece, Refusal, ENTRY};
///
/// let (mut state, mut buffer, mut tape) = (begin(), *b"[7, \"weir", [0; ENTRY * 9]);
/// assert_eq!(piece(&mut state, &mut buffer, 9, &mut tape)?.count, 3);
/// assert_eq!((state.kept(), &buffer[..5]), (5, &b"\"weir"[..]));
/// let given = finish(&state, &buffer, &mut tape)?;
/// assert_eq!((given.count, given.refused.unwrap().refusal), (0, Refusal::ExpectedStringEnd));
///
/// let (mut state, mut buffer) = (begin(), *b"weir");
/// assert_eq!(piece(&mut state, &mut buffer, 4, &mut tape)?.count, 0);
/// let given = finish(&state, &buffer, &mut tape)?;
/// assert_eq!((given.count, given.refused), (1, None));
/// # Ok::<(), sarridok::Refused>(())
/// ```
pub fn finish(state: &Arrival, buffer: &[u8], tape: &mut [u32]) -> Result<Given, Refused> {
    let mut count = 0;
    // Safety: as in `piece`.
    let answer = unsafe {
        raw::sarridok_finish(
            state.0.as_ptr(),
            state.0.len(),
            buffer.as_ptr(),
            buffer.len(),
            tape.as_mut_ptr(),
            tape.len(),
            &mut count,
        )
    };
    given(answer, count)
}
