//! Refusals and the reasons of an invalid escape: each with its number and its words, from the one table in `docs/refusals.txt`.

use crate::numbered::{numbered, UnknownNumber};
use core::fmt;

/// The enum, and what is read off the table: a line is number, name and sentence.
macro_rules! refusals {
    ($($number:literal $name:ident $text:literal,)*) => {
        /// Why a call is refused. Later versions add refusals.
        ///
        /// ```
        /// use sarridok::Refusal;
        /// assert_eq!(Refusal::NoRoom.number(), 22);
        /// assert_eq!(Refusal::try_from(4), Ok(Refusal::UnclosedBlockComment));
        /// assert_eq!(Refusal::UnclosedBlockComment.to_string(), "a block comment is not closed");
        /// assert_eq!(Refusal::try_from(3).unwrap_err().to_string(), "3 is the number of no refusal");
        /// ```
        #[derive(Clone, Copy, Debug, PartialEq, Eq, Hash)]
        #[non_exhaustive]
        pub enum Refusal {
            $(#[doc = $text] $name,)*
            /// A number that this version does not know: the archive that was linked is a later one's.
            #[non_exhaustive]
            Unknown(u8),
        }

        impl Refusal {
            /// Every refusal of the table, in the order of their numbers.
            pub const ALL: &'static [Refusal] = &[$(Refusal::$name,)*];

            /// Its number. No refusal has 0, and 3 is reserved.
            pub const fn number(self) -> u8 {
                match self {
                    $(Refusal::$name => $number,)*
                    Refusal::Unknown(number) => number,
                }
            }

            /// Its sentence.
            pub const fn text(self) -> &'static str {
                match self {
                    $(Refusal::$name => $text,)*
                    Refusal::Unknown(_) => "no refusal that this version knows",
                }
            }
        }

        impl TryFrom<u8> for Refusal {
            type Error = UnknownNumber;

            fn try_from(number: u8) -> Result<Refusal, UnknownNumber> {
                match number {
                    $($number => Ok(Refusal::$name),)*
                    _ => Err(UnknownNumber::new("refusal", number.into())),
                }
            }
        }
    };
}

/// The same of the reasons: a line is number, name, words and place.
macro_rules! reasons {
    ($($number:literal $name:ident $words:literal $place:literal,)*) => {
        numbered! {
            "escape reason",
            /// Why an escape is not valid: what [`Refusal::InvalidEscape`] has besides its place. Later versions may add reasons.
            ///
            /// ```
            /// use sarridok::EscapeReason;
            /// assert_eq!(EscapeReason::NoDigits.number(), 5);
            /// assert_eq!(EscapeReason::try_from(2u32), Ok(EscapeReason::UnknownLetter));
            /// assert_eq!(EscapeReason::UnknownLetter.to_string(), "unknown letter");
            /// assert_eq!(EscapeReason::try_from(0u32).unwrap_err().to_string(), "0 is the number of no escape reason");
            /// ```
            #[non_exhaustive]
            pub enum EscapeReason { $(#[doc = concat!($words, "; the place is ", $place)] $name = $number,)* }
        }

        impl EscapeReason {
            /// Its words.
            pub const fn text(self) -> &'static str {
                match self {
                    $(EscapeReason::$name => $words,)*
                }
            }
        }
    };
}

// refusals: written by docs/refusals
refusals! {
    1 TooLong "the text is longer than 65,536 bytes",
    2 NotUtf8 "the text is not UTF-8 here",
    4 UnclosedBlockComment "a block comment is not closed",
    5 UnexpectedChar "an unexpected character stands here or just before",
    6 Eof "the text ends where a character is needed",
    7 ExpectedInteger "an integer is expected",
    8 UnderscoreAtBeginning "an integer cannot begin with an underscore",
    9 InvalidIntegerDigit "this digit is not below the integer's base",
    10 IntegerOutOfBounds "the integer is out of bounds",
    11 ExpectedFloat "a float is expected",
    12 FloatUnderscore "an underscore is misplaced in the float",
    13 InvalidEscape "the escape is not valid",
    14 ExpectedChar "a char is expected",
    15 ExpectedByteLiteral "a byte literal is expected",
    16 ExpectedString "a string is expected",
    17 ExpectedStringEnd "the string is not closed",
    18 ExpectedByteString "a byte string is expected",
    19 ExpectedAttribute "an attribute is expected",
    20 ExpectedAttributeEnd "the end of the attribute is expected",
    21 NoSuchExtension "the extension is not known",
    22 NoRoom "there is no room: the tape, the links or the buffer is too short",
    23 NotInOrder "the cut, the lengths, the tape or the state are not in order",
    24 DepthLimitPassed "more brackets are open than the limit allows",
    25 NotAllowedHere "this cannot stand here",
    26 TapeEndsEarly "the text ends before its value does",
    27 OtherKind "the entry or the suffix is of another kind",
    28 Unfit "a place, entry number, cursor, limit, width or mode is unfit",
    29 HoldsEscape "the contents hold an escape or a line continuation",
    30 EntryTooLong "an entry is undecided after 4,096 bytes",
    31 RepeatedField "a field of this name stands in the same brackets already",
}

reasons! {
    1 DigitNotHex "digit not hex" "behind the character that is no digit",
    2 UnknownLetter "unknown letter" "behind it",
    3 NotByteEscaped "not a byte-escaped character" "behind the last digits read",
    4 MissingOpenBrace "missing open brace" "behind the `u`",
    5 NoDigits "no digits" "at the `}`",
    6 NoClosingBrace "no closing brace" "behind the sixth digit",
    7 NotACharacter "not a character" "behind the `}`",
    8 UnicodeInByteLiteral "Unicode in a byte literal" "behind the `}`",
}
// refusals: end

impl From<Refusal> for u8 {
    fn from(refusal: Refusal) -> u8 {
        refusal.number()
    }
}

impl fmt::Display for Refusal {
    fn fmt(&self, f: &mut fmt::Formatter<'_>) -> fmt::Result {
        f.write_str(self.text())
    }
}

impl fmt::Display for EscapeReason {
    fn fmt(&self, f: &mut fmt::Formatter<'_>) -> fmt::Result {
        f.write_str(self.text())
    }
}

/// What a call was refused with. It has written nothing, but where a text that arrives is refused behind entries: see [`Given`](crate::Given).
///
/// ```
/// use sarridok::{EscapeReason, Refusal, Refused};
/// let refused = sarridok::read(b"/*/*/", &mut []).unwrap_err();
/// assert_eq!(refused, Refused::new(Refusal::UnclosedBlockComment, 5));
/// assert_eq!(refused.to_string(), "refused 4 at 5: a block comment is not closed");
///
/// let refused = sarridok::read(br#""\q""#, &mut []).unwrap_err();
/// assert_eq!(refused, Refused::invalid_escape(EscapeReason::UnknownLetter, 3));
/// assert_eq!(refused.to_string(), "refused 13 at 3: the escape is not valid: unknown letter");
/// ```
#[derive(Clone, Copy, Debug, PartialEq, Eq, Hash)]
#[non_exhaustive]
pub struct Refused {
    /// Why.
    pub refusal: Refusal,
    /// A byte of the text; for [`Refusal::DepthLimitPassed`], [`Refusal::NotAllowedHere`] and [`Refusal::RepeatedField`] an entry's number, for
    /// [`Refusal::TapeEndsEarly`] the number of entries. For an item of a list of [`integers`](crate::integers), the item's number.
    pub place: usize,
    /// Why the escape is not valid, for [`Refusal::InvalidEscape`]; `None` for every other refusal, and for a reason of a later archive.
    pub reason: Option<EscapeReason>,
}

impl Refused {
    /// A refusal at a place, without a reason.
    pub const fn new(refusal: Refusal, place: usize) -> Refused {
        Refused {
            refusal,
            place,
            reason: None,
        }
    }

    /// An escape that is not valid, for a reason at a place.
    pub const fn invalid_escape(reason: EscapeReason, place: usize) -> Refused {
        Refused {
            refusal: Refusal::InvalidEscape,
            place,
            reason: Some(reason),
        }
    }

    /// The refusal's number.
    pub const fn number(&self) -> u8 {
        self.refusal.number()
    }
}

impl fmt::Display for Refused {
    fn fmt(&self, f: &mut fmt::Formatter<'_>) -> fmt::Result {
        write!(f, "refused {} at {}: {}", self.number(), self.place, self.refusal)?;
        match self.reason {
            Some(reason) => write!(f, ": {reason}"),
            None => Ok(()),
        }
    }
}

#[cfg(feature = "std")]
impl std::error::Error for Refused {}
