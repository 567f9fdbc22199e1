//! What the calls take and answer, in the crate's names where it has them.

use crate::numbered::numbered;

numbered! {
    "kind",
    /// The kind of an entry. Later versions may add kinds.
    ///
    /// ```
    /// use sarridok::Kind;
    /// assert_eq!(Kind::try_from(11u32), Ok(Kind::Integer));
    /// assert_eq!(Kind::Integer.number(), 11);
    /// assert!(Kind::try_from(17u32).is_err());
    /// ```
    #[non_exhaustive]
    pub enum Kind {
        /// `(`
        OpenParen = 1,
        /// `)`
        CloseParen = 2,
        /// `[`
        OpenBracket = 3,
        /// `]`
        CloseBracket = 4,
        /// `{`
        OpenBrace = 5,
        /// `}`
        CloseBrace = 6,
        /// `,`
        Comma = 7,
        /// `:`
        Colon = 8,
        /// A name.
        Name = 9,
        /// A raw name, `r#..`.
        RawName = 10,
        /// An integer; the detail is its [`Width`].
        Integer = 11,
        /// A float; the detail is 0, 32 or 64 for its suffix.
        Float = 12,
        /// A char; the detail is its code point.
        Char = 13,
        /// A string; the detail is its decoded length.
        String = 14,
        /// A byte string; the detail is its decoded length.
        ByteString = 15,
        /// An attribute; the detail is the sum of its extensions.
        Attribute = 16,
    }
}

numbered! {
    "extension",
    /// An extension that an attribute enables.
    #[non_exhaustive]
    #[allow(missing_docs)]
    pub enum Extension {
        UnwrapNewtypes = 1,
        ImplicitSome = 2,
        UnwrapVariantNewtypes = 4,
        ExplicitStructNames = 8,
    }
}

numbered! {
    "width",
    /// A width of integers.
    #[allow(missing_docs)]
    pub enum Width {
        I8 = 1,
        I16 = 2,
        I32 = 3,
        I64 = 4,
        U8 = 5,
        U16 = 6,
        U32 = 7,
        U64 = 8,
    }
}

numbered! {
    "newtype mode",
    /// Whether a bracket has to stand in front, or was passed already.
    #[allow(missing_docs)]
    pub enum NewtypeMode {
        NoParensMeanUnit = 0,
        InsideNewtype = 1,
    }
}

numbered! {
    "tuple mode",
    /// Whether tuples of one and of more elements are told apart.
    #[allow(missing_docs)]
    pub enum TupleMode {
        ImpreciseTupleOrNewtype = 0,
        DifferentiateNewtype = 1,
    }
}

numbered! {
    "struct type",
    /// The kind of a struct.
    #[allow(missing_docs)]
    pub enum StructType {
        AnyTuple = 0,
        EmptyTuple = 1,
        NewtypeTuple = 2,
        NonNewtypeTuple = 3,
        Named = 4,
        Unit = 5,
    }
}

/// What a repair answers.
#[derive(Clone, Copy, Debug, PartialEq, Eq, Hash)]
#[non_exhaustive]
pub struct Repaired {
    /// How many entries the tape holds now.
    pub count: usize,
    /// How many old entries were kept before the change.
    pub before: usize,
    /// How many were kept behind it, moved. One that is kept has its old gap too: the first behind the change is not where more or fewer bytes stand before it now.
    pub behind: usize,
}

/// The crate's cursor of three numbers.
#[derive(Clone, Copy, Debug, PartialEq, Eq, Hash)]
pub struct ParserCursor {
    /// The place.
    pub cursor: usize,
    /// Where the last whitespace began.
    pub pre_ws_cursor: usize,
    /// How long it was, or [`ParserCursor::WS_CURSOR_UNCLOSED_LINE`].
    pub last_ws_len: usize,
}

impl ParserCursor {
    /// The mark for a line comment that the text's end left unclosed.
    pub const WS_CURSOR_UNCLOSED_LINE: usize = usize::MAX;

    /// At a place, with no whitespace before it.
    pub const fn at(place: usize) -> ParserCursor {
        ParserCursor {
            cursor: place,
            pre_ws_cursor: place,
            last_ws_len: 0,
        }
    }
}
