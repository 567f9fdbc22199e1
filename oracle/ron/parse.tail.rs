
// Appended by the oracle: doors into the module, which decide nothing.

/// The crate's `WS_CURSOR_UNCLOSED_LINE`.
pub const UNCLOSED_LINE: usize = WS_CURSOR_UNCLOSED_LINE;

impl<'a> Parser<'a> {
    /// A parser whose `ParserCursor` holds these three numbers.
    pub fn with_cursor(src: &'a str, cursor: usize, pre_ws_cursor: usize, last_ws_len: usize) -> Self {
        let cursor = ParserCursor {
            cursor,
            pre_ws_cursor,
            last_ws_len,
        };
        Parser {
            exts: Extensions::empty(),
            global_attributes: false,
            src,
            cursor,
            prev_cursor: cursor,
        }
    }

    /// The three numbers of the `ParserCursor`.
    pub fn cursor_numbers(&self) -> [usize; 3] {
        [
            self.cursor.cursor,
            self.cursor.pre_ws_cursor,
            self.cursor.last_ws_len,
        ]
    }

    /// `attribute` by a public name: the extensions' bits of an `enable`, or `None` for the other attributes.
    pub fn document_attribute(&mut self) -> Result<Option<usize>> {
        match self.attribute()? {
            ParsedAttribute::Extensions(extensions) => Ok(Some(extensions.bits())),
            ParsedAttribute::Ignored | ParsedAttribute::None => Ok(None),
        }
    }
}
