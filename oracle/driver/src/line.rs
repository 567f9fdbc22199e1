//! The words of a case line. Every function answers `None` for what is no such word.

/// Buffers that serve from case to case: the text's bytes, those that an edit puts in, the tape, and the list of entries.
#[derive(Default)]
pub struct Store {
    pub text: Vec<u8>,
    pub put: Vec<u8>,
    pub tape: Vec<u32>,
    pub list: Vec<u32>,
    /// Whether pieces are to be answered word by word (`literal.rs`).
    pub literal: bool,
}

/// Entry numbers in the longest list that is a word of a case.
const LONGEST_LIST: usize = 65_536;

/// The words behind the call's letter, separated by exactly one space.
pub struct Line<'a> {
    rest: Option<&'a [u8]>,
}

impl<'a> Line<'a> {
    /// The call's letter, and the words behind it.
    pub fn split(line: &'a [u8]) -> Option<(u8, Line<'a>)> {
        let mut words = Line { rest: Some(line) };
        match words.word()? {
            [call] => Some((*call, words)),
            _ => None,
        }
    }

    fn word(&mut self) -> Option<&'a [u8]> {
        let rest = self.rest?;
        match rest.iter().position(|&b| b == b' ') {
            Some(end) => {
                self.rest = Some(&rest[end + 1..]);
                Some(&rest[..end])
            }
            None => {
                self.rest = None;
                Some(rest)
            }
        }
    }

    /// No word is left.
    pub fn end(&self) -> Option<()> {
        self.rest.is_none().then_some(())
    }

    /// A number below 2^64.
    pub fn number(&mut self) -> Option<usize> {
        decimal(self.word()?)
    }

    /// A number below 2^32, as a tape holds it.
    pub fn tape_number(&mut self) -> Option<u32> {
        u32::try_from(self.number()?).ok()
    }

    /// A number, or `mark`.
    pub fn number_or_mark(&mut self, mark: usize) -> Option<usize> {
        match self.word()? {
            b"mark" => Some(mark),
            word => decimal(word),
        }
    }

    /// Bytes in lower-case hex, `-` for none.
    pub fn bytes(&mut self, into: &mut Vec<u8>) -> Option<()> {
        into.clear();
        match self.word()? {
            b"-" => Some(()),
            word if word.is_empty() || word.len() % 2 == 1 => None,
            word => {
                for pair in word.chunks_exact(2) {
                    into.push(nibble(pair[0])? << 4 | nibble(pair[1])?);
                }
                Some(())
            }
        }
    }

    /// Bytes, or `end`: whether it is bytes.
    pub fn bytes_or_end(&mut self, into: &mut Vec<u8>) -> Option<bool> {
        if self.rest == Some(b"end") {
            self.rest = None;
            return Some(false);
        }
        self.bytes(into).map(|()| true)
    }

    /// Numbers below 2^32 separated by commas, `-` for none.
    pub fn tape(&mut self, into: &mut Vec<u32>) -> Option<()> {
        into.clear();
        let word = self.word()?;
        if word != b"-" {
            for number in word.split(|&b| b == b',') {
                into.push(u32::try_from(decimal(number)?).ok()?);
            }
        }
        Some(())
    }

    /// Entry numbers, written as a tape is; no more than the longest list has.
    pub fn list(&mut self, into: &mut Vec<u32>) -> Option<()> {
        self.tape(into)?;
        (into.len() <= LONGEST_LIST).then_some(())
    }
}

fn decimal(word: &[u8]) -> Option<usize> {
    if word.is_empty() {
        return None;
    }
    let mut n: usize = 0;
    for b in word {
        let digit = b.is_ascii_digit().then(|| usize::from(b - b'0'))?;
        n = n.checked_mul(10)?.checked_add(digit)?;
    }
    Some(n)
}

fn nibble(b: u8) -> Option<u8> {
    match b {
        b'0'..=b'9' => Some(b - b'0'),
        b'a'..=b'f' => Some(b - b'a' + 10),
        _ => None,
    }
}
