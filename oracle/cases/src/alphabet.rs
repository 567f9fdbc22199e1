//! Every short text over an alphabet of dangerous pieces, by number.

/// The pieces for a call, and the number of pieces of the longest text.
pub struct Alphabet {
    pieces: &'static [&'static str],
    longest: u32,
}

/// Texts of so few pieces come again and again, so that even a short run has them all.
const TINY: u32 = 3;

/// A prime that divides the number of texts of no alphabet here: steps of it visit every text once.
const STRIDE: u64 = 2_654_435_761;

const SKIP: Alphabet =
    Alphabet { pieces: &["/", "*", "\n", " ", "a", "\r", "é", "\u{85}", "\u{2028}", "/*", "*/", "//"], longest: 6 };

const INTEGER: Alphabet = Alphabet {
    pieces: &[
        "0", "1", "2", "5", "9", "a", "f", "_", "-", "+", ".", "0x", "0b", "0o", "b'", "'", "\\", "u8", "i8", "u16",
        "i64", "u", "6", "é", "·", "×",
    ],
    longest: 5,
};

/// The same with what parts one number from the next.
const NUMBERS: Alphabet = Alphabet {
    pieces: &[
        " ", ",", "\n", "0", "1", "255", "300", "7", "a", "f", "_", "-", "+", ".", "0x", "0b", "0o", "b'", "'", "\\",
        "u8", "i8", "u16", "i64", "e5", "b'a'", "-5", "é",
    ],
    longest: 5,
};

const CONTENTS: Alphabet = Alphabet {
    pieces: &[
        "\"", "\"", "\\", "r", "#", "b", "n", "x", "\\x", "\\xc3", "\\xA9", "\\u{", "}", "41", "D800", "\n", "\r", " ",
        "a", "é",
    ],
    longest: 5,
};

const STRUCT: Alphabet = Alphabet {
    pieces: &[
        "(", ")", ",", ":", "a", "1", "\"", "'", "\\", "r", "b", "#", "/*", "*/", "/", "//", "\n", " ", "[", "}", "é",
        "·", "×", "\"a\"", "'a'",
    ],
    longest: 5,
};

const READ: Alphabet = Alphabet {
    pieces: &[
        "(", ",", ":", "]", "\"", "'", "\\", "#", "r", "b", "r#", "/", "*", " ", "\n", "0", "1", "x", "e", "f32", "u8",
        "_", "-", "+", ".", "a", "inf", "NaN", "é", "\u{301}", "×", "\u{85}", "implicit_some",
    ],
    longest: 5,
};

const WALK: Alphabet = Alphabet {
    pieces: &[
        "(", ")", "[", "]", "{", "}", ",", ":", "a", "r#a", "1", " ", "\"s\"", "#![type=\"s\"]", "inf", "a:", "1,",
        "é", "·", "×",
    ],
    longest: 5,
};

/// Pieces that are mostly read side by side, and often join.
const EDITED: Alphabet = Alphabet {
    pieces: &[
        "a", "b", "r", "e5", "_", "1", "300", ".5", "-1", "0x1", "u8", "inf", "'c'", "\"s\"", "\"a b\"", "r#a", " ",
        "\n", "\u{85}", ",", ":", "(", "]", "//\n", "/**/", "/*,*/", "\"\\\"\"", "\"é\"", "é", "·", "×",
    ],
    longest: 5,
};

/// What ends entries, decides them or holds them back.
const ARRIVING: Alphabet = Alphabet {
    pieces: &[
        "/", "*", "\"", "'", "\\", "#", "r", "b", "r#\"", "\"#", "//", "\n", " ", ",", "(", "]", "!", "a", "1", "0x",
        "u8", "e", ".", "-", "é", "×", "\u{85}", "\u{b}", "€", "\\x", "\\q", "u{", "}",
    ],
    longest: 5,
};

pub fn of_call(call: u8) -> &'static Alphabet {
    match call {
        b's' => &SKIP,
        b'i' => &INTEGER,
        b'n' => &NUMBERS,
        b'c' | b'C' => &CONTENTS,
        b'k' => &STRUCT,
        b'w' => &WALK,
        b'p' => &EDITED,
        b'q' => &ARRIVING,
        _ => &READ,
    }
}

/// The bytes at the edges of RFC 3629's table.
const EDGES: &[u8] =
    b"\x41\x7f\x80\x8f\x90\x9f\xa0\xbf\xc0\xc1\xc2\xdf\xe0\xe1\xec\xed\xee\xef\xf0\xf1\xf3\xf4\xf5\xff";
const LONGEST_EDGES: u32 = 4;

impl Alphabet {
    /// Text `number` of an endless walk: every second step goes through the tiny texts in order,
    /// the others go by strides through all.
    pub fn text(&self, number: u64) -> Vec<u8> {
        match number % 2 {
            0 => self.spelt(number / 2 % self.texts(TINY)),
            _ => self.spelt(strided(number / 2, self.texts(self.longest))),
        }
    }

    /// The number of texts of at most so many pieces.
    pub fn texts(&self, longest: u32) -> u64 {
        texts(self.pieces.len() as u64, longest)
    }

    /// Text `number` of all: those of few pieces first.
    pub fn spelt(&self, number: u64) -> Vec<u8> {
        let pieces = spell(self.pieces.len() as u64, number);
        pieces.iter().flat_map(|&piece| self.pieces[piece].bytes()).collect()
    }
}

/// Bytes `number` of an endless walk through short runs of bytes that are UTF-8 or nearly so.
pub fn nearly_utf8(number: u64) -> Vec<u8> {
    let base = EDGES.len() as u64;
    let bytes = spell(base, strided(number, texts(base, LONGEST_EDGES)));
    bytes.iter().map(|&edge| EDGES[edge]).collect()
}

/// The number of texts of at most so many pieces.
fn texts(base: u64, longest: u32) -> u64 {
    (0..=longest).map(|n| base.pow(n)).sum()
}

fn strided(step: u64, texts: u64) -> u64 {
    (u128::from(step) * u128::from(STRIDE) % u128::from(texts)) as u64
}

/// The pieces of text `rest`: shorter texts first, those of one length as in a lexicon.
fn spell(base: u64, mut rest: u64) -> Vec<usize> {
    let mut length = 0;
    while rest >= base.pow(length) {
        rest -= base.pow(length);
        length += 1;
    }
    (0..length).rev().map(|place| (rest / base.pow(place) % base) as usize).collect()
}

#[cfg(test)]
mod tests {
    use super::*;

    #[test]
    fn strides_visit_every_text() {
        for alphabet in [&SKIP, &INTEGER, &NUMBERS, &CONTENTS, &STRUCT, &READ, &WALK, &EDITED, &ARRIVING] {
            assert_ne!(alphabet.texts(alphabet.longest) % STRIDE, 0);
        }
        let all = texts(EDGES.len() as u64, LONGEST_EDGES);
        let seen: std::collections::HashSet<Vec<u8>> = (0..all).map(nearly_utf8).collect();
        assert_eq!(seen.len() as u64, all);
    }
}
