//! Texts that are read without refusal, laid out together with their tape.
use crate::random::Random;
use crate::tapes::WIDTH;
use crate::wide;

/// Kind, detail and bytes of tokens.
const TOKENS: &[(u32, u32, &str)] = &[
    (9, 0, "a"),
    (9, 0, "Lock"),
    (9, 0, "id"),
    (9, 0, "b"),
    (9, 0, "r"),
    (9, 0, "br"),
    (9, 0, "e5"),
    (9, 0, "_x1"),
    (9, 0, "infx"),
    (9, 0, "Tŷ"),
    (9, 0, "dŵr"),
    (9, 0, "aé\u{301}b"),
    (9, 0, "字"),
    (9, 0, "𐌰𐌱"),
    (10, 0, "r#a"),
    (10, 0, "r#a.b-1"),
    (10, 0, "r#·é"),
    (11, 5, "7"),
    (11, 5, "255"),
    (11, 6, "256"),
    (11, 6, "300"),
    (11, 7, "65536"),
    (11, 8, "4294967296"),
    (11, 1, "-1"),
    (11, 2, "-129"),
    (11, 1, "1i8"),
    (11, 8, "7u64"),
    (11, 5, "0xff"),
    (11, 5, "0b1_1"),
    (11, 5, "b'a'"),
    (11, 5, "b'\\x41'"),
    (12, 0, "1.5"),
    (12, 0, "1e5"),
    (12, 0, "-.5"),
    (12, 32, "1.5f32"),
    (12, 0, "inf"),
    (12, 64, "NaNf64"),
    (13, 97, "'a'"),
    (13, 39, "'''"),
    (13, 233, "'é'"),
    (13, 10, "'\\n'"),
    (13, 233, "'\\u{e9}'"),
    (14, 0, "\"\""),
    (14, 3, "\"a b\""),
    (14, 4, "\"é, \""),
    (14, 5, "\"/* //\""),
    (14, 2, "\"\\xC3\\xA9\""),
    (14, 2, "\"\\\"\\\\\""),
    (14, 3, "\"\\u{20AC}\""),
    (14, 1, "r\"\\\""),
    (14, 3, "r#\"a\"b\"#"),
    (15, 1, "b\"\\xFF\""),
    (15, 2, "br\"ab\""),
    (16, 2, "#![enable(implicit_some)]"),
    (16, 0, "#![type = \"s\"]"),
];

const GAPS: &[&str] = &[
    " ", " ", " ", " ", " ", " ", " ", " ", " ", " ", "  ", "\n", "\n    ", "\n        ", "\t", "\r\n", "/*c*/",
    "/* , */", "/*/*,*/*/", "/*é*/", " /* \" */ ", "//c\n", "// ' ,\n", " // é\n", "\u{b}", "\u{85}", "\u{2028}",
    " \u{200e}",
];

/// A text and its tape.
#[derive(Default)]
pub struct Laid {
    pub text: Vec<u8>,
    pub tape: Vec<u32>,
}

/// A text of about so many entries.
pub fn text(r: &mut Random, entries: usize) -> Laid {
    let mut laid = Laid::default();
    if r.once_in(4) {
        laid.gap(r);
    }
    while laid.tape.len() < WIDTH * entries {
        laid.step(r);
    }
    if r.once_in(12) {
        laid.text.extend_from_slice(r.pick(&["//", "//c", "// \"\r", "//,/*"]).as_bytes());
    }
    laid
}

impl Laid {
    /// A token, mostly with a mark behind it, or a mark.
    pub fn step(&mut self, r: &mut Random) {
        match r.below(8) {
            0 => self.mark(r, b"([{"),
            1 => self.mark(r, b")]}"),
            2 => self.mark(r, b",:"),
            choice => {
                self.any_token(r);
                if choice < 6 {
                    self.mark(r, b",,,:)(");
                } else if r.once_in(3) {
                    self.gap(r);
                }
            }
        }
    }

    pub fn gap(&mut self, r: &mut Random) {
        self.text.extend_from_slice(r.pick(GAPS).as_bytes());
    }

    pub fn mark(&mut self, r: &mut Random, marks: &[u8]) {
        if r.once_in(6) {
            self.gap(r);
        }
        let mark = marks[r.below(marks.len())];
        let kind = 1 + b"()[]{},:".iter().position(|m| *m == mark).expect("one of the eight marks") as u32;
        self.entry(kind, 0, &[mark]);
        if r.once_in(2) {
            self.gap(r);
        }
    }

    fn any_token(&mut self, r: &mut Random) {
        if self.is_open() {
            self.gap(r);
        }
        if r.once_in(12) {
            return self.entry(9, 0, wide::letters(r).as_bytes());
        }
        let (kind, detail, token) = TOKENS[r.below(TOKENS.len())];
        self.entry(kind, detail, token.as_bytes());
    }

    /// This token, which joins none that stands there.
    pub fn token(&mut self, r: &mut Random, kind: u32, detail: u32, token: &[u8]) {
        if self.is_open() && kind > 8 {
            self.gap(r);
        }
        self.entry(kind, detail, token);
    }

    fn entry(&mut self, kind: u32, detail: u32, token: &[u8]) {
        let former_end = self.tape.last_chunk::<WIDTH>().map_or(0, |row| row[2]);
        let start = self.text.len() as u32;
        self.text.extend_from_slice(token);
        self.tape.extend_from_slice(&[kind, start, self.text.len() as u32, detail, start - former_end]);
    }

    /// The text ends with a name or a number, which what follows could join.
    fn is_open(&self) -> bool {
        match self.tape.last_chunk::<WIDTH>() {
            Some(&[kind, _, end, _, _]) => end as usize == self.text.len() && (9..=12).contains(&kind),
            None => false,
        }
    }
}
