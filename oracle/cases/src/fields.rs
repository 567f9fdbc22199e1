//! Documents of records, in which a field's name often comes again (change request 2): tokens, so that a text and its tape can be laid out from them.
use crate::laid::Laid;
use crate::random::Random;

/// Kind, detail and bytes.
#[derive(Clone)]
pub struct Token {
    pub kind: u32,
    detail: u32,
    bytes: Vec<u8>,
}

/// Kind, detail and bytes of what is no name.
const SCALARS: &[(u32, u32, &str)] = &[
    (11, 5, "1"),
    (11, 5, "7"),
    (11, 6, "300"),
    (11, 1, "-1"),
    (11, 5, "b'a'"),
    (12, 0, "1.5"),
    (12, 0, "inf"),
    (13, 97, "'a'"),
    (14, 1, "\"a\""),
    (14, 3, "\"a:1\""),
    (14, 0, "\"\""),
    (15, 1, "b\"a\""),
];

const ATTRIBUTE: (u32, u32, &str) = (16, 2, "#![enable(implicit_some)]");

const MARKS: &[u8; 8] = b"()[]{},:";

/// Names that are no one else's, and some that another reader might take for its own.
const WORDS: &[&str] = &[
    "a", "b", "c", "id", "width", "height", "Width", "width_", "r", "rb", "br", "b_", "_", "true", "e5", "infx",
    "r_width", "Lock", "Tŷ", "dŵr", "dwr", "Ty", "é", "e\u{301}", "字", "𐌰",
];

/// Name `n` of a kind of names that are alike: by a common front or back, length, first and last byte, or all of it but one letter.
fn alike(kind: usize, n: usize) -> String {
    match kind {
        0 => WORDS.get(n).map_or_else(|| format!("x{n}"), |word| word.to_string()),
        1 => format!("width{n}"),
        2 => "a".repeat(1 + n % 40) + &"b".repeat(n / 40),
        3 => format!("a{n:04}z"),
        4 => format!("the_level_of_the_canal_at_bridge_{n}"),
        5 => (0..11).map(|bit| if n >> bit & 1 == 0 { 'a' } else { 'b' }).collect(),
        6 => (0..6).map(|digit| ['ŵ', 'ŷ', 'é', 'ê'][n / 4usize.pow(digit) % 4]).collect(),
        7 => format!("{}_width", letters(n)),
        _ => letters(n),
    }
}

const ALIKE: usize = 9;

/// `a` to `z`, then `aa` and so on.
fn letters(n: usize) -> String {
    let last = char::from(b'a' + (n % 26) as u8).to_string();
    if n < 26 {
        last
    } else {
        letters(n / 26 - 1) + &last
    }
}

/// A document in the making.
#[derive(Default)]
struct Draft {
    tokens: Vec<Token>,
}

/// A document, one in three of them damaged.
pub fn document(r: &mut Random) -> Vec<Token> {
    let mut draft = Draft::default();
    if r.once_in(10) {
        draft.put(ATTRIBUTE);
    }
    match r.below(12) {
        0 => draft.list(r),
        1 => draft.map(r),
        2 => draft.nest(r),
        _ => draft.record(r, 3),
    }
    if r.once_in(3) {
        damage(r, &mut draft.tokens);
    }
    draft.tokens
}

/// How many fields: mostly few, at times more than sixteen, rarely hundreds.
fn some_fields(r: &mut Random, depth: usize) -> usize {
    match r.below(2_400) {
        0 if depth == 3 => r.from(1_900, 2_300),
        1..=12 if depth == 3 => r.from(100, 600),
        13..=40 if depth == 3 => r.from(120, 134),
        41..=400 => r.from(14, 40),
        401..=600 => r.from(15, 19),
        601..=800 => 0,
        _ => r.from(1, 6),
    }
}

/// The numbers of the names in their order, some of which come again: often one, at the last, behind its like, or anywhere.
fn numbers(r: &mut Random, fields: usize) -> Vec<usize> {
    let mut numbers: Vec<usize> = (0..fields).collect();
    match r.below(4) {
        0 => {}
        1 => numbers.reverse(),
        _ => (1..fields).for_each(|at| numbers.swap(at, r.below(at + 1))),
    }
    if fields > 0 {
        for _ in 0..r.number(&[0, 0, 0, 1, 1, 1, 2, 3]) {
            again(r, &mut numbers);
        }
    }
    numbers
}

fn again(r: &mut Random, numbers: &mut Vec<usize>) {
    let at = match r.below(4) {
        0 => numbers.len(),
        1 => 1 + numbers.len() / 2,
        _ => r.from(1, numbers.len()),
    };
    let at = at.min(numbers.len());
    let of = match r.below(4) {
        0 => 0,
        1 => at - 1,
        _ => r.below(at),
    };
    numbers.insert(at, numbers[of]);
}

impl Draft {
    fn put(&mut self, (kind, detail, bytes): (u32, u32, &str)) {
        self.tokens.push(Token { kind, detail, bytes: bytes.into() });
    }

    fn mark(&mut self, mark: u8) {
        self.tokens.push(marked(mark));
    }

    /// Plain, or raw.
    fn name(&mut self, name: &str, raw: bool) {
        self.tokens.push(named(name, raw));
    }

    fn any_name(&mut self, r: &mut Random) {
        let (name, raw) = (r.pick(&WORDS[..4]), r.once_in(4));
        self.name(name, raw);
    }

    /// A `( )` of fields, with or without a name before it that is often one of theirs.
    fn record(&mut self, r: &mut Random, depth: usize) {
        let fields = some_fields(r, depth);
        let kind = match r.below(ALIKE) {
            2 | 4 if fields > 1_000 => 3, // long names of so many would pass the size limit
            kind => kind,
        };
        let skip = r.number(&[0, 0, 0, 1, 90]) as usize;
        let numbers = numbers(r, fields);
        let raw = r.number(&[1, 2, 6, 6, 6, 50]) as usize;
        if r.once_in(3) {
            self.name(&alike(kind, skip), r.once_in(6));
        }
        self.mark(b'(');
        for (n, number) in numbers.iter().enumerate() {
            if n > 0 {
                self.mark(b',');
            }
            self.name(&alike(kind, skip + number), r.once_in(raw));
            self.mark(b':');
            match fields < 10 || r.once_in(fields) {
                true => self.value(r, depth),
                false => self.scalar(r),
            }
        }
        if fields > 0 && r.once_in(4) {
            self.mark(b',');
        }
        self.mark(b')');
    }

    fn scalar(&mut self, r: &mut Random) {
        self.put(SCALARS[r.below(SCALARS.len())]);
    }

    /// With so many records inside one another at most.
    fn value(&mut self, r: &mut Random, depth: usize) {
        match r.below(24) {
            0 => self.list(r),
            1 => self.map(r),
            2 => self.tuple(r),
            3 => self.any_name(r),
            4..=8 if depth > 1 => self.record(r, depth - 1),
            _ => self.scalar(r),
        }
    }

    /// `[ ]` of one name, or of records with the same names.
    fn list(&mut self, r: &mut Random) {
        self.mark(b'[');
        for _ in 0..r.below(4) {
            match r.below(2) {
                0 => self.any_name(r),
                _ => self.record(r, 1),
            }
            self.mark(b',');
        }
        self.mark(b']');
    }

    /// `{ }` in which names come again as keys.
    fn map(&mut self, r: &mut Random) {
        self.mark(b'{');
        for _ in 0..r.below(4) {
            match r.below(3) {
                0 => self.record(r, 1),
                _ => self.any_name(r),
            }
            self.mark(b':');
            self.value(r, 1);
            self.mark(b',');
        }
        self.mark(b'}');
    }

    /// `( )` of values, in which names come again.
    fn tuple(&mut self, r: &mut Random) {
        self.mark(b'(');
        for _ in 0..r.below(5) {
            self.any_name(r);
            if r.once_in(4) {
                self.record(r, 1);
            }
            self.mark(b',');
        }
        self.mark(b')');
    }

    /// Records inside one another, each with a field before and one behind; any of them may have the name of another.
    fn nest(&mut self, r: &mut Random) {
        let deep = match r.below(8) {
            0 => r.from(126, 130),
            _ => r.from(2, 9),
        };
        let names = r.from(1, 4) + deep * r.below(2);
        for _ in 0..deep {
            self.mark(b'(');
            for _ in 0..r.below(2) {
                self.field(r, names);
                self.scalar(r);
                self.mark(b',');
            }
            self.field(r, names);
        }
        self.scalar(r);
        for _ in 0..deep {
            for _ in 0..r.below(2) {
                self.mark(b',');
                self.field(r, names);
                self.scalar(r);
            }
            self.mark(b')');
        }
    }

    /// One of so many names, and its colon.
    fn field(&mut self, r: &mut Random, names: usize) {
        let raw = r.once_in(5);
        self.name(&letters(r.below(names)), raw);
        self.mark(b':');
    }
}

fn marked(mark: u8) -> Token {
    let kind = 1 + MARKS.iter().position(|m| *m == mark).expect("one of the eight marks") as u32;
    Token { kind, detail: 0, bytes: vec![mark] }
}

fn named(name: &str, raw: bool) -> Token {
    match raw {
        true => Token { kind: 10, detail: 0, bytes: [b"r#", name.as_bytes()].concat() },
        false => Token { kind: 9, detail: 0, bytes: name.into() },
    }
}

fn any(r: &mut Random) -> Token {
    match r.below(4) {
        0 => named(r.pick(&WORDS[..4]), r.once_in(4)),
        1 => {
            let (kind, detail, bytes) = SCALARS[r.below(SCALARS.len())];
            Token { kind, detail, bytes: bytes.into() }
        }
        _ => marked(MARKS[r.below(MARKS.len())]),
    }
}

/// One or two changes, anywhere or at the last tokens.
fn damage(r: &mut Random, tokens: &mut Vec<Token>) {
    for _ in 0..r.from(1, 2) {
        let at = match r.below(3) {
            0 => tokens.len() - r.below(tokens.len().min(4) + 1),
            _ => r.below(tokens.len() + 1),
        };
        match r.below(6) {
            0 => tokens.truncate(at),
            1 if at < tokens.len() => drop(tokens.remove(at)),
            2 if at < tokens.len() => tokens[at] = any(r),
            3 if at < tokens.len() => tokens.insert(at, tokens[at].clone()),
            4 if at + 1 < tokens.len() => tokens.swap(at, at + 1),
            _ => tokens.insert(at, any(r)),
        }
    }
}

/// The text and the tape of such tokens: in one of four with gaps wherever they may be, otherwise with few.
pub fn laid(r: &mut Random, tokens: &[Token]) -> Laid {
    let mut laid = Laid::default();
    let often = r.number(&[2, 12, 12, 1_000]) as usize;
    for token in tokens {
        if r.once_in(often) {
            laid.gap(r);
        }
        laid.token(r, token.kind, token.detail, &token.bytes);
    }
    laid
}

/// How many brackets are open at most.
pub fn depth(tokens: &[Token]) -> usize {
    let (mut open, mut most) = (0usize, 0);
    for token in tokens {
        match token.kind {
            1 | 3 | 5 => open += 1,
            2 | 4 | 6 => open = open.saturating_sub(1),
            _ => {}
        }
        most = most.max(open);
    }
    most
}

/// A depth limit for such tokens: mostly the largest, or about as many as are open at once.
pub fn limit(r: &mut Random, tokens: &[Token]) -> u64 {
    match r.below(24) {
        0 => r.number(&[127, 129, 130, 1 << 32, u64::MAX]),
        1..=6 => (depth(tokens) + r.below(3)).saturating_sub(1) as u64,
        _ => 128,
    }
}
