//! What reading while a text arrives is asked (change request 3): texts and where they are cut; states, what they keep, and the piece that comes next.
use crate::damage;
use crate::documents::Draft;
use crate::laid;
use crate::limits::sized;
use crate::random::Random;
use crate::tapes::WIDTH;

/// A text, and the lengths of the pieces before the last.
pub struct Cut {
    pub text: Vec<u8>,
    pub lengths: Vec<u32>,
}

/// One call: the numbers of a tape, a state, what it keeps, and a piece or the end.
#[derive(Clone)]
pub struct Call {
    pub numbers: u64,
    pub state: State,
    pub kept: Vec<u8>,
    pub piece: Option<Vec<u8>>,
}

/// `taken,part,gap,level,last,number,place,reason,former`.
#[derive(Clone, Copy, Default)]
pub struct State {
    pub taken: u64,
    pub part: u64,
    pub gap: u64,
    pub level: u64,
    pub last: u64,
    pub number: u64,
    pub place: u64,
    pub reason: u64,
    pub former: u64,
}

/// Which of the numbers is the part.
const PART: usize = 1;

pub const SLASH: u64 = 1;
pub const LINE: u64 = 2;
pub const BLOCK: u64 = 3;

/// The largest text, and what is held of an undecided entry.
pub const LARGEST: u64 = 65_536;
pub const HELD: usize = 4_096;

impl State {
    pub fn numbers(&self) -> [u64; 9] {
        let State { taken, part, gap, level, last, number, place, reason, former } = *self;
        [taken, part, gap, level, last, number, place, reason, former]
    }

    /// One of its numbers, as they are written.
    pub fn number_mut(&mut self, nth: usize) -> &mut u64 {
        let State { taken, part, gap, level, last, number, place, reason, former } = self;
        [taken, part, gap, level, last, number, place, reason, former].into_iter().nth(nth).expect("there are nine")
    }
}

/// What means something to some reader, begins it, ends it or cuts it off.
const FRAGMENTS: &[&str] = &[
    "/", "/", "//", "/*", "*/", "/**/", "/***/", "/*/", "*", "//\n", "// x\n", "/* , */", "/*/**/*/", "/* \" */",
    "/*/", "\n", " ", " ", ",", ":", "(", ")", "[", "]", "{", "}", "\t", "\r", "\u{b}", "\u{c}", "\u{85}", "\u{200e}",
    "\u{2028}", "a", "name", "r", "b", "br", "r#", "r#a", "r#a.b", "é", "ŵ", "字", "·", "×", "€", "𝄞", "\u{feff}",
    "\0", "\u{7f}", "@", "!", "\\", "\"", "\"", "'", "\"a\"", "\"a b\"", "\"/\"", "\"\\\"\"", "\"\\\"", "\"\\q\"",
    "\"\\q", "\"\\x4\"", "\"\\xC3\\xA9\"", "\"\\xC3\"", "\\n", "\\\"", "\\u{", "\\x", "\\xC3", "\\\n", "'a'", "'\\''",
    "'\"'", "''", "'ab'", "'\\u{41}'", "'\\u{", "b'a'", "b'\\x41'", "b'\\u{41}'", "b'", "b\"a\"", "b\"\\xff\"", "b\"",
    "r\"a\"", "r#\"a\"#", "r#\"a\"", "r##\"\"#\"##", "br#\"a\"#", "br#", "r##", "r#\"", "\"#", "#", "##", "1", "300",
    "300a", "300ai8", "256u8", "1.5", "1.", "..", "0x", "0xg", "0b2", "-", "+", "-inf", "inf", "NaN", "1e", "1_", "_",
    "_1", "1e5", ".5", "1.5.5", "u8", "i8", "f32", "#![", "#![enable(", "#![enable(implicit_some)]",
    "#![enable(implicit_some)", "implicit_some", "#![type = \"x\"]", "#![type=", "#![schema=r#\"a\"#]", "enable(",
    ")]", "=",
];

/// What has begun and is undecided, without a byte that would have decided any of it.
pub const BEGUN: &[&str] = &[
    "a", "Lock", "r", "b", "br", "r#", "r#a", "r#a.b", "é", "Tŷ", "a\u{85}b", "a\u{2028}", "1\u{85}", "a\u{b}", "1",
    "300", "300a", "300ai8", "0x", "0xg", "-", "+", ".", "1.", "1.5.", "..", "1e", "_", "inf", "-inf", "NaNf3",
    "256u8", "\"", "\"a b", "\"a, (b) / c", "\"\\", "\"\\\"", "\"\\\" ", "\"\\q", "\"\\q !", "\"\\u{4", "\"\\\"\\xC3",
    "\"\\\"\\x4", "\"\\xC3\\", "'", "'a", "'ab", "'\\", "'\\x4", "'\\u{41", "'\\u{41}", "'é", "b'", "b'a", "b'\\",
    "b'\\u{41}", "b\"", "b\"a b", "b\"\\xff", "br#", "br#\"", "br#\"a\"", "br##\"a\"#", "r\"a b", "r#\"", "r#\"a b",
    "r#\"a\"", "r#\"a\"b\"", "r##\"a\"#", "r##", "r#\"a\"#", "r#\"a\"##", "#", "#!", "#![", "#![ ", "#![ foo",
    "#![enable", "#![enable(", "#![enable(implicit_some", "#![enable(implicit_some, ", "#![enable(implicit_some /*",
    "#![enable(implicit_some)", "#![type = ", "#![type = \"a b", "#![type = \"a\"", "#![type = \"a\" ",
    "#![type=r#\"a\"", "# // x", "#/", "#![/*", "a\"x", "a\"", "1\"", "a'", "a'b", "a#", "a\\", "a€", "a\u{85}€",
    "a\"\\q", "é·", "a\"b'c",
];

/// Front and filling of what is undecided however long it is.
const LONG: &[(&str, &str)] = &[
    ("", "n"),
    ("", "é"),
    ("\"", "s "),
    ("\"", "€"),
    ("\"\\q", "x"),
    ("r#\"", "\" "),
    ("b\"", "\\n"),
    ("1", "0"),
    ("0x", "g"),
    ("a", "\u{85}"),
    ("#![", " "),
    ("#![enable(implicit_some", ",implicit_some"),
    ("'\\u{", "0"),
    ("a\"", "x"),
];

/// Characters that come in parts: letters, whitespace, what starts nothing, a byte order mark.
const IN_PARTS: &[&str] = &["é", "ŵ", "·", "×", "\u{85}", "€", "\u{2028}", "字", "\u{feff}", "𝄞", "𐌰", "\u{10ffff}"];

/// One text in so many is long: about what is held, or about the largest size.
const LIMITS: usize = 4_000;

/// A text in pieces.
pub fn any(r: &mut Random) -> Cut {
    let text = text(r);
    cut(r, text)
}

fn text(r: &mut Random) -> Vec<u8> {
    match r.below(LIMITS) {
        0 => largest(r),
        1..=8 => held(r),
        n if n % 8 == 0 => {
            let mut draft = Draft::default();
            draft.document(r);
            draft.text
        }
        n if n % 8 == 1 => {
            let entries = r.below(12);
            let mut text = laid::text(r, entries).text;
            damage::damage(r, &mut text);
            text
        }
        n if n % 8 == 2 => {
            let entries = r.below(10);
            laid::text(r, entries).text
        }
        _ => fragments(r),
    }
}

/// A few of them side by side; now and then a byte is cut off, or one that no UTF-8 has is put in.
fn fragments(r: &mut Random) -> Vec<u8> {
    let mut text = Vec::new();
    for _ in 0..r.from(1, 9) {
        text.extend_from_slice(r.pick(FRAGMENTS).as_bytes());
    }
    match r.below(16) {
        0 => drop(text.pop()),
        1 => text.extend_from_slice(parted(r).0),
        2 => damage::damage(r, &mut text),
        _ => {}
    }
    text
}

/// Something undecided of 4,094 to 4,099 bytes with something before and behind it; or a comment of that size.
fn held(r: &mut Random) -> Vec<u8> {
    let size = r.from(HELD - 2, HELD + 3);
    let long = match r.below(8) {
        0 => sized("/*", "x", "*/", size),
        1 => sized("//", "/*", "\n", size),
        2 => sized("", "\u{85}", "", size),
        _ => begun_of(r, size),
    };
    let front = r.pick(&["", "", " ", "a ", "/* */", "(", "a\u{85}", "\"s\""]);
    let back = r.pick(&["", " ", "\"", "\"#", "!", ",", "\\q\" ", "}'", "/", ")] ", "é", "\u{85}", "a b", "/*,*/x "]);
    [front.as_bytes(), &long, back.as_bytes()].concat()
}

/// Something undecided of so many bytes.
fn begun_of(r: &mut Random, size: usize) -> Vec<u8> {
    let (front, filling) = LONG[r.below(LONG.len())];
    let mut text = front.as_bytes().to_vec();
    while text.len() + filling.len() <= size {
        text.extend_from_slice(filling.as_bytes());
    }
    text
}

/// A text that is decided again and again, at or near the largest size, with something at its end.
fn largest(r: &mut Random) -> Vec<u8> {
    let (front, filling) =
        [("", " "), ("", "a,"), ("/*", "x"), ("/*", "/*"), ("//", "é"), ("(", "'a'"), ("", "\u{85}")][r.below(7)];
    let back = r.pick(&["", "a", "a ", "\"", "*/", "é", "\n1", "/"]);
    sized(front, filling, back, r.from(LARGEST as usize - 2, LARGEST as usize + 2))
}

/// Cut nowhere, behind every byte, in pieces of two or three, once, or often, nothing between two cuts too. A long text has few cuts.
pub fn cut(r: &mut Random, text: Vec<u8>) -> Cut {
    let length = text.len();
    let most = if length > 2 * HELD { 30 } else { length };
    let lengths = match r.below(16) {
        0 | 1 => Vec::new(),
        2..=4 => vec![1; most.saturating_sub(1)],
        5 => vec![r.from(2, 3) as u32; most / 3],
        6..=9 => vec![r.below(length + 1) as u32],
        10 => vec![length.saturating_sub(1) as u32],
        _ => in_parts(r, length),
    };
    let lengths = match r.below(200) {
        0 => [&lengths[..], &[length as u32]].concat(),
        1 => vec![length as u32 + 1],
        _ => lengths,
    };
    Cut { text, lengths }
}

fn in_parts(r: &mut Random, length: usize) -> Vec<u32> {
    let mut cuts: Vec<usize> = (0..r.from(2, 6)).map(|_| r.below(length + 1)).collect();
    cuts.sort_unstable();
    let fronts = [0].into_iter().chain(cuts.iter().copied());
    cuts.iter().zip(fronts).map(|(cut, front)| (cut - front) as u32).collect()
}

/// One call over a state: mostly one that a text leaves, at times with another number, which mostly puts it out of order.
pub fn call(r: &mut Random) -> Call {
    let mut call = match r.below(16) {
        0..=6 => begun(r),
        7..=11 => in_gap(r),
        12 => refused(r),
        _ => passed(r),
    };
    if r.once_in(6) {
        spoil(r, &mut call);
    }
    call
}

/// A state behind `former`, so many bytes of a gap, and what is kept; at times at the largest size.
fn state(r: &mut Random, gap: usize, kept: usize, part: usize) -> State {
    let former = match r.below(16) {
        0 => LARGEST - (gap + kept + r.below(5)) as u64,
        1..=4 => 0,
        _ => r.below(300) as u64,
    };
    State { taken: former + (gap + kept) as u64, part: part as u64, former, ..State::default() }
}

/// The first bytes of a character, and the others.
fn parted(r: &mut Random) -> (&'static [u8], &'static [u8]) {
    let character = r.pick(IN_PARTS).as_bytes();
    character.split_at(r.from(1, character.len() - 1))
}

/// The same, or mostly nothing.
fn some_part(r: &mut Random) -> (&'static [u8], &'static [u8]) {
    match r.below(4) {
        0 => parted(r),
        _ => (b"", b""),
    }
}

/// Something has begun, at times so much that hardly more is held.
fn begun(r: &mut Random) -> Call {
    let (part, others) = some_part(r);
    let begun = match r.below(60) {
        0 => {
            let size = HELD - r.below(6);
            begun_of(r, size - part.len())
        }
        1 => {
            let size = r.from(60, 400);
            begun_of(r, size)
        }
        _ => r.pick(BEGUN).as_bytes().to_vec(),
    };
    let kept = [&begun, part].concat();
    let gap = r.below(4);
    let state = state(r, gap, kept.len(), part.len());
    asked(r, state, kept, others)
}

/// Nothing has begun.
fn passed(r: &mut Random) -> Call {
    let (part, others) = some_part(r);
    let gap = r.below(9);
    let state = state(r, gap, part.len(), part.len());
    asked(r, state, part.to_vec(), others)
}

/// In a `/`, a line comment or a block comment.
fn in_gap(r: &mut Random) -> Call {
    let (part, others) = some_part(r);
    let gap = r.from(2, 40);
    let mut state = state(r, gap, part.len(), part.len());
    state.gap = r.number(&[SLASH, LINE, BLOCK, BLOCK, BLOCK]);
    if state.gap == BLOCK {
        state.last = r.number(&[0, 0, u64::from(b'*'), u64::from(b'/')]);
        state.level = match r.below(12) {
            0 => state.taken,
            1 => r.below(state.taken as usize + 1) as u64,
            _ => r.below(4.min(gap)) as u64,
        };
    }
    asked(r, state, part.to_vec(), others)
}

/// Refused before: every number, some of which no reading gives.
fn refused(r: &mut Random) -> Call {
    let taken = r.below(200) as u64;
    let number = r.number(&[1, 2, 4, 5, 7, 9, 10, 13, 13, 14, 16, 17, 19, 21, 30]);
    let reason = if number == 13 { r.from(1, 8) as u64 } else { 0 };
    let place = r.below(taken as usize + 1) as u64;
    let former = r.below(taken as usize + 1) as u64;
    let mut call = asked(r, State { taken, number, place, reason, former, ..State::default() }, Vec::new(), b"");
    if r.once_in(2) {
        call.numbers = r.below(6) as u64;
    }
    call
}

/// What goes on with a comment or with what has begun.
const GOES_ON: &[&[u8]] = &[
    b" ", b"/", b",", b"\"", b"'", b"\n", b"*/", b"/*", b"#", b"\"#", b"!", b"\\", b"a", b"1", b"_", b")]", b"]",
    b"}'", b"\\q\" ", b"\x80", b"\xff", b"\xc3", b"*", b"**/ a ",
];

/// What decides most of what has begun, or closes it.
const DECIDES: &[&[u8]] = &[b"", b" ", b" ", b",", b"\n", b"\"", b"\"# ", b"*/", b"/**/", b"' ", b")] "];

/// The next piece, which mostly has the other bytes of the character that has not come whole, and some room.
fn asked(r: &mut Random, state: State, kept: Vec<u8>, others: &[u8]) -> Call {
    let piece = match r.below(16) {
        0 | 1 => None,
        2 => Some(Vec::new()),
        3..=5 => Some(r.pick(GOES_ON).to_vec()),
        6..=8 => Some([r.pick(GOES_ON), &fragments(r)[..]].concat()),
        9..=12 => {
            let entries = r.below(8);
            Some([r.pick(DECIDES), &laid::text(r, entries).text[..]].concat())
        }
        13 => Some(text(r)),
        _ => Some(fragments(r)),
    };
    let others = if r.once_in(8) { &others[..r.below(others.len() + 1)] } else { others };
    let piece = piece.map(|piece| [others, &piece].concat());
    let numbers = match r.below(8) {
        0 => r.below(3 * WIDTH) as u64,
        1 => r.number(&[0, 4, 5, 9, 10, u64::MAX]),
        _ => (WIDTH * 65_536) as u64,
    };
    Call { numbers, state, kept, piece }
}

/// Another number of the state, by one, at an edge or any. A wrong part is one that is out of order: of bytes that are no part of a character nothing can be asked.
fn spoil(r: &mut Random, call: &mut Call) {
    let nth = r.below(9);
    let number = call.state.number_mut(nth);
    *number = match r.below(6) {
        _ if nth == PART && call.kept.is_empty() => r.from(1, 4) as u64,
        _ if nth == PART => r.number(&[4, 5, 255, 256, 65_536, u64::from(u32::MAX)]),
        0 | 1 => *number + 1,
        2 => number.saturating_sub(1),
        3 => r.number(&[0, 1, 3, 4, 8, 22, 23, 29, 31, 42, 47, 4_096, 65_536, 65_537, u64::from(u32::MAX)]),
        _ => r.below(40) as u64,
    };
}
