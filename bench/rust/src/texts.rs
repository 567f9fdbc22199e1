//! The texts that are measured: of each kind one of any size, the same on every machine. All but the worst cases are documents,
//! so that they can be walked too.

/// splitmix64.
struct Random(u64);

impl Random {
    fn next(&mut self) -> u64 {
        self.0 = self.0.wrapping_add(0x9E37_79B9_7F4A_7C15);
        let mut z = self.0;
        z = (z ^ (z >> 30)).wrapping_mul(0xBF58_476D_1CE4_E5B9);
        z = (z ^ (z >> 27)).wrapping_mul(0x94D0_49BB_1331_11EB);
        z ^ (z >> 31)
    }

    fn below(&mut self, n: u64) -> u64 {
        self.next() % n
    }

    fn between(&mut self, least: u64, most: u64) -> u64 {
        least + self.below(most - least + 1)
    }

    fn of<'a>(&mut self, any: &[&'a str]) -> &'a str {
        any[self.below(any.len() as u64) as usize]
    }

    /// So many characters of an alphabet.
    fn run(&mut self, alphabet: &str, length: u64) -> String {
        let letters: Vec<char> = alphabet.chars().collect();
        (0..length).map(|_| letters[self.below(letters.len() as u64) as usize]).collect()
    }
}

const LARGEST: usize = 65_536;
const SMALL: &str = "abcdefghijklmnopqrstuvwxyz";
const DIGITS: &str = "0123456789";
const PROSE: &str = "abcdefghijklmnopqrstuvwxyz abcdefghijklmnopqrstuvwxyz ABCDEFGHIJ 0123456789 ,.;:-()";

/// A kind of text, and how one of at most so many bytes is made.
pub struct Kind {
    pub name: &'static str,
    make: fn(&mut Random, usize) -> String,
}

impl Kind {
    /// The text of at most so many bytes.
    pub fn text(&self, size: usize) -> Vec<u8> {
        assert!(size <= LARGEST);
        let text = (self.make)(&mut Random(1), size).into_bytes();
        assert!(text.len() <= size);
        text
    }
}

const fn kind(name: &'static str, make: fn(&mut Random, usize) -> String) -> Kind {
    Kind { name, make }
}

/// What the goals speak of; the canal network is the first.
pub const KINDS: &[Kind] = &[
    kind("canal network", |_, size| canal(size)),
    kind("names", |r, size| list(size, || name(r))),
    kind("names with accents", |r, size| list(size, || accented(r))),
    kind("integers", |r, size| list(size, || integer(r))),
    kind("floats", |r, size| list(size, || float(r))),
    kind("hex", |r, size| list(size, || hex(r))),
    kind("suffixed integers", |r, size| list(size, || suffixed(r))),
    kind("indentation", |r, size| list(size, || indented(r))),
    kind("marks only", |r, size| list(size, || marks(r, 0))),
    kind("spaces", |_, size| filled("", " ", "1", size)),
    kind("line comments", |r, size| before_one(size, || line_comment(r))),
    kind("block comments", |r, size| before_one(size, || block_comment(r))),
    kind("strings of 40 bytes", |r, size| list(size, || format!("\"{}\"", r.run(PROSE, 40)))),
    kind("strings of 960 bytes", |r, size| list(size, || format!("\"{}\"", r.run(PROSE, 960)))),
    kind("strings of escapes", |r, size| list(size, || escapes(r))),
    kind("raw strings", |r, size| list(size, || raw_string(r))),
    kind("UTF-8 strings", |r, size| list(size, || format!("\"{}\"", r.run("äßéœłλωжщ中文字水路🛶🚤", 20)))),
    kind("deep nesting", |_, size| list(size, || format!("{}{}", "[".repeat(120), "]".repeat(120)))),
];

/// A text of a few hundred bytes.
pub const SHORT: Kind = kind("a few hundred bytes", |_, size| canal(size.min(400)));

/// Records in a list, each of as many fields as its kind says, named in no order: what a walk has to compare.
pub const RECORDS: &[Kind] = &[
    kind("records10", |r, size| records(r, 10, size)),
    kind("records100", |r, size| records(r, 100, size)),
    kind("records1000", |r, size| records(r, 1000, size)),
];

/// Nodes of the canal network's shape, of little but their own and other nodes' numbers.
pub const NODES: Kind = kind("nodes", |r, size| nodes(r, size));

/// Texts of which much is undecided for long while they arrive: strings and names nearly as long as may be held.
pub const ARRIVING: &[Kind] = &[
    kind("long strings with escapes", |r, size| {
        list(size, || long_string(size, || r.of(&ESCAPED).to_string() + &words(r)))
    }),
    kind("long strings of spaces", |r, size| list(size, || long_string(size, || r.run("ab     ", 8)))),
    kind("long strings of letters", |r, size| list(size, || long_string(size, || r.run(SMALL, 8)))),
    kind("long names", |r, size| list(size, || format!("N{}", r.run(SMALL, long(size))))),
    kind("attributes of blanks", |_, size| list(size, || format!("#![enable({}implicit_some)]", " ".repeat(long(size) as usize - 40)))),
    kind("raw strings of quotes", |_, size| list(size, || format!("r#\"{}\"#", "\"".repeat(long(size) as usize - 40)))),
];

/// How the fields of one record are named, by their number and of how many: in no order, counted up, and counted up between ends that they
/// have in common, as long as the largest text has room for.
pub const NAMES: [(&str, fn(usize, usize) -> String); 3] = [
    ("in no order", |i, _| scrambled(i)),
    ("counted up", |i, _| counted(i)),
    ("alike at both ends", |i, of| {
        let more = (LARGEST - 2) / of - counted(i).len() - ":1,".len();
        format!("{}{}{}", "a".repeat(more.saturating_sub(1)), counted(i), "a".repeat(more.min(1)))
    }),
];

/// Texts that would show a cost that is not linear. Not all are accepted, and none need be a document.
pub const WORST: &[Kind] = &[
    kind("open brackets", |_, size| "[".repeat(size)),
    kind("one line comment", |_, size| filled("//", "x", "", size)),
    kind("one block comment", |_, size| filled("/*", "x", "*/", size)),
    kind("nested block comments", |_, size| halves("/*", "*/", size)),
    kind("block comments never closed", |_, size| filled("", "/*", "", size)),
    kind("stars in a block comment", |_, size| filled("/*", "*", "*/", size)),
    kind("one string of escapes", |_, size| filled("\"", "\\n", "\"", size)),
    kind("one string of \\u{..}", |_, size| filled("\"", "\\u{10FFFF}", "\"", size)),
    kind("one string never closed", |_, size| filled("\"", "x", "", size)),
    kind("string of backslashes", |_, size| filled("\"", "\\\\", "\"", size)),
    kind("string continuations", |_, size| filled("\"", "\\\n", "\"", size)),
    kind("raw string, false ends", |_, size| filled("r##\"", "\"#", "\"##", size)),
    kind("raw string, long ends", |_, size| false_ends(size)),
    kind("raw strings never closed", |_, size| filled("", "r#\"", "", size)),
    kind("hashes of a raw string", |_, size| filled("r", "#", "", size)),
    kind("zeros and a one", |_, size| filled("", "0", "1", size)),
    kind("integer of ones", |_, size| filled("", "1", "", size)),
    kind("binary digits", |_, size| filled("0b", "0", "1", size)),
    kind("underscores", |_, size| filled("1", "_", "u8", size)),
    kind("float digits", |_, size| filled("0.", "7", "", size)),
    kind("digits and letters", |_, size| filled("1", "e", "", size)),
    kind("one name", |_, size| filled("", "n", "", size)),
    kind("one name of rare letters", |_, size| filled("", "ع", "", size)),
    kind("names of one rare letter", |_, size| filled("", "ع ", "", size)),
    kind("suffixes and rare letters", |_, size| filled("", "5u8ع ", "", size)),
    kind("names b and r", |_, size| filled("", "b r ", "", size)),
    kind("names like inf", |_, size| filled("", "inff3 NaNf6 ", "", size)),
    kind("attributes", |_, size| filled("", "#![enable(unwrap_newtypes)]", "", size)),
    kind("names of an attribute", |_, size| filled("#![enable(", "implicit_some,", "implicit_some)]", size)),
    kind("continuation bytes", |_, size| filled("\"", "é", "\"", size)),
];

/// A middle repeated between two ends.
fn filled(front: &str, middle: &str, end: &str, size: usize) -> String {
    let times = (size - front.len() - end.len()) / middle.len();
    format!("{front}{}{end}", middle.repeat(times))
}

fn halves(open: &str, close: &str, size: usize) -> String {
    let times = size / (open.len() + close.len());
    format!("{}{}", open.repeat(times), close.repeat(times))
}

/// A raw string of many hashes, of ends that lack one.
fn false_ends(size: usize) -> String {
    let hashes = "#".repeat(size / 8);
    let false_end = format!("\"{}", &hashes[1..]);
    filled(&format!("r{hashes}\""), &false_end, &format!("\"{hashes}"), size)
}

/// A list of as many items as there is room for.
fn list(size: usize, mut item: impl FnMut() -> String) -> String {
    let mut text = String::from("[");
    loop {
        let next = item();
        if text.len() + next.len() + 2 > size {
            text.push(']');
            return text;
        }
        text += &next;
        text.push(',');
    }
}

/// Bytes of a long entry: at most 4,000, and no more than a short text has room for.
fn long(size: usize) -> u64 {
    4000.min(size as u64 - 8)
}

/// A string of parts, as many as make it long.
fn long_string(size: usize, mut part: impl FnMut() -> String) -> String {
    let mut body = String::new();
    loop {
        let next = part();
        if body.len() + next.len() > long(size) as usize {
            return format!("\"{body}\"");
        }
        body += &next;
    }
}

const ESCAPED: [&str; 6] = ["\\n", "\\\"", "\\\\", "\\x41", "\\u{e9}", "\\t"];

/// A few words, with what stands between them.
fn words(r: &mut Random) -> String {
    let length = r.between(4, 30);
    r.run(PROSE, length)
}

/// Of so many fields, between two brackets.
pub fn fields(open: char, count: usize, name: impl Fn(usize) -> String, close: char) -> String {
    let fields: String = (0..count).map(|i| format!("{}:1,", name(i))).collect();
    format!("{open}{fields}{close}")
}

fn records(r: &mut Random, count: usize, size: usize) -> String {
    list(size, || {
        let first = r.below(SCRAMBLED as u64) as usize;
        fields('(', count, |i| scrambled(first + i), ')')
    })
}

/// Without `i`: `inf` is no name.
const UNLIKE_INF: &[u8] = b"abcdefghjklmnopqrstuvwxyz";
const SCRAMBLED: usize = UNLIKE_INF.len().pow(3);

/// A name of three letters, another for each number below `SCRAMBLED`.
fn scrambled(i: usize) -> String {
    let n = i * 7919 % SCRAMBLED;
    [n / 625, n / 25 % 25, n % 25].map(|k| UNLIKE_INF[k] as char).iter().collect()
}

/// What a name may go on with, in the order of bytes.
const BEHIND: &[u8] = b"0123456789ABCDEFGHIJKLMNOPQRSTUVWXYZ_abcdefghijklmnopqrstuvwxyz";

/// `a00`, `a01`, .., of which most differ from the next in the last letter; the first stays up to 3,969.
fn counted(i: usize) -> String {
    let [first, second, third] = [i / 3969, i / 63 % 63, i % 63];
    [b"abc"[first], BEHIND[second], BEHIND[third]].map(char::from).iter().collect()
}

/// As many pieces of whitespace as there is room for, and a value.
fn before_one(size: usize, mut piece: impl FnMut() -> String) -> String {
    let mut text = String::new();
    loop {
        let next = piece();
        if text.len() + next.len() + 1 > size {
            text.push('1');
            return text;
        }
        text += &next;
    }
}

const CANAL: &str = include_str!("../../canal.ron");
const NODE_END: &str = "),\n        ";
const CANAL_END: &str = "),\n    ],\n)\n";

/// The canal network, or its front, behind a whole node, with the brackets closed.
fn canal(size: usize) -> String {
    if CANAL.len() <= size {
        return CANAL.to_string();
    }
    let ends = CANAL.match_indices(NODE_END).filter(|(at, _)| {
        let next = CANAL.as_bytes()[at + NODE_END.len()];
        at + CANAL_END.len() <= size && next.is_ascii_uppercase()
    });
    let (end, _) = ends.last().expect("a node fits");
    format!("{}{CANAL_END}", &CANAL[..end])
}

/// Reaches, locks and junctions, of three node numbers each.
fn nodes(r: &mut Random, size: usize) -> String {
    let mut text = String::from("Network(\n    nodes: [\n");
    for id in 1000.. {
        let (from, to) = (id - 1, id + 1);
        let node = match r.below(3) {
            0 => format!("        Reach(id: {id}, from: {from}, to: {to}),\n"),
            1 => format!("        Lock(id: {id}, gates: [{to}, {}]),\n", id + 2),
            _ => format!("        Junction(id: {id}, of: ({from}, {to})),\n"),
        };
        if size < text.len() + node.len() + CANAL_END.len() {
            break;
        }
        text += &node;
    }
    text + "    ],\n)\n"
}

/// In no order.
pub fn shuffled(items: &mut [u32]) {
    let mut r = Random(1);
    for k in (1..items.len()).rev() {
        items.swap(k, r.below(k as u64 + 1) as usize);
    }
}

fn name(r: &mut Random) -> String {
    let length = r.between(2, 15);
    let tail = r.run("abcdefghijklmnopqrstuvwxyz_0123456789", length);
    format!("{}{tail}", r.of(&["a", "b", "c", "gate", "i", "lock_", "N", "r", "reach", "S", "w", "_"]))
}

/// Welsh words: one letter in three has an accent.
fn accented(r: &mut Random) -> String {
    let length = r.between(2, 12);
    let tail = r.run("abcdefghilmnoprstuwyâêîôûŵŷëïáö_", length);
    format!("{}{tail}", r.of(&["Dŵr", "Tŷ", "pŵer", "lôn", "Ŷ", "Ŵ", "gwŷr", "Llŷn", "ŵyn", "môr"]))
}

fn digits(r: &mut Random, most: u64) -> String {
    let length = r.between(0, most - 1);
    format!("{}{}", r.between(1, 9), r.run(DIGITS, length))
}

fn integer(r: &mut Random) -> String {
    let sign = r.of(&["", "", "", "-"]);
    format!("{sign}{}", digits(r, 12))
}

fn float(r: &mut Random) -> String {
    let fraction = r.between(1, 8);
    let tail = r.of(&["", "", "", "", "e7", "e-12"]);
    let sign = r.of(&["", "", "-"]);
    format!("{sign}{}.{}{tail}", digits(r, 5), r.run(DIGITS, fraction))
}

fn hex(r: &mut Random) -> String {
    let length = r.between(1, 15);
    format!("0x{}", r.run("0123456789ABCDEFabcdef", length))
}

fn suffixed(r: &mut Random) -> String {
    let suffix = r.of(&["i8", "i16", "i32", "i64", "u8", "u16", "u32", "u64"]);
    let most = if suffix.ends_with('8') { 2 } else { 4 };
    format!("{}{suffix}", digits(r, most))
}

/// Integers that their width holds, with and without the suffix.
pub fn typed_integers() -> impl Iterator<Item = (u32, String)> {
    let mut r = Random(1);
    let widths = ["i8", "i16", "i32", "i64", "u8", "u16", "u32", "u64"];
    (0..100).flat_map(move |_| widths.into_iter().zip(1..)).map(move |(suffix, width)| {
        let most = [2, 4, 9, 18][(width as usize - 1) % 4];
        let sign = if width < 5 { r.of(&["", "-"]) } else { "" };
        let suffix = if r.below(4) == 0 { suffix } else { "" };
        (width, format!("{sign}{}{suffix}", digits(&mut r, most)))
    })
}

fn indented(r: &mut Random) -> String {
    let depth = r.between(1, 12) as usize;
    format!("\n{}{}", "    ".repeat(depth), r.below(10))
}

/// Lists, tuples and maps of each other, at most 100 deep.
fn marks(r: &mut Random, depth: u64) -> String {
    let inner = if depth < 100 { r.below(3) } else { 0 };
    let mut values = (0..inner).map(|_| marks_of_at_most(r, depth + 1, 64)).collect::<Vec<_>>();
    match r.below(3) {
        0 => format!("[{}]", values.join(",")),
        1 => format!("({})", values.join(",")),
        _ => {
            values.iter_mut().for_each(|v| v.insert_str(0, "[]:"));
            format!("{{{}}}", values.join(","))
        }
    }
}

/// The same, or a short one where it would be long.
fn marks_of_at_most(r: &mut Random, depth: u64, most: usize) -> String {
    let found = marks(r, depth);
    if found.len() <= most {
        found
    } else {
        String::from("()")
    }
}

fn line_comment(r: &mut Random) -> String {
    let length = r.between(10, 90);
    format!("//{}\n", r.run(PROSE, length))
}

fn block_comment(r: &mut Random) -> String {
    let length = r.between(10, 180);
    match r.below(4) {
        0 => format!("/*{}/*{}*/*/", r.run(PROSE, length / 2), r.run(PROSE, length / 2)),
        _ => format!("/*{}*/\n", r.run(PROSE, length)),
    }
}

fn escapes(r: &mut Random) -> String {
    let any = ["\\n", "\\t", "\\\\", "\\\"", "\\r", "\\0", "\\'", "\\x41", "\\x7e", "\\u{e9}", "\\u{1F6A4}"];
    let body: String = (0..20).map(|_| r.of(&any)).collect();
    format!("\"{body}\"")
}

fn raw_string(r: &mut Random) -> String {
    let length = r.between(10, 120);
    let hashes = r.of(&["", "#", "##"]);
    let quoted = if hashes.is_empty() { String::new() } else { format!("\"{}\" \\", r.run(SMALL, 4)) };
    format!("r{hashes}\"{}{quoted}{}\"{hashes}", r.run(PROSE, length), r.run(SMALL, 3))
}
