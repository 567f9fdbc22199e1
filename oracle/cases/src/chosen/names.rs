//! Names with characters above U+007F, for every call that reads a name or what a name may follow.
use super::Lines;
use crate::edits::Edit;
use crate::limits::sized;
use crate::line;
use crate::repairs::Repair;
use crate::scripts::{edges, ODD_LETTERS, ODD_NEXT, OTHERS, RANGES, SCRIPTS};

pub fn lines(lines: &mut Lines, call: u8) {
    match call {
        b'r' => read(lines),
        b'R' => with_rooms(lines),
        b'i' => integers(lines),
        b'k' => structs(lines),
        b'w' => walk(lines),
        b'c' => contents(lines),
        b'p' => edits(lines),
        b'P' => repairs(lines),
        _ => {}
    }
}

/// A letter, a mark, a dot and a joiner that only go on, a letter of four bytes, none of them, and whitespace.
const BEHIND: &[char] = &['é', '\u{301}', '·', '\u{200d}', '𐌰', '×', '\u{a0}', '\u{85}'];

/// What may stand at the first place, at the next and behind `r#`: with two bytes, three and four.
const NAMES: &[&str] = &[
    "é", "ŵ", "Ŵ", "ŷ", "Ŷ", "â", "ê", "î", "ô", "û", "ï", "ä", "ö", "ü", "字", "𐌰", "aé", "éa", "_é", "é_", "é1",
    "ÉÉ", "aŵb", "r#é", "r#aé", "r#éa", "r#.é", "r#é.b-c+d", "r#字", "r#𐌰", "·", "a·", "r#·", "\u{301}", "a\u{301}",
    "é\u{301}\u{302}", "r#\u{301}", "\u{300}", "a\u{300}", "r#\u{300}", "€", "a€", "r#€", "×", "a×", "é×", "r#×",
    "r#a×", "r#é.×", "5×", "5é", "5字", "5𐌰", "5\u{301}",
];

/// Welsh names, and names of other tongues, in documents.
const TEXTS: &[&str] = &[
    "Tŷ", "dŵr", "Llŷn", "Caersŵs", "Tŷ_Isaf2", "hŷn ŵyr", "Tŷ(dŵr: 7)", "Pont(enw: \"Tŷ\", lled: 2.5)",
    "[Tŷ, dŵr, Môn]", "{Môn: 1, Tŷ: 2}", "(tŷ: (dŵr: (llŷn: 1)))", "Größe(länge: 1)", "Łódź", "naïf", "Ωμέγα",
    "имя: 1", "\u{5e9}\u{5dd}: 1", "\u{627}\u{633}\u{645}: 1", "\u{928}\u{93e}\u{92e}: 1",
    "\u{e0a}\u{e37}\u{e48}\u{e2d}: 1", "名前(なまえ: \"カ\")", "이름: 한", "\u{10330}\u{10331}(\u{12000}: \u{13000})",
];

/// Composed and not: other bytes, so other names; nothing is folded.
const NORMALISED: &[&str] = &[
    "é e\u{301}", "ŵ w\u{302}", "Tŷ Ty\u{302}", "Å \u{212b} A\u{30a}", "Ω \u{2126}", "ﬁ fi", "Ａ A",
    "한 \u{1112}\u{1161}\u{11ab}", "(é:1,e\u{301}:2)", "(ŵ:1,w\u{302}:2,W\u{302}:3,Ŵ:4)", "\u{301}e", "e \u{301}",
    "é\u{301} e\u{301}\u{301}", "ß SS ẞ", "ı i İ",
];

/// The joiners are characters of names, inside and at the end; a byte order mark, a soft hyphen and other blanks are not.
const JOINED: &[&str] = &[
    "a\u{200c}", "a\u{200d}", "\u{200c}", "\u{200d}", "\u{200c}a", "\u{200d}a", "r#\u{200c}", "r#\u{200d}a",
    "a\u{200c}b", "a\u{200d}\u{200c}b", "\u{915}\u{94d}\u{200d}\u{937}",
    "\u{646}\u{627}\u{645}\u{647}\u{200c}\u{627}\u{6cc}", "a\u{200b}b", "a\u{200e}b", "a\u{200f}\u{200d}",
    "👩\u{200d}💻", "a\u{fe0f}", "❤\u{fe0f}", "字\u{e0100}", "a\u{2060}b", "\u{feff}é", "é\u{feff}", "a\u{ad}b",
    "é\u{a0}ŵ", "\u{a0}é", "é\u{3000}ŵ",
];

/// What stands next to a name and ends it, or goes on.
const BESIDE: &[&str] = &[
    "é(", "é)", "é,ŵ", "é:1", "é\"a\"", "\"a\"é", "é'a'", "'a'é", "é#", "é.b", "é-1", "é-a", "é+1", "é/b", "é//x\nŵ",
    "é/**/ŵ", "é/*ŵ", "/*ŵ*/é", "//ŵ\né", "é@", "é\0", "é\u{7f}", "é5u8", "é 5", "éinf", "éb\"a\"", "ér\"a\"", "bé",
    "b\"é\"", "b'é'", "béa", "ré", "ré\"a\"", "bré", "br#é", "br\"é\"é", "rbé", "r##é", "r#\"é\"#é", "r#é\"a\"",
    "r#é#", "b×", "r×", "br×", "é\\", "é é é", "[é]ŵ{字}", "éé(éé:éé,)",
];

/// What asks whether a name goes on behind it, or is no name and does not.
const FRONTS: &[&str] = &[
    "5u8", "1u8", "5i64", "256u8", "-1u8", "5i8", "-5i8", "300ai8", "0xu8", "0x_u8", "0b2u8", "0xFFu8", "1_u16", "5u",
    "5u128", "1.5f32", "1.5f64", "1f32", ".f32", "1.5f", "1e5f64", "12_f32", "1.", ".5", "1e5", "0x", "0x1", "0b1",
    "1_", "+", "-", ".", "inf", "-inf", "inff32", "+NaNf32", "NaN", "NaNf64", "infinity", "b'a'", "b'a'u8", "'a'",
    "\"a\"", "r\"a\"", "true", "e5", "/", "/**/",
];

/// In attributes; `*` stands for the character.
const ATTRIBUTES: &[&str] = &[
    "#![enable*(implicit_some)]", "#![enable *(implicit_some)]", "#![enable(*implicit_some)]",
    "#![enable(implicit_some*)]", "#![enable(implicit_some *)]", "#![enable(implicit_some,*)]",
    "#![enable(implicit_some,*,)]", "#![enable(*)]", "#![enable(nope*)]", "#![enable(r#implicit_some*)]",
    "#![enable(r#*)]", "#![enable(implicit_some.*)]", "#![enable(5*)]", "#![enable(r*)]", "#![enable(implicit_some)*]",
    "#![enable(implicit_some)]*", "#![type*=\"a\"]", "#![schema *=\"a\"]", "#![type=*]", "#![type=\"*\"*]",
    "#![type=\"a\"]*", "#![*]", "#!*[type=\"a\"]", "#*",
];

/// The whitespace above U+007F.
const BLANKS: &[char] = &['\u{85}', '\u{200e}', '\u{200f}', '\u{2028}', '\u{2029}'];

fn read(lines: &mut Lines) {
    let mut text = |text: &str| lines.add(|l| line::read(l, text.as_bytes()));
    [NAMES, TEXTS, NORMALISED, JOINED, BESIDE].into_iter().flatten().for_each(|t| text(t));
    for (_, letters, next) in SCRIPTS {
        let each: Vec<String> = letters.chars().map(String::from).collect();
        text(&each.join(" "));
        text(&format!("a{letters}{next}"));
    }
    for c in RANGES.iter().flat_map(edges) {
        text(&format!("{c}"));
        text(&format!("a{c}"));
    }
    for c in [ODD_LETTERS, ODD_NEXT, OTHERS].into_iter().flat_map(str::chars) {
        text(&format!("{c}"));
        text(&format!("a{c}b"));
        text(&format!("r#{c}"));
    }
    for c in BEHIND {
        FRONTS.iter().for_each(|front| text(&format!("{front}{c}")));
        ATTRIBUTES.iter().for_each(|whole| text(&whole.replace('*', &c.to_string())));
    }
    for c in BLANKS {
        for (front, back) in
            [("", "é"), ("é", ""), ("é", "ŵ"), ("a", "\u{301}"), ("r#é", "·"), ("é", "×"), ("infé", "inf")]
        {
            text(&format!("{front}{c}{back}"));
        }
    }
    lines.add(|l| line::read(l, &sized("", "é", "", 65_536)));
    lines.add(|l| line::read(l, &sized("e", "\u{301}", "×", 65_535)));
}

/// A name takes one entry, however long; what the text is refused for comes before the room.
fn with_rooms(lines: &mut Lines) {
    for text in ["é", "Tŷ(dŵr: 7)", "é ŵ", "aé×", "r#·é 字𐌰", "5u8é", "1.5f32\u{301}", "e\u{301}é", "a\u{85}é\u{2028}"]
    {
        for room in [0, 4, 5, 9, 10, 15, 29, 30] {
            lines.add(|l| line::read_into(l, room, text.as_bytes()));
        }
    }
    let long = "ŷ".repeat(400);
    lines.add(|l| line::read_into(l, 4, long.as_bytes()));
    lines.add(|l| line::read_into(l, 5, long.as_bytes()));
}

/// Integers that a name's character follows.
const INTEGERS: &[&str] = &[
    "5", "5u8", "5i8", "5u16", "256u8", "-5i8", "-1u8", "+5u8", "0xu8", "0x_u8", "0b2u8", "0xFFu8", "300ai8", "25fu8",
    "1_u8", "5u64", "5u", "256", "u8", "", "b'a'", "b'",
];

fn integers(lines: &mut Lines) {
    for c in BEHIND {
        for front in INTEGERS {
            lines.add(|l| line::integer(l, 5, 0, format!("{front}{c}").as_bytes()));
        }
        lines.add(|l| line::integer(l, 1, 0, format!("5i8{c}").as_bytes()));
        lines.add(|l| line::integer(l, 8, 0, format!("5u64{c}u64").as_bytes()));
    }
    for place in 0..=9 {
        lines.add(|l| line::integer(l, 5, place, "ŷ:5u8ŵ".as_bytes()));
    }
}

/// In a struct; `*` stands for the character.
const STRUCTS: &[&str] =
    &["(*)", "(*:1)", "(*,1)", "(a*:1)", "(a*,1)", "(a*)", "(r#*:1)", "(*", "(1*,2)", "(*\"a\",1)"];

const MORE_STRUCTS: &[&str] = &[
    "(é,)", "(é ŵ)", "(é ŵ,1)", "(é(1),2)", "(é[1,2])", "(ŵ\u{2028}:1)", "(\u{2028}ŵ:1)", "(é/*:*/:1)", "(é//\n:1)",
    "(infé:1)", "(5u8é,1)", "(e\u{301}:1)", "(é:1,e\u{301}:2)", "(字:1)", "(字,)", "(€)", "(€", "(é:", "é", "é(a:1)",
    "×", "(bé:1)", "(ré:1)", "(rb×,1)", "(r#é.b:1)", "(é'a',1)",
];

fn structs(lines: &mut Lines) {
    let mut text = |modes: [u64; 2], text: &str| lines.add(|l| line::struct_kind(l, modes, 0, text.as_bytes()));
    for c in BEHIND {
        for whole in STRUCTS {
            text([0, 1], &whole.replace('*', &c.to_string()));
        }
    }
    for whole in MORE_STRUCTS {
        [[0, 0], [0, 1], [1, 1]].into_iter().for_each(|modes| text(modes, whole));
    }
    for place in 0..=4 {
        lines.add(|l| line::struct_kind(l, [0, 1], place, "Tŷ(dŵr: 7)".as_bytes()));
    }
}

/// Documents: a name is a name, whatever its letters.
const WALKS: &[(u64, &str)] = &[
    (128, "é"),
    (128, "r#é"),
    (128, "Tŷ(dŵr: 7)"),
    (128, "(é:1)"),
    (128, "(é:1,ŵ:2,)"),
    (128, "(é:1,e\u{301}:2)"),
    (128, "(ŷ:1,y\u{302}:2)"),
    (128, "(r#·:1)"),
    (128, "(é,ŵ)"),
    (128, "[é,r#ŵ,字(1)]"),
    (128, "{é:1,ŵ:2}"),
    (128, "(字:(𐌰:[é]))"),
    (128, "é ŵ"),
    (128, "é:1"),
    (128, "éŵ(1)"),
    (128, "é(1)ŵ"),
    (128, "(é:1,ŵ)"),
    (128, "(é:1,5u8ŵ)"),
    (128, "(infé:1)"),
    (128, "(inf×:1)"),
    (128, "(5é:1)"),
    (128, "×"),
    (128, "(a×:1)"),
    (128, "(é:1,·:2)"),
    (128, "(\u{301}:1)"),
    (128, "(a\u{301}:1)"),
    (128, "(é\u{2028}:1)"),
    (128, "(é\u{a0}:1)"),
    (128, "#![enable(implicit_some)](é:1)"),
    (128, "#![enable(implicit_someé)](é:1)"),
    (128, "#![type=\"é\"]é"),
    (0, "é"),
    (0, "é()"),
    (1, "é(ŵ(1))"),
    (1, "é(ŵ)"),
    (2, "é(ŵ(1))"),
    (129, "é"),
    (129, "×"),
];

fn walk(lines: &mut Lines) {
    for &(limit, text) in WALKS {
        lines.add(|l| line::walk(l, limit, text.as_bytes()));
    }
}

/// No name is a string, and a name's characters are no part of one: kind, start, text.
const CONTENTS: &[(u32, u32, &str)] = &[
    (14, 0, "é"),
    (14, 1, "é"),
    (14, 2, "é"),
    (14, 0, "ré"),
    (14, 0, "r#é"),
    (14, 0, "r#·"),
    (14, 0, "r#×"),
    (14, 0, "r##é"),
    (14, 0, "é\"a\""),
    (14, 2, "é\"a\"ŵ"),
    (14, 1, "r\"é\""),
    (14, 0, "r\"é\"é"),
    (14, 0, "\"é\"\u{301}"),
    (14, 0, "\"e\u{301}\""),
    (14, 0, "\"\\u{e9}e\u{301}\""),
    (15, 0, "bé"),
    (15, 0, "bré"),
    (15, 0, "b\"é\"é"),
    (9, 0, "é"),
    (10, 0, "r#é"),
];

fn contents(lines: &mut Lines) {
    for &(kind, start, text) in CONTENTS {
        lines.add(|l| line::contents(l, kind, start, text.as_bytes()));
    }
}

/// Text, cut, what is put there.
const EDITS: &[(&str, usize, usize, &str)] = &[
    // names that part
    ("aéb c", 1, 1, " "),
    ("aéb c", 3, 3, " "),
    ("aéb c", 1, 3, " "),
    ("aéb c", 1, 3, ","),
    ("aéb c", 1, 3, "\u{85}"),
    ("aéb c", 1, 3, "\u{2028}"),
    ("aéb c", 1, 3, "×"),
    ("aéb c", 1, 3, "\u{a0}"),
    ("aéb c", 1, 3, "."),
    ("aéb c", 1, 3, "-"),
    ("aéb c", 1, 3, ""),
    ("éŵ, ŷ", 2, 2, ":"),
    ("éŵ, ŷ", 2, 2, "\""),
    ("éŵ, ŷ", 2, 2, "/**/"),
    ("éŵ, ŷ", 0, 2, ""),
    ("éŵ, ŷ", 2, 4, ""),
    // names that join
    ("a éb, c", 1, 2, ""),
    ("aé b, c", 3, 4, ""),
    ("é, ŵ, ŷ", 2, 4, ""),
    ("é, ŵ, ŷ", 2, 4, "_"),
    ("é ŵ", 2, 3, "·"),
    ("é ŵ", 2, 3, "×"),
    ("é ŵ", 2, 3, "\u{200d}"),
    ("é\u{85}ŵ c", 2, 4, ""),
    ("é\u{2028}ŵ c", 2, 5, "\u{203f}"),
    ("r#é b c", 4, 5, "."),
    ("r é", 1, 2, "#"),
    ("r#é b", 1, 2, ""),
    ("r#· b", 0, 2, ""),
    ("r#· b", 0, 2, "a"),
    // marks put in and taken out
    ("e x", 1, 1, "\u{301}"),
    ("e\u{301} x", 1, 3, ""),
    ("e\u{301} x", 0, 1, ""),
    ("e\u{301} x", 1, 1, " "),
    ("e\u{301} x", 3, 3, "\u{302}"),
    ("e \u{301}", 1, 2, ""),
    ("é x", 0, 2, "e\u{301}"),
    ("e\u{301} x", 0, 3, "é"),
    ("(é:1,ŵ:2)", 1, 3, "e\u{301}"),
    ("(é:1,ŵ:2)", 6, 8, "w\u{302}"),
    ("a, x", 3, 3, "\u{301}"),
    ("a, x", 4, 4, "\u{301}"),
    ("a, x", 1, 1, "\u{301}"),
    // letters put between others, and at the ends
    ("a b", 1, 1, "é"),
    ("a b", 2, 2, "é"),
    ("a b", 3, 3, "é"),
    ("a b", 1, 2, "é"),
    ("a b", 1, 2, "×"),
    ("a b", 0, 1, "字"),
    ("a b", 2, 3, "𐌰"),
    ("", 0, 0, "é"),
    ("é", 0, 2, ""),
    ("é", 0, 2, "é"),
    ("é", 2, 2, "é"),
    ("é", 0, 0, "é"),
    ("×", 0, 2, "é"),
    ("·a", 0, 2, ""),
    ("é×", 2, 4, ""),
    // what is kept is counted in entries, whose bytes are more
    ("é,ŵ", 3, 3, ""),
    ("é,ŵ", 2, 2, ""),
    ("é ŵ", 3, 3, ""),
    ("é/*,*/ŵ", 7, 7, ""),
    ("é\u{85}ŵ", 4, 4, ""),
    ("é ŵ 字 𐌰", 3, 5, "w"),
    ("é ŵ 字 𐌰", 6, 9, "é"),
    ("é ŵ 字 𐌰", 10, 14, "a"),
    ("é ŵ 字 𐌰", 0, 3, ""),
    ("é ŵ 字 𐌰", 0, 14, "é"),
    ("Tŷ(dŵr: 7)", 4, 8, "dw\u{302}r"),
    ("Tŷ(dŵr: 7)", 0, 3, "Ty"),
    ("Tŷ(dŵr: 7)", 10, 11, "7u8ŵ"),
    ("[é, é, é]", 4, 8, ""),
    ("[é, é, é]", 1, 5, ""),
    // numbers and words that a letter follows
    ("5u8 é", 3, 4, ""),
    ("5u8é", 3, 3, " "),
    ("5u8é a", 3, 5, ""),
    ("5u8 a", 3, 3, "é"),
    ("5u8 a", 3, 3, "×"),
    ("5u8 a", 3, 3, "\u{301}"),
    ("256 u8é", 3, 4, ""),
    ("256u8é a", 5, 7, ""),
    ("1.5f32 é", 6, 7, ""),
    ("1.5f32é a", 6, 8, ""),
    ("inf é", 3, 4, ""),
    ("infé a", 3, 3, ","),
    ("-inf é", 4, 5, ""),
    ("NaN a", 3, 3, "·"),
    ("b é\"a\"", 1, 2, ""),
    ("é \"a\"", 0, 2, "b"),
    ("é'a' b", 0, 2, "b"),
    // attributes
    ("#![enable(implicit_some)] é", 23, 23, "é"),
    ("#![enable(implicit_some)] é", 23, 23, "×"),
    ("#![enable(implicit_some)] é", 9, 9, "é"),
    ("#![enable(implicit_some)] é", 25, 26, ""),
    ("#![enable(implicit_some)] é", 25, 26, "×"),
    ("#![type=\"s\"] é", 12, 13, "é"),
];

/// Cuts inside characters of names: what is left may be another letter, no letter, whitespace, or no UTF-8.
const INSIDE: &[(&str, usize, usize, &[u8])] = &[
    ("é a", 1, 2, b"\xa8"),
    ("é a", 1, 2, b"\x97"),
    ("é a", 0, 1, b"\xc5"),
    ("é a", 0, 1, b"\xc2"),
    ("é a", 0, 1, b""),
    ("é a", 1, 2, b""),
    ("é a", 1, 1, b"\xa8\xc3"),
    ("é a", 1, 1, b"\xa8 \xc3"),
    ("é a", 1, 1, b" "),
    ("éŵ a", 1, 3, b""),
    ("é, ŵ a", 1, 5, b""),
    ("é, ŵ a", 1, 6, b"\x97"),
    ("字 a", 2, 3, b"\x98"),
    ("字 a", 1, 3, b"\x80\xa0"),
    ("字 a", 0, 1, b"\xe2"),
    ("字 a", 1, 2, b""),
    ("𐌰 a", 3, 4, b"\xb1"),
    ("𐌰 a", 2, 4, b"\x9f\x98"),
    ("𐌰 a", 1, 4, b"\x9f\x98\x80"),
    ("𐌰 a", 1, 3, b""),
    ("a·b c", 2, 3, b"\xb5"),
    ("a·b c", 2, 3, b"\xb6"),
    ("aªb c", 2, 3, b"\x85"),
    ("a\u{85}b c", 2, 3, b"\xaa"),
    ("a\u{200d}b c", 3, 4, b"\x8e"),
    ("a\u{200e}b c", 3, 4, b"\x8c"),
    ("a\u{2028}b c", 3, 4, b"\xbf"),
    ("a\u{203f}b c", 3, 4, b"\xa9"),
    ("a\u{300} b", 1, 2, b"\xcd"),
    ("a\u{300} b", 1, 2, b"\xce"),
];

/// A text of which each byte is taken out, and before each byte of which each of some pieces is put.
const EVERYWHERE: &str = "Tŷ e\u{301}:5u8ŵ";
const PIECES: &[&str] = &[" ", "é", "\u{301}", "×", "\u{85}"];

fn edits(lines: &mut Lines) {
    let mut edit = |text: &str, from: usize, to: usize, put: &[u8]| {
        let edit = Edit { text: text.into(), from, to, put: put.to_vec() };
        lines.add(|l| line::edit(l, &edit));
    };
    EDITS.iter().for_each(|&(text, from, to, put)| edit(text, from, to, put.as_bytes()));
    INSIDE.iter().for_each(|&(text, from, to, put)| edit(text, from, to, put));
    for at in 0..=EVERYWHERE.len() {
        PIECES.iter().for_each(|piece| edit(EVERYWHERE, at, at, piece.as_bytes()));
    }
    (0..EVERYWHERE.len()).for_each(|at| edit(EVERYWHERE, at, at + 1, b""));
    let long = ["a, ", &"ŷ".repeat(300), ", b"].concat();
    [" ", "·", "×", ""].iter().for_each(|put| edit(&long, 303, 305, put.as_bytes()));
}

/// The tape of `é ŵ`.
const TWO: &[u32] = &[9, 0, 2, 0, 0, 9, 3, 5, 0, 1];
/// The tape of `5u8é`.
const NUMBER: &[u32] = &[11, 0, 1, 5, 0, 9, 1, 5, 0, 0];
/// The tape of `r#· a`.
const RAW: &[u32] = &[10, 0, 4, 0, 0, 9, 5, 6, 0, 1];

/// Count, old length, cut, new text, tape, numbers behind it.
type Asked = (u64, u64, u64, u64, &'static str, &'static [u32], &'static [u32]);

const REPAIRS: &[Asked] = &[
    (2, 5, 2, 3, "éŵ", TWO, &[]),
    (2, 5, 2, 3, "é\u{301}ŵ", TWO, &[7, 7, 7, 7, 7]),
    (2, 5, 2, 3, "é×ŵ", TWO, &[]),
    (2, 5, 3, 3, "é ŵ", TWO, &[]),
    (2, 5, 3, 5, "é w\u{302}", TWO, &[7]),
    (2, 5, 0, 2, "e\u{301} ŵ", TWO, &[]),
    (2, 5, 0, 2, "\u{301} ŵ", TWO, &[]),
    (2, 5, 4, 4, "é \u{175}", TWO, &[]),
    (2, 5, 1, 2, "è ŵ", TWO, &[]),
    (2, 5, 1, 4, "õ", TWO, &[1, 2]),
    (2, 5, 5, 5, "é ŵ字 𐌰", TWO, &[6, 6, 6, 6, 6]),
    (2, 5, 5, 5, "é ŵ字 𐌰", TWO, &[6, 6, 6, 6]),
    (2, 5, 0, 0, "a é ŵ", TWO, &[6, 6, 6, 6, 6, 6]),
    (2, 5, 0, 0, "aé ŵ", TWO, &[]),
    (2, 5, 0, 0, "5u8é ŵ", TWO, &[6, 6, 6, 6, 6]),
    (2, 5, 3, 3, "5u8 é", NUMBER, &[]),
    (2, 5, 3, 5, "5u8", NUMBER, &[9]),
    (2, 5, 3, 5, "5u8×", NUMBER, &[9]),
    (2, 5, 3, 3, "5u8\u{301}é", NUMBER, &[]),
    (2, 6, 0, 2, "· a", RAW, &[]),
    (2, 6, 0, 1, "br#· a", RAW, &[]),
    (2, 6, 4, 5, "r#·a", RAW, &[]),
    (2, 6, 4, 4, "r#·.é a", RAW, &[]),
];

fn repairs(lines: &mut Lines) {
    for &(count, old_length, from, to, new, tape, behind) in REPAIRS {
        let repair = Repair { count, old_length, from, to, new: new.into(), tape: [tape, behind].concat() };
        lines.add(|l| line::repair(l, &repair));
    }
}
