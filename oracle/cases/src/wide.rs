//! Names with characters above U+007F, and such characters alone.
use crate::random::Random;
use crate::scripts::{edges, Script, ODD_LETTERS, ODD_NEXT, OTHERS, RANGES, SCRIPTS};

/// Whole names.
const NAMES: &[&str] = &[
    "Tŷ", "dŵr", "Llŷn", "Tŷ_Isaf", "Môn", "Caersŵs", "tŷ2", "Ŵyr", "cŷn", "prŵf", "dy\u{302}n", "naïf", "Größe",
    "Łódź", "é", "aé", "Ωμέγα", "имя", "\u{5e9}\u{5dd}", "\u{627}\u{633}\u{645}", "नाम", "ชื่อ", "名前", "なまえ",
    "이름", "\u{5b57}\u{e0100}", "𐌰𐌱", "𝐱𝟏",
];

/// What such a name may begin with; other readers would take some of them for theirs.
const FRONTS: &[&str] = &[
    "", "", "", "", "", "", "", "", "a", "Lock", "_", "x1", "r", "b", "br", "inf", "NaN", "inff32", "u8", "f32", "e5",
    "true",
];

const ASCII: &[&str] = &["a", "_", "9", "Z", "x1", "e"];

/// A name or raw name with at least one such character, mostly.
pub fn name(r: &mut Random, text: &mut Vec<u8>) {
    let mut name = match r.below(4) {
        0 => r.pick(NAMES).to_string(),
        _ => made(r),
    };
    if r.once_in(16) {
        let places: Vec<usize> = name.char_indices().map(|(at, _)| at).collect();
        name.insert(places[r.below(places.len())], r.character(OTHERS));
    }
    text.extend_from_slice(name.as_bytes());
}

fn made(r: &mut Random) -> String {
    let script = script(r);
    let raw = r.once_in(5);
    let mut name = [if raw { "r#" } else { "" }, r.pick(FRONTS)].concat();
    match r.below(20) {
        0 => name.push(next(r, script)),
        1..=6 if raw => name.push(next(r, script)),
        _ => name.push(r.character(script.1)),
    }
    for _ in 0..length(r) {
        piece(r, script, raw, &mut name);
    }
    name
}

/// Letters of one script and what goes on with them: a name, and nothing else.
pub fn letters(r: &mut Random) -> String {
    let script = script(r);
    let mut name = String::from(r.character(script.1));
    for _ in 0..r.below(4) {
        name.push(if r.once_in(3) { next(r, script) } else { r.character(script.1) });
    }
    name
}

/// Characters behind the first: mostly few.
fn length(r: &mut Random) -> usize {
    match r.below(60) {
        0 => r.from(60, 250),
        1..=4 => r.from(8, 30),
        _ => r.below(4),
    }
}

/// Welsh, or any script.
fn script(r: &mut Random) -> &'static Script {
    match r.below(4) {
        0 => &SCRIPTS[0],
        _ => &SCRIPTS[r.below(SCRIPTS.len())],
    }
}

fn piece(r: &mut Random, script: &Script, raw: bool, name: &mut String) {
    match r.below(12) {
        0..=4 => name.push(r.character(script.1)),
        5 | 6 => name.push(next(r, script)),
        7 | 8 => name.push_str(r.pick(ASCII)),
        9 if raw => name.push(r.character(".+-")),
        9 => name.push(edge(r)),
        _ => name.push(other_script(r)),
    }
}

/// What goes on with a name of this script and starts none: a mark, a digit.
fn next(r: &mut Random, script: &Script) -> char {
    match script.2 {
        "" => r.character("\u{301}·\u{200d}"),
        some => r.character(some),
    }
}

fn other_script(r: &mut Random) -> char {
    let script = script(r);
    match r.below(6) {
        0 => r.character(ODD_LETTERS),
        1 => r.character(ODD_NEXT),
        2 => next(r, script),
        _ => r.character(script.1),
    }
}

/// A character at an end of a range, or next to it.
fn edge(r: &mut Random) -> char {
    let at = r.below(4);
    edges(&RANGES[r.below(RANGES.len())]).nth(at).expect("four characters")
}

/// Any character above U+007F: one that starts names, one that goes on with them, or neither.
pub fn character(r: &mut Random) -> char {
    match r.below(8) {
        0..=3 => other_script(r),
        4 | 5 => edge(r),
        6 => r.character("éŵŷ\u{301}·×"),
        _ => r.character(OTHERS),
    }
}

/// Such a character, once in so many times.
pub fn once_in(r: &mut Random, times: usize, text: &mut Vec<u8>) {
    if r.once_in(times) {
        text.extend_from_slice(character(r).encode_utf8(&mut [0; 4]).as_bytes());
    }
}
