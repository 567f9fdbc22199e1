//! One call, to be counted from outside.
use crate::arrivals::{arrive, PIECES};
use crate::calls::walk;
use crate::edits::Edit;
use crate::lists::Listed;
use crate::sides::Sides;
use crate::texts::{Kind, ARRIVING, KINDS, NODES, RECORDS, SHORT, WORST};

fn all() -> impl Iterator<Item = &'static Kind> {
    KINDS.iter().chain([&SHORT, &NODES]).chain(RECORDS).chain(WORST).chain(ARRIVING)
}

pub fn kinds() {
    for kind in KINDS.iter().chain([&SHORT]) {
        println!("{}", kind.name);
    }
}

pub fn worst() {
    for kind in WORST {
        println!("{}", kind.name);
    }
}

pub fn arriving() {
    for kind in KINDS[..1].iter().chain(ARRIVING) {
        println!("{}", kind.name);
    }
}

/// What is counted happens in here.
#[no_mangle]
#[inline(never)]
pub extern "Rust" fn versus_measured(call: &mut dyn FnMut()) {
    call();
}

/// Prints the bytes of the text. CALL: a read by `ours`, `crate` or `lean`; a `walk`; a `repair` in the middle;
/// `integers`, all of the text; `pieces` and a length, the text that arrives so.
pub fn one(call: &str, name: &str, size: &str) {
    let kind = all().find(|k| k.name == name).expect("no such kind");
    let sides = Sides::of(kind.text(size.parse().expect("no number of bytes")));
    let (edit, listed) = (Edit::of_same(&sides), Listed::all(sides.text.clone()));
    let mut call = match call {
        "ours" => sides.ours(),
        "crate" => sides.theirs(),
        "lean" => sides.lean(),
        "walk" => walk(&sides),
        "repair" => edit.there_only(),
        "integers" => listed.one_call(),
        "crate integers" => listed.crate_call(),
        _ => match call.strip_prefix("pieces").map(str::parse) {
            Some(Ok(length)) => arrive(&sides, length),
            _ => panic!("no such call; the pieces of the tables are {PIECES:?}"),
        },
    };
    versus_measured(&mut call);
    println!("{}", sides.text.len());
}
