//! The third table: the cost of a byte at four sizes, for every call and for the worst cases. Where it stands, the cost is linear.
//! And the cost of a field in walks of one record, whose names are compared: it grows with the logarithm of how many there are.
use crate::arrivals;
use crate::calls::{decoded, part, us, walk, Typed};
use crate::clock::{medians, Call};
use crate::edits::Edit;
use crate::lists::{Listed, MANY};
use crate::ours;
use crate::sides::Sides;
use crate::texts::{fields, Kind, ARRIVING, KINDS, NAMES, WORST};

/// The crate's `StructType::NewtypeTuple`.
const NEWTYPE_TUPLE: u64 = 2;
const SIZES: [usize; 4] = [1024, 4096, 16_384, 65_536];
/// Fields of one record.
const FIELDS: [usize; 4] = [10, 100, 1000, 10_000];
/// Items of one list.
const ITEMS: [usize; 4] = [10, 100, 1000, MANY];

pub fn tables() {
    println!("## Cost of a byte, in nanoseconds, at four sizes\n");
    println!("| call | text | 1 KiB | 4 KiB | 16 KiB | 64 KiB |\n|---|---|--:|--:|--:|--:|");
    calls();
    records();
    lists();
    long_lists();
    arriving();
    println!("\n## Worst cases of reading: nanoseconds a byte\n");
    println!("| text | 1 KiB | 4 KiB | 16 KiB | 64 KiB | crate, 64 KiB | ratio |\n|---|--:|--:|--:|--:|--:|--:|");
    WORST.iter().for_each(worst);
    println!();
}

/// The time of a byte of the texts of a kind, by a call made of each.
fn row(call: &str, kind: &Kind, make: impl Fn(&Sides) -> f64) {
    print!("| {call} | {} |", kind.name);
    for size in SIZES {
        let sides = Sides::of(kind.text(size));
        print!(" {:.3} |", make(&sides) / sides.text.len() as f64);
    }
    println!();
}

fn one(call: Call) -> f64 {
    let [time] = medians([call]);
    time
}

fn repair(edit: &Edit) -> f64 {
    let (call, calls) = edit.call();
    one(call) / calls
}

fn calls() {
    let [canal, spaces, comments] = ["canal network", "spaces", "block comments"].map(named);
    for kind in KINDS {
        row("read", kind, |s| one(s.ours()));
    }
    for kind in KINDS {
        row("walk", kind, |s| one(walk(s)));
    }
    for kind in KINDS {
        row("repair, the middle byte put anew", kind, |s| repair(&Edit::of_same(s)));
    }
    row("repair, a digit in the middle", canal, |s| repair(&Edit::of_digit(s, s.text.len() / 2)));
    row("repair, a comment in the front", canal, |s| repair(&Edit::of_comment(s, 0)));
    row("repair, all of it", canal, |s| repair(&Edit::of(s, 0, s.text.len(), &s.text)));
    row("integer", named("zeros and a one"), |s| one(typed(s, 0)));
    row("integer behind the text", canal, |s| one(typed(s, s.text.len())));
    row("contents", named("continuation bytes"), |s| one(string(s, part)));
    row("decoded", named("continuation bytes"), |s| one(string(s, decoded)));
    row("decoded", named("one string of escapes"), |s| one(string(s, decoded)));
    row("struct_kind", canal, |s| one(struct_kind(s)));
    row("struct_kind", named("marks only"), |s| one(struct_kind(s)));
    row("skip", spaces, |s| one(skip(s)));
    row("skip", comments, |s| one(skip(s)));
}

fn records() {
    println!("\n## Walks of one record, whose names are compared, beside a map of the same entries\n");
    println!("| names | fields | bytes | walk us | as a map us | ns a field | for its name | by log2 of the fields |");
    println!("|---|--:|--:|--:|--:|--:|--:|--:|");
    for (names, name) in NAMES {
        FIELDS.into_iter().for_each(|count| record(names, count, |i| name(i, count)));
    }
}

fn record(names: &str, count: usize, name: impl Fn(usize) -> String) {
    let [record, map] = [('(', ')'), ('{', '}')].map(|(a, b)| Sides::of(fields(a, count, &name, b).into_bytes()));
    let [time, without] = medians([walk(&record), walk(&map)]);
    let own = (time - without) / count as f64;
    println!(
        "| {names} | {count} | {} | {} | {} | {:.1} | {own:.1} | {:.2} |",
        record.text.len(),
        us(time),
        us(without),
        time / count as f64,
        own / (count as f64).log2()
    );
}

/// The judging of the text, which the shortest list has to pay for too, is told apart.
fn lists() {
    println!("\n## Lists of node numbers of one text of 64 KiB\n");
    println!("| items | call us | of no items us | ns an item |\n|--:|--:|--:|--:|");
    for count in ITEMS {
        let [listed, none] = [count, 0].map(Listed::nodes);
        let [time, judging] = medians([listed.one_call(), none.one_call()]);
        println!("| {count} | {} | {} | {:.1} |", us(time), us(judging), (time - judging) / count as f64);
    }
}

/// The dearest list names one long integer again and again: each item is read to its end, and that twice.
fn long_lists() {
    println!("\n## Lists that name one integer of 65,536 digits again and again\n");
    println!("| items | call us | us an item |\n|--:|--:|--:|");
    for count in [1, 10, 100] {
        let listed = Listed::all([vec![b'0'; 65_535], vec![b'1']].concat()).only(|items| items.resize(count, 0));
        let [time] = medians([listed.one_call()]);
        println!("| {count} | {} | {:.1} |", us(time), time / 1000.0 / count as f64);
    }
}

/// The first of the texts is what the goal speaks of.
pub fn arriving() {
    println!("\n## Texts that arrive, in pieces of so many bytes and their end: nanoseconds a byte\n");
    println!("The host's copy of each piece behind what is kept is part of it. The last columns are those of 64 KiB: microseconds, and how many readings that is.\n");
    println!("| text | call | bytes | 1 KiB | 4 KiB | 16 KiB | 64 KiB | us | / read |\n|---|---|--:|--:|--:|--:|--:|--:|--:|");
    let ratio = arrivals::rows(named("canal network"), SIZES);
    for kind in ARRIVING {
        arrivals::rows(kind, SIZES);
    }
    println!("\nPieces of 512 bytes of the canal network take {ratio:.2} of a reading (goal: at most 2).");
}

fn named(name: &str) -> &'static Kind {
    KINDS.iter().chain(WORST).find(|k| k.name == name).expect("a kind")
}

fn typed(sides: &Sides, place: usize) -> Call<'_> {
    let typed = Typed { text: sides.text.clone(), place, width: 8 };
    typed.agree();
    Box::new(move || {
        std::hint::black_box(typed.ours());
    })
}

fn string(sides: &Sides, call: fn(&Sides, &mut [u8]) -> u64) -> Call<'_> {
    let mut out = vec![0; sides.text.len()];
    assert!(!ours::is_refused(call(sides, &mut out)), "the string is refused");
    Box::new(move || {
        std::hint::black_box(call(sides, &mut out));
    })
}

/// The kind of a tuple struct of one value, the text: told only where it ends.
fn struct_kind(sides: &Sides) -> Call<'_> {
    let text = [b"(", &sides.text[..], b")"].concat();
    assert_eq!(ours::struct_kind(&text, 0, 0, 1), NEWTYPE_TUPLE);
    Box::new(move || {
        std::hint::black_box(ours::struct_kind(&text, 0, 0, 1));
    })
}

fn skip(sides: &Sides) -> Call<'_> {
    Box::new(|| {
        std::hint::black_box(ours::skip(&sides.text));
    })
}

fn worst(kind: &Kind) {
    print!("| {} |", kind.name);
    for size in SIZES {
        let sides = Sides::of(kind.text(size));
        let bytes = sides.text.len() as f64;
        if size < SIZES[3] {
            print!(" {:.3} |", one(sides.ours()) / bytes);
        } else {
            let [ours, theirs] = medians([sides.ours(), sides.theirs()]);
            println!(" {:.3} | {:.3} | {:.2} |", ours / bytes, theirs / bytes, theirs / ours);
        }
    }
}
