//! The second table: the other calls.
use crate::clock::{medians, Call};
use crate::contents::{contents, Contents};
use crate::edits::Edit;
use crate::lists::{self, Listed};
use crate::run::{cursor, parser_at};
use crate::sides::Sides;
use crate::texts::{self, Kind, KINDS};
use crate::{integer, ours, text};

const SIZE: usize = 65_536;

pub fn tables() {
    walks();
    repairs();
    integers();
    lists();
    strings();
}

fn walks() {
    println!("## Walking, beside our reading\n");
    println!("| text | entries | read us | walk us | read / walk |\n|---|--:|--:|--:|--:|");
    let least = KINDS.iter().map(walk_row).fold(f64::INFINITY, f64::min);
    println!("\nThe least ratio is {least:.1} (goal: 1).\n");
}

/// Prints the row, and hands the ratio back.
fn walk_row(kind: &Kind) -> f64 {
    let sides = Sides::of(kind.text(SIZE));
    let [read, walk] = medians([sides.ours(), walk(&sides)]);
    println!("| {} | {} | {} | {} | **{:.1}** |", kind.name, sides.count, us(read), us(walk), read / walk);
    read / walk
}

pub fn us(ns: f64) -> String {
    format!("{:.2}", ns / 1000.0)
}

/// The walk of a document.
pub fn walk(sides: &Sides) -> Call<'_> {
    let mut links = vec![0; sides.count];
    assert_eq!(ours::walk(&sides.text, &sides.tape, sides.count, &mut links), 0, "the walk is refused");
    Box::new(move || {
        std::hint::black_box(ours::walk(&sides.text, &sides.tape, sides.count, &mut links));
    })
}

fn repairs() {
    let canal = Sides::of(KINDS[0].text(SIZE));
    let (middle, end) = (canal.text.len() / 2, canal.text.len() - 1000);
    println!("## Repair of the canal network, beside our fresh reading of the new text\n");
    println!("| edit | kept before | behind | read us | repair us | read / repair |\n|---|--:|--:|--:|--:|--:|");
    let node = middle + canal.text[middle..].iter().position(|&b| b == b'\n').expect("there is a line");
    let least = [
        repair_row("a digit, in the front", &Edit::of_digit(&canal, 0)),
        repair_row("a digit, in the middle", &Edit::of_digit(&canal, middle)),
        repair_row("a digit, at the end", &Edit::of_digit(&canal, end)),
        repair_row("a newline behind `//`, in the front", &Edit::of_comment(&canal, 0)),
        repair_row("a newline behind `//`, in the middle", &Edit::of_comment(&canal, middle)),
        repair_row("a newline behind `//`, at the end", &Edit::of_comment(&canal, 60_000)),
    ];
    repair_row("two bytes: `//` put in, in the middle", &Edit::of(&canal, node + 1, node + 1, b"//"));
    repair_row("two bytes: `/*` put in, in the middle (refused)", &Edit::of(&canal, node + 1, node + 1, b"/*"));
    println!(
        "\nThe least ratio of an edit of one byte is {:.1} (goal: 10).\n",
        least.into_iter().fold(f64::INFINITY, f64::min)
    );
}

/// Prints the row, and hands the ratio back.
fn repair_row(name: &str, edit: &Edit) -> f64 {
    let (_, [before, behind]) = edit.checked();
    let (call, calls) = edit.call();
    let [fresh, repair] = medians([edit.fresh(), call]);
    let repair = repair / calls;
    println!("| {name} | {before} | {behind} | {} | {} | **{:.1}** |", us(fresh), us(repair), fresh / repair);
    fresh / repair
}

/// A text with an integer at a place.
pub struct Typed {
    pub text: Vec<u8>,
    pub place: usize,
    pub width: u32,
}

impl Typed {
    pub fn ours(&self) -> (u64, u64) {
        ours::integer(&self.text, self.place, self.width)
    }

    /// As the oracle asks the crate: the text judged, then the crate's `integer`. The value and the end.
    fn theirs(&self) -> Option<(i128, usize)> {
        let text = text::text(&self.text).ok().filter(|t| text::is_place(t, self.place))?;
        let mut parser = parser_at(text, self.place);
        let value = integer::value(self.width as usize, &mut parser).ok()?;
        Some((value, cursor(&parser)))
    }

    pub fn agree(&self) {
        let (answer, magnitude) = self.ours();
        match self.theirs() {
            None => assert!(ours::is_refused(answer)),
            Some((value, end)) => {
                let minus = u64::from(value < 0) << 32;
                assert_eq!((answer, u128::from(magnitude)), (minus + end as u64, value.unsigned_abs()));
            }
        }
    }
}

fn integers() {
    println!("## Typed integers, product and crate\n");
    println!("| integer | calls | ours us | crate us | ratio |\n|---|--:|--:|--:|--:|");
    integer_row("alone in its text, 800 of all widths", &alone());
    let long = |name: &str| texts::WORST.iter().find(|k| k.name == name).expect("a worst case").text(SIZE);
    let at = |text: Vec<u8>, place: usize, width: u32| vec![Typed { text, place, width }];
    let canal = KINDS[0].text(SIZE);
    let place =
        canal.len() - 1000 + canal[canal.len() - 1000..].windows(4).position(|w| w == b"id: ").expect("an id") + 4;
    integer_row("an id at the end of the canal network", &at(canal, place, 7));
    integer_row("65,535 zeros and a one", &at(long("zeros and a one"), 0, 8));
    integer_row("65,536 ones (refused)", &at(long("integer of ones"), 0, 8));
    println!();
}

fn lists() {
    println!("## Many integers of 64 KiB in one call, beside single calls and the crate\n");
    println!("A single call judges the text each time; for the crate it is judged once, and each integer read at its entry's start.\n");
    println!("| list | items | one call us | ns an item | single calls us | ratio | crate us | ratio |\n|---|--:|--:|--:|--:|--:|--:|--:|");
    let [by_singles, by_crate] = lists::node_rows();
    lists::row("the `id` fields of the canal network", &Listed::ids(KINDS[0].text(SIZE)));
    lists::row("all of the canal network", &Listed::all(KINDS[0].text(SIZE)));
    for name in ["integers", "suffixed integers", "hex"] {
        let kind = KINDS.iter().find(|k| k.name == name).expect("a kind");
        lists::row(&format!("all of the text `{name}`"), &Listed::all(kind.text(SIZE)));
    }
    println!("\nThe least ratios of node numbers are {by_singles:.0} (goal: 20) and {by_crate:.2} (goal: 2).\n");
}

fn alone() -> Vec<Typed> {
    texts::typed_integers().map(|(width, text)| Typed { text: text.into_bytes(), place: 0, width }).collect()
}

fn integer_row(name: &str, all: &[Typed]) {
    all.iter().for_each(Typed::agree);
    let ours: Call = Box::new(|| {
        all.iter().for_each(|t| {
            std::hint::black_box(t.ours());
        })
    });
    let theirs: Call = Box::new(|| {
        all.iter().for_each(|t| {
            std::hint::black_box(t.theirs());
        })
    });
    let [ours, theirs] = medians([ours, theirs]);
    println!("| {name} | {} | {} | {} | **{:.2}** |", all.len(), us(ours), us(theirs), theirs / ours);
}

fn strings() {
    println!("## Contents of a string, product and crate\n");
    println!("The crate reads the string at the entry's start, and allocates where it holds an escape; both judge the text first.\n");
    println!("| string | call | bytes | ours us | crate us | ratio |\n|---|---|--:|--:|--:|--:|");
    let name = "plain string of 65,534 bytes";
    let plain = Sides::of([b"\"".to_vec(), vec![b'x'; 65_534], b"\"".to_vec()].concat());
    string_row(name, "contents", &plain, part);
    string_row(name, "decoded", &plain, decoded);
    let escapes = texts::WORST.iter().find(|k| k.name == "one string of escapes").expect("a worst case");
    string_row("the same of `\\n`", "decoded", &Sides::of(escapes.text(SIZE)), decoded);
    let short = Sides::of(b"\"Grand Junction 17\"".to_vec());
    string_row("`\"Grand Junction 17\"`", "contents", &short, part);
    string_row("`\"Grand Junction 17\"`", "decoded", &short, decoded);
    println!();
}

/// The first entry as a part of the text.
pub fn part(sides: &Sides, _: &mut [u8]) -> u64 {
    ours::contents(&sides.text, &sides.tape, sides.count, 0)
}

/// The first entry decoded.
pub fn decoded(sides: &Sides, out: &mut [u8]) -> u64 {
    ours::decoded(&sides.text, &sides.tape, sides.count, 0, out)
}

fn string_row(name: &str, call: &str, sides: &Sides, ours: fn(&Sides, &mut [u8]) -> u64) {
    let mut out = vec![0; SIZE];
    let theirs = || contents(0, sides.count, &sides.tape, &sides.text).ok().expect("a string");
    assert!(!ours::is_refused(ours(sides, &mut out)), "the string is refused");
    let bytes = match theirs() {
        Contents::Part(_, part) => part.len(),
        Contents::Decoded(bytes) => bytes.len(),
    };
    let ours: Call = Box::new(|| {
        std::hint::black_box(ours(sides, &mut out));
    });
    let theirs: Call = Box::new(|| {
        std::hint::black_box(theirs());
    });
    let [ours, theirs] = medians([ours, theirs]);
    println!("| {name} | {call} | {bytes} | {} | {} | **{:.2}** |", us(ours), us(theirs), theirs / ours);
}
