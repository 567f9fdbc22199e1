//! Many integers: the call that takes a list of entries, beside single calls and beside the crate.
use crate::calls::us;
use crate::clock::{medians, Call};
use crate::sides::{Sides, ENTRY};
use crate::texts::{shuffled, NODES};
use crate::{ours, theirs};

const INTEGER: u32 = 11;
/// Node numbers of one list.
pub const MANY: usize = 4000;

/// A text that was read, and entry numbers of integers in it.
pub struct Listed {
    sides: Sides,
    pub items: Vec<u32>,
}

impl Listed {
    /// Every integer of a text.
    pub fn all(text: Vec<u8>) -> Self {
        let sides = Sides::of(text);
        let rows = sides.tape.chunks_exact(ENTRY).take(sides.count).zip(0..);
        let items = rows.filter(|(row, _)| row[0] == INTEGER).map(|(_, number)| number).collect();
        Listed { sides, items }
    }

    /// The first node numbers of a text that has little else.
    pub fn nodes(count: usize) -> Self {
        let all = Listed::all(NODES.text(65_536));
        assert!(count <= all.items.len());
        all.only(|items| items.truncate(count))
    }

    /// The `id` fields of the canal network.
    pub fn ids(canal: Vec<u8>) -> Self {
        let mut all = Listed::all(canal);
        let Listed { sides, items } = &mut all;
        items.retain(|&item| sides.text[..sides.tape[ENTRY * item as usize + 1] as usize].ends_with(b"id: "));
        all
    }

    /// The same with another list.
    pub fn only(mut self, change: impl FnOnce(&mut Vec<u32>)) -> Self {
        change(&mut self.items);
        self.agree();
        self
    }

    /// What one call writes, what single calls answer and what the crate reads are the same.
    fn agree(&self) {
        let [mut one, mut singles, mut crates] = [(); 3].map(|()| Numbers::room(&self.items));
        assert_eq!(self.once(&mut one), 0, "the list is refused");
        self.singly(&mut singles);
        self.by_crate(&mut crates);
        assert!(one == singles && one == crates, "the numbers differ");
    }

    fn once(&self, into: &mut Numbers) -> u64 {
        let Sides { text, tape, count } = &self.sides;
        ours::integers(text, tape, *count, &self.items, &mut into.magnitudes, &mut into.codes)
    }

    /// A call for each, which judges the text.
    fn singly(&self, into: &mut Numbers) {
        for (k, &item) in self.items.iter().enumerate() {
            let (place, width) = self.place(item);
            let (answer, magnitude) = ours::integer(&self.sides.text, place, width);
            into.put(k, magnitude, width, answer >> 32 == 1);
        }
    }

    /// The text judged once, then the crate's `integer` for each.
    fn by_crate(&self, into: &mut Numbers) {
        let text = std::str::from_utf8(&self.sides.text).expect("it was read");
        for (k, &item) in self.items.iter().enumerate() {
            let (place, width) = self.place(item);
            let (magnitude, minus) = theirs::integer(text, place, width).expect("it was read");
            into.put(k, magnitude, width, minus);
        }
    }

    /// Where an entry starts, and its width.
    fn place(&self, item: u32) -> (usize, u32) {
        let row = &self.sides.tape[ENTRY * item as usize..][..ENTRY];
        (row[1] as usize, row[3])
    }

    fn call(&self, by: impl Fn(&Self, &mut Numbers) + 'static) -> Call<'_> {
        let mut into = Numbers::room(&self.items);
        Box::new(move || {
            by(self, &mut into);
            std::hint::black_box(&mut into);
        })
    }

    /// One call for the list.
    pub fn one_call(&self) -> Call<'_> {
        self.call(|listed, into| {
            std::hint::black_box(listed.once(into));
        })
    }

    /// The crate's reading of it.
    pub fn crate_call(&self) -> Call<'_> {
        self.call(Listed::by_crate)
    }
}

/// What is written for each item.
#[derive(PartialEq)]
struct Numbers {
    magnitudes: Vec<u64>,
    codes: Vec<u8>,
}

impl Numbers {
    fn room(items: &[u32]) -> Self {
        Numbers { magnitudes: vec![0; items.len()], codes: vec![0; items.len()] }
    }

    fn put(&mut self, k: usize, magnitude: u64, width: u32, minus: bool) {
        self.magnitudes[k] = magnitude;
        self.codes[k] = width as u8 + 16 * u8::from(minus);
    }
}

/// Prints the row, and hands the two ratios back.
pub fn row(name: &str, listed: &Listed) -> [f64; 2] {
    listed.agree();
    let [one, singles, crates] = medians([listed.one_call(), listed.call(Listed::singly), listed.crate_call()]);
    let [by_singles, by_crate] = [singles / one, crates / one];
    println!(
        "| {name} | {} | {} | {:.1} | {} | **{by_singles:.0}** | {} | **{by_crate:.2}** |",
        listed.items.len(),
        us(one),
        one / listed.items.len() as f64,
        us(singles),
        us(crates)
    );
    [by_singles, by_crate]
}

/// Node numbers in the order of the text and in no order.
pub fn node_rows() -> [f64; 2] {
    let in_order = row("node numbers, in the text's order", &Listed::nodes(MANY));
    let in_none = row("the same shuffled", &Listed::nodes(MANY).only(|items| shuffled(items)));
    [in_order[0].min(in_none[0]), in_order[1].min(in_none[1])]
}
