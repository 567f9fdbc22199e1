//! A text that arrives: handed over in pieces, with its end, beside one reading of it.
use crate::calls::us;
use crate::clock::{medians, Call};
use crate::ours::{self, ARRIVAL, KEPT};
use crate::sides::{Sides, ENTRY};
use crate::texts::Kind;

/// Bytes kept between two pieces at most.
const MOST_KEPT: usize = 4096;
/// Bytes of a piece.
pub const PIECES: [usize; 4] = [1, 64, 512, 65_536];
/// The piece that a goal speaks of.
const GOAL: usize = 512;

/// What a host lends: the state, the buffer, and a tape for the entries of one piece.
struct Lent {
    state: [u32; ARRIVAL],
    buffer: Vec<u8>,
    tape: Vec<u32>,
}

impl Lent {
    fn room(text: &[u8], length: usize) -> Self {
        Lent { state: [0; ARRIVAL], buffer: vec![0; MOST_KEPT + length], tape: vec![0; ENTRY * text.len()] }
    }

    /// The text in pieces of a length, and its end; what each gives is handed on: the answer, and the entries on the tape.
    fn arrive(&mut self, text: &[u8], length: usize, mut give: impl FnMut(u64, &[u32])) {
        let Lent { state, buffer, tape } = self;
        ours::begin(state);
        for piece in text.chunks(length) {
            let kept = state[KEPT] as usize;
            buffer[kept..kept + piece.len()].copy_from_slice(piece);
            let (answer, count) = ours::piece(state, buffer, piece.len(), tape);
            give(answer, &tape[..ENTRY * count as usize]);
        }
        let (answer, count) = ours::finish(state, buffer, tape);
        give(answer, &tape[..ENTRY * count as usize]);
    }
}

/// The entries in all are those of one reading.
fn agree(sides: &Sides, length: usize) {
    let mut all = Vec::new();
    Lent::room(&sides.text, length).arrive(&sides.text, length, |answer, entries| {
        assert_eq!(answer, 0, "a piece is refused");
        all.extend_from_slice(entries);
    });
    assert!(all == sides.tape[..ENTRY * sides.count], "the entries differ from those of one reading");
}

/// The text in pieces of a length, and its end. The copy of each piece into the buffer is part of it.
pub fn arrive(sides: &Sides, length: usize) -> Call<'_> {
    agree(sides, length);
    let mut lent = Lent::room(&sides.text, length);
    Box::new(move || {
        lent.arrive(&sides.text, length, |answer, entries| {
            std::hint::black_box((answer, entries.len()));
        });
    })
}

/// Prints a row for one reading and one for each length of pieces, at four sizes; hands the ratio back that the goal speaks of.
pub fn rows(kind: &Kind, sizes: [usize; 4]) -> f64 {
    let all = sizes.map(|size| Sides::of(kind.text(size)));
    let times = all.each_ref().map(|sides| {
        let [one, all, some, more, most] = [0, 1, 2, 3, 4].map(|n| match n {
            0 => sides.ours(),
            n => arrive(sides, PIECES[n - 1]),
        });
        medians([one, all, some, more, most])
    });
    for n in 0..=PIECES.len() {
        let (name, length) = if n == 0 { ("one read", String::new()) } else { ("pieces", PIECES[n - 1].to_string()) };
        print!("| {} | {name} | {length} |", kind.name);
        for (sides, times) in all.iter().zip(&times) {
            print!(" {:.2} |", times[n] / sides.text.len() as f64);
        }
        let largest = &times[sizes.len() - 1];
        println!(" {} | **{:.2}** |", us(largest[n]), largest[n] / largest[0]);
    }
    let goal = PIECES.iter().position(|&length| length == GOAL).expect("it is one of them");
    times[sizes.len() - 1][1 + goal] / times[sizes.len() - 1][0]
}
