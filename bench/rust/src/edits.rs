//! Edits of a text, repaired there and back.
use crate::clock::Call;
use crate::ours::{self, Cut};
use crate::sides::{Sides, ENTRY};

/// A text and its tape before an edit, and what was put in the place of which bytes.
pub struct Edit {
    old: Vec<u8>,
    pub new: Vec<u8>,
    tape: Vec<u32>,
    count: usize,
    a: usize,
    b: usize,
}

impl Edit {
    /// The bytes from `a` to `b` give way to `put`.
    pub fn of(sides: &Sides, a: usize, b: usize, put: &[u8]) -> Self {
        let old = sides.text.clone();
        let new = [&old[..a], put, &old[b..]].concat();
        let mut tape = sides.tape.clone();
        tape.resize(ENTRY * (sides.count + new.len()), 0);
        Edit { old, new, tape, count: sides.count, a, b }
    }

    /// A digit that is changed: the first at or behind a place.
    pub fn of_digit(sides: &Sides, from: usize) -> Self {
        let at = from + sides.text[from..].iter().position(u8::is_ascii_digit).expect("there is a digit");
        let other = if sides.text[at] == b'1' { b'2' } else { b'1' };
        Edit::of(sides, at, at + 1, &[other])
    }

    /// The byte in the middle, put anew.
    pub fn of_same(sides: &Sides) -> Self {
        let middle = sides.text.len() / 2;
        Edit::of(sides, middle, middle + 1, &sides.text[middle..=middle])
    }

    /// A line comment that goes on over the next line: the first newline behind one, at or behind a place, becomes a space.
    pub fn of_comment(sides: &Sides, from: usize) -> Self {
        let text = &sides.text;
        let find =
            |from: usize, what: &[u8]| text[from..].windows(what.len()).position(|w| w == what).map(|at| from + at);
        let comment = find(from, b"//").expect("there is a line comment");
        let at = find(comment, b"\n").expect("it ends");
        Edit::of(sides, at, at + 1, b" ")
    }

    fn there(&self) -> Cut {
        Cut { old_len: self.old.len(), a: self.a, b: self.b }
    }

    fn back(&self) -> Cut {
        Cut { old_len: self.new.len(), a: self.a, b: self.new.len() - (self.old.len() - self.b) }
    }

    /// The answer, checked against a fresh reading of the new text.
    pub fn checked(&self) -> (u64, [u64; 2]) {
        let (mut tape, mut fresh) = (self.tape.clone(), vec![0; self.tape.len()]);
        let (answer, kept) = ours::repair(&mut tape, self.count, self.there(), &self.new);
        assert_eq!(answer, ours::read(&self.new, &mut fresh), "a repair differs from a fresh reading");
        if !ours::is_refused(answer) {
            let numbers = ENTRY * answer as usize;
            assert!(tape[..numbers] == fresh[..numbers], "the repaired tape differs from the fresh one");
        }
        (answer, kept)
    }

    /// A repair there and one back; one there where it is refused, which leaves the tape as it was.
    pub fn call(&self) -> (Call<'_>, f64) {
        let mut tape = self.tape.clone();
        let (answer, _) = self.checked();
        let refused = ours::is_refused(answer);
        let call = move || {
            std::hint::black_box(ours::repair(&mut tape, self.count, self.there(), &self.new));
            if !refused {
                std::hint::black_box(ours::repair(&mut tape, answer as usize, self.back(), &self.old));
            }
        };
        (Box::new(call), if refused { 1.0 } else { 2.0 })
    }

    /// One repair.
    pub fn there_only(&self) -> Call<'_> {
        let mut tape = self.tape.clone();
        Box::new(move || {
            std::hint::black_box(ours::repair(&mut tape, self.count, self.there(), &self.new));
        })
    }

    /// A fresh reading of the new text.
    pub fn fresh(&self) -> Call<'_> {
        let mut tape = self.tape.clone();
        Box::new(move || {
            std::hint::black_box(ours::read(&self.new, &mut tape));
        })
    }
}
