//! RON texts: values, documents and heaps of tokens.
use crate::gaps::between;
use crate::random::Random;
use crate::{names, numbers, strings};

/// A text in the making, and how many entries it has if nothing in it is odd.
#[derive(Default)]
pub struct Draft {
    pub text: Vec<u8>,
    pub entries: usize,
}

impl Draft {
    fn mark(&mut self, r: &mut Random, mark: u8) {
        self.text.push(mark);
        self.entries += 1;
        between(r, &mut self.text);
    }

    fn token(&mut self, r: &mut Random, make: fn(&mut Random, &mut Vec<u8>)) {
        make(r, &mut self.text);
        self.entries += 1;
    }

    /// Attributes and one value, or a heap of tokens.
    pub fn document(&mut self, r: &mut Random) {
        between(r, &mut self.text);
        if r.once_in(3) {
            for _ in 0..r.from(1, 2) {
                self.token(r, names::attribute);
                between(r, &mut self.text);
            }
        }
        let depth = r.below(4);
        match r.below(4) {
            0 => self.heap(r),
            _ => self.value(r, depth),
        }
        between(r, &mut self.text);
    }

    /// Tokens side by side, with little between them.
    pub fn heap(&mut self, r: &mut Random) {
        for _ in 0..r.from(1, 6) {
            self.scalar(r);
            let mark = b"()[]{},:"[r.below(8)];
            match r.below(4) {
                0 => self.mark(r, mark),
                1 => {}
                _ => between(r, &mut self.text),
            }
        }
    }

    fn scalar(&mut self, r: &mut Random) {
        match r.below(5) {
            0 | 1 => self.token(r, numbers::number),
            2 | 3 => self.token(r, strings::quoted),
            _ => self.token(r, names::name),
        }
    }

    /// A value with at most so many brackets inside one another.
    pub fn value(&mut self, r: &mut Random, depth: usize) {
        match r.below(6) {
            _ if depth == 0 => self.scalar(r),
            0 => self.scalar(r),
            1 => self.list(r, depth, b"[]", Draft::value),
            2 => self.list(r, depth, b"{}", Draft::pair),
            _ => self.parens(r, depth),
        }
    }

    /// `( )` of values or fields, with or without a name before it.
    pub fn parens(&mut self, r: &mut Random, depth: usize) {
        if r.once_in(2) {
            self.token(r, names::name);
        }
        match r.below(2) {
            0 => self.list(r, depth, b"()", Draft::value),
            _ => self.list(r, depth, b"()", Draft::field),
        }
    }

    fn list(&mut self, r: &mut Random, depth: usize, marks: &[u8; 2], item: fn(&mut Draft, &mut Random, usize)) {
        self.mark(r, marks[0]);
        let items = r.below(4);
        for n in 1..=items {
            item(self, r, depth - 1);
            between(r, &mut self.text);
            if n < items || r.once_in(3) {
                self.mark(r, b',');
            }
        }
        self.mark(r, marks[1]);
    }

    fn pair(&mut self, r: &mut Random, depth: usize) {
        self.value(r, depth);
        between(r, &mut self.text);
        self.mark(r, b':');
        self.value(r, depth);
    }

    fn field(&mut self, r: &mut Random, depth: usize) {
        self.token(r, names::name);
        between(r, &mut self.text);
        self.mark(r, b':');
        self.value(r, depth);
    }
}
