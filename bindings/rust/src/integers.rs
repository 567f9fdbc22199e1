//! The integers of a list.

use crate::{Value, Width};
use core::iter::{FusedIterator, Take, Zip};
use core::slice::Iter;

/// The values of a list of integers in turn, each with its width. It is what [`Document::integers`](crate::Document::integers) answers.
#[derive(Clone, Debug)]
pub struct Integers<'a> {
    written: Take<Zip<Iter<'a, u64>, Iter<'a, u8>>>,
}

impl<'a> Integers<'a> {
    /// The first so many magnitudes and codes, as the archive wrote them.
    pub(crate) fn new(magnitudes: &'a [u64], codes: &'a [u8], count: usize) -> Integers<'a> {
        Integers {
            written: magnitudes.iter().zip(codes).take(count),
        }
    }
}

impl Iterator for Integers<'_> {
    type Item = (Value, Width);

    fn next(&mut self) -> Option<(Value, Width)> {
        let (magnitude, code) = self.written.next()?;
        Some(Value::coded(*magnitude, *code).expect("the archive writes the code of a width"))
    }

    fn size_hint(&self) -> (usize, Option<usize>) {
        self.written.size_hint()
    }
}

impl ExactSizeIterator for Integers<'_> {}

impl FusedIterator for Integers<'_> {}
