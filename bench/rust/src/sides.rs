//! One text read by each side, into room that is made before.
use crate::clock::Call;
use crate::read::Entry;
use crate::{ours, theirs};

/// Numbers in one entry of a tape.
pub const ENTRY: usize = 5;

/// A text, what it is read to, and how many entries it has (0 where it is refused).
pub struct Sides {
    pub text: Vec<u8>,
    pub tape: Vec<u32>,
    pub count: usize,
}

impl Sides {
    /// Reads the text by all three ways, which must agree.
    pub fn of(text: Vec<u8>) -> Self {
        let mut tape = vec![0; ENTRY * text.len()];
        let answer = ours::read(&text, &mut tape);
        let mut entries = room(&text);
        for by in [theirs::read, theirs::lean] {
            match by(&text, &mut entries) {
                Ok(()) => assert!(answer == entries.len() as u64 && same(&tape, &entries), "the entries differ"),
                Err(number) => assert_eq!(ours::refusal(answer), Some(number), "the refusals differ"),
            }
        }
        let count = if ours::is_refused(answer) { 0 } else { answer as usize };
        Sides { text, tape, count }
    }

    pub fn ours(&self) -> Call<'_> {
        let mut tape = vec![0; ENTRY * self.text.len()];
        Box::new(move || {
            std::hint::black_box(ours::read(&self.text, &mut tape));
        })
    }

    pub fn theirs(&self) -> Call<'_> {
        self.by(theirs::read)
    }

    pub fn lean(&self) -> Call<'_> {
        self.by(theirs::lean)
    }

    fn by(&self, read: fn(&[u8], &mut Vec<Entry>) -> Result<(), u32>) -> Call<'_> {
        let mut entries = room(&self.text);
        Box::new(move || {
            let _ = std::hint::black_box(read(&self.text, &mut entries));
        })
    }
}

/// No text has more entries than bytes: pushing never allocates. The tape has the same room, since a caller does not know the count.
fn room(text: &[u8]) -> Vec<Entry> {
    Vec::with_capacity(text.len())
}

fn same(tape: &[u32], entries: &[Entry]) -> bool {
    let row = |e: &Entry| [e.kind, e.start as u32, e.end as u32, e.detail as u32, e.gap as u32];
    tape.chunks_exact(ENTRY).zip(entries).all(|(ours, theirs)| ours == row(theirs))
}
