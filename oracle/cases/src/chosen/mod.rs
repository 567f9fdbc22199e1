//! Cases chosen by hand, for the fixed list that a gate runs.
mod arrivals;
mod contents;
mod fields;
mod gaps;
mod integers;
mod many;
mod names;
mod read;
mod reasons;
mod repair;
mod skip;
mod structs;
mod utf8;
mod walk;

/// Case lines, each with its end.
#[derive(Default)]
pub struct Lines {
    pub text: Vec<u8>,
}

impl Lines {
    /// A line that a function of `line` writes.
    fn add(&mut self, write: impl FnOnce(&mut Vec<u8>)) {
        write(&mut self.text);
        self.text.push(b'\n');
    }

    /// A line as it stands: most of these are no case.
    fn plain(&mut self, line: &str) {
        self.add(|l| l.extend_from_slice(line.as_bytes()));
    }
}

/// The chosen lines of a call.
pub fn lines(call: u8) -> Lines {
    let mut lines = Lines::default();
    match call {
        b's' => skip::lines(&mut lines),
        b'i' => integers::lines(&mut lines),
        b'c' => contents::of_one_entry(&mut lines),
        b'C' => contents::of_any_tape(&mut lines),
        b'k' => structs::lines(&mut lines),
        b'r' => read::lines(&mut lines),
        b'R' => read::with_rooms(&mut lines),
        b'w' => walk::of_text(&mut lines),
        b'W' => walk::of_any_tape(&mut lines),
        b'p' => repair::of_text(&mut lines),
        b'P' => repair::of_any_tape(&mut lines),
        _ => {}
    }
    names::lines(&mut lines, call);
    reasons::lines(&mut lines, call);
    gaps::lines(&mut lines, call);
    fields::lines(&mut lines, call);
    many::lines(&mut lines, call);
    arrivals::lines(&mut lines, call);
    lines
}
