//! The oracle: cases on standard input, one a line, and one answer line each from ron's own parse module.
//! With the word `literal`, cases of `q` are answered by `literal.rs`.
mod arrivals;
mod coming;
mod contents;
mod grammar;
mod integer;
mod integers;
mod line;
mod literal;
mod read;
mod reading;
mod refusal;
mod repair;
mod run;
mod skip;
mod structs;
mod text;
mod walk;

use std::io::{self, BufRead, BufReader, BufWriter, Write};

use line::{Line, Store};
use refusal::Answer;

/// The answer to one case; `None` where the line is no case.
fn answer(line: &[u8], store: &mut Store, out: &mut Vec<u8>) -> Option<Answer> {
    let (call, mut words) = Line::split(line)?;
    match call {
        b'r' => read::with_room_enough(&mut words, store, out),
        b'R' => read::with_numbers(&mut words, store, out),
        b'i' => integer::typed(&mut words, store, out),
        b'I' => integers::of_any_tape(&mut words, store, out),
        b'n' => integers::of_text(&mut words, store, out),
        b'c' => contents::of_one_entry(&mut words, store, out),
        b'C' => contents::of_any_tape(&mut words, store, out),
        b'k' => structs::kind(&mut words, store, out),
        b's' => skip::skip(&mut words, store, out),
        b'w' => walk::of_text(&mut words, store, out),
        b'W' => walk::of_any_tape(&mut words, store, out),
        b'q' => arrivals::in_pieces(&mut words, store, out),
        b'Q' => arrivals::one_call(&mut words, store, out),
        b'p' => repair::of_text(&mut words, store, out),
        b'P' => repair::of_any_tape(&mut words, store, out),
        _ => None,
    }
}

/// Writes the answer line of a case. What a refused call had written before is taken back.
fn tell(line: &[u8], store: &mut Store, out: &mut Vec<u8>) {
    out.clear();
    match answer(line, store, out) {
        Some(Ok(())) => {}
        Some(Err(refusal)) => {
            out.clear();
            refusal.print(out);
        }
        None => {
            out.clear();
            out.extend_from_slice(b"bad");
        }
    }
    out.push(b'\n');
}

fn main() -> io::Result<()> {
    let mut input = BufReader::with_capacity(1 << 20, io::stdin().lock());
    let mut output = BufWriter::with_capacity(1 << 20, io::stdout().lock());
    let (mut line, mut store, mut out) = (Vec::new(), Store::default(), Vec::new());
    store.literal = std::env::args().nth(1).is_some_and(|word| word == "literal");
    while input.read_until(b'\n', &mut line)? > 0 {
        if line.last() == Some(&b'\n') {
            line.pop();
        }
        tell(&line, &mut store, &mut out);
        output.write_all(&out)?;
        line.clear();
    }
    output.flush()
}
