//! `laid COUNT SEED`: texts that `laid.rs`, `fields.rs` and `many.rs` lay out and the answers that their tapes say, as lines of `corners.txt`.
use std::io::{self, Write};

use cases::{fields, laid, line, many, random::Random, tapes::WIDTH};

fn main() -> io::Result<()> {
    let mut words = std::env::args().skip(1).map(|word| word.parse::<u64>().unwrap_or(0));
    let (count, seed) = (words.next().unwrap_or(0), words.next().unwrap_or(0));
    for n in 0..count {
        let mut r = Random::of_case(seed, n);
        let laid = match n % 3 {
            0 => {
                let entries = r.below(30);
                laid::text(&mut r, entries)
            }
            1 => {
                let entries = r.below(30);
                many::laid(&mut r, entries)
            }
            _ => {
                let tokens = fields::document(&mut r);
                fields::laid(&mut r, &tokens)
            }
        };
        let mut corner = Vec::new();
        line::read(&mut corner, &laid.text);
        write!(corner, "\tok {}", laid.tape.len() / WIDTH)?;
        for row in laid.tape.chunks_exact(WIDTH) {
            let numbers: Vec<String> = row.iter().map(u32::to_string).collect();
            write!(corner, ";{}", numbers.join(" "))?;
        }
        corner.extend_from_slice(b"\t\n");
        io::stdout().write_all(&corner)?;
    }
    Ok(())
}
