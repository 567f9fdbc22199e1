//! `every COUNT PLACES [FROM]`: writes COUNT case lines of every scalar value at the places named, from case number FROM on.
use std::io::{self, BufWriter, Write};
use std::process::exit;

use cases::every::{case, SCALARS};

fn usage() -> ! {
    eprintln!("every COUNT PLACES [FROM]");
    exit(2)
}

fn main() -> io::Result<()> {
    let words: Vec<String> = std::env::args().skip(1).collect();
    let number = |n: usize| words.get(n).and_then(|w| w.parse::<u64>().ok());
    let (Some(count), Some(places)) = (number(0), words.get(1)) else { usage() };
    let from = number(2).unwrap_or(0);
    let mut out = BufWriter::with_capacity(1 << 20, io::stdout().lock());
    let mut line = Vec::new();
    for n in from..from + count {
        let place = *places.as_bytes().get((n / SCALARS) as usize).unwrap_or_else(|| usage());
        line.clear();
        case(place, n % SCALARS, &mut line);
        line.push(b'\n');
        out.write_all(&line)?;
    }
    out.flush()
}
