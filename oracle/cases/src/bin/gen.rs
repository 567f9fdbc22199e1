//! `gen COUNT SEED CALLS [FROM]`: writes COUNT case lines for the letters in CALLS, from case number FROM on.
use std::io::{self, BufWriter, Write};
use std::process::exit;

use cases::generator::case;

fn usage() -> ! {
    eprintln!("gen COUNT SEED CALLS [FROM]");
    exit(2)
}

fn number(word: Option<&String>) -> Option<u64> {
    word.and_then(|w| w.parse().ok())
}

fn main() -> io::Result<()> {
    let words: Vec<String> = std::env::args().skip(1).collect();
    let (Some(count), Some(seed)) = (number(words.first()), number(words.get(1))) else { usage() };
    let calls = words.get(2).filter(|c| !c.is_empty()).unwrap_or_else(|| usage());
    let from = number(words.get(3)).unwrap_or(0);
    let mut out = BufWriter::with_capacity(1 << 20, io::stdout().lock());
    let mut line = Vec::new();
    for n in from..from + count {
        line.clear();
        case(seed, n, calls.as_bytes(), &mut line);
        line.push(b'\n');
        out.write_all(&line)?;
    }
    out.flush()
}
