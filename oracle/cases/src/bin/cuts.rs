//! `cuts COUNT PIECES [FROM]`: writes COUNT case lines of the short texts of at most PIECES pieces, cut in every way, from case number FROM on.
//! `cuts PIECES`: how many there are.
use std::io::{self, BufWriter, Write};
use std::process::exit;

use cases::{cuts, line};

fn usage() -> ! {
    eprintln!("cuts COUNT PIECES [FROM], or cuts PIECES");
    exit(2)
}

fn main() -> io::Result<()> {
    let words: Option<Vec<u64>> = std::env::args().skip(1).map(|word| word.parse().ok()).collect();
    let (count, pieces, from) = match words.as_deref() {
        Some([pieces]) => return writeln!(io::stdout(), "{}", cuts::all(*pieces as u32, 0).count()),
        Some([count, pieces]) => (*count, *pieces, 0),
        Some([count, pieces, from]) => (*count, *pieces, *from),
        _ => usage(),
    };
    let mut out = BufWriter::with_capacity(1 << 20, io::stdout().lock());
    let mut case = Vec::new();
    for cut in cuts::all(pieces as u32, from).take(count as usize) {
        case.clear();
        line::pieces(&mut case, &cut);
        case.push(b'\n');
        out.write_all(&case)?;
    }
    out.flush()
}
