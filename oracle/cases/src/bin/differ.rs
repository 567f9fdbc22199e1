//! `differ CASES ORACLE PRODUCT MOST FROM`: prints at most MOST differences of two files of answers,
//! then how many there are. The first case has the number FROM.
use std::fs::File;
use std::io::{self, BufRead, BufReader};

/// The longest line that is printed whole.
const LONGEST: usize = 200;

fn lines(path: &str) -> io::Result<BufReader<File>> {
    Ok(BufReader::with_capacity(1 << 20, File::open(path)?))
}

fn next(from: &mut BufReader<File>) -> io::Result<Option<String>> {
    let mut line = Vec::new();
    if from.read_until(b'\n', &mut line)? == 0 {
        return Ok(None);
    }
    let line = String::from_utf8_lossy(&line);
    Ok(Some(line.trim_end_matches('\n').to_string()))
}

fn cut(line: &str) -> String {
    if line.len() <= LONGEST {
        return line.to_string();
    }
    let front: String = line.chars().take(LONGEST).collect();
    format!("{front}.. ({} bytes)", line.len())
}

/// The text of a case, to be read by people: the word that holds it, out of hex.
fn readable(case: &str) -> String {
    let word = match case.bytes().next() {
        Some(b'r' | b'n') => 1,
        Some(b'R' | b'w' | b'q') => 2,
        Some(b'i' | b'c') => 3,
        Some(b'k' | b's' | b'C' | b'p' | b'W' | b'Q') => 4,
        _ => 5,
    };
    let hex = case.split(' ').nth(word).unwrap_or("");
    let bytes: Vec<u8> = hex
        .as_bytes()
        .chunks(2)
        .filter_map(|pair| u8::from_str_radix(std::str::from_utf8(pair).ok()?, 16).ok())
        .collect();
    String::from_utf8_lossy(&bytes).escape_debug().to_string()
}

fn show(number: u64, case: &str, oracle: Option<&String>, product: Option<&String>) {
    let answer = |line: Option<&String>| line.map_or("(no answer)".to_string(), |l| cut(l));
    println!("case {number}: {}", cut(case));
    println!("  text    {}", cut(&readable(case)));
    println!("  oracle  {}", answer(oracle));
    println!("  product {}", answer(product));
}

fn main() -> io::Result<()> {
    let words: Vec<String> = std::env::args().skip(1).collect();
    let [cases, oracle, product, most, from] = words.as_slice() else {
        eprintln!("differ CASES ORACLE PRODUCT MOST FROM");
        std::process::exit(2)
    };
    let (most, from): (u64, u64) = (most.parse().unwrap_or(0), from.parse().unwrap_or(0));
    let (mut cases, mut oracle, mut product) = (lines(cases)?, lines(oracle)?, lines(product)?);
    let (mut number, mut differ) = (from, 0);
    while let Some(case) = next(&mut cases)? {
        let (a, b) = (next(&mut oracle)?, next(&mut product)?);
        if a.is_none() || a != b {
            if differ < most {
                show(number, &case, a.as_ref(), b.as_ref());
            }
            differ += 1;
        }
        number += 1;
    }
    while let Some(answer) = next(&mut product)? {
        if differ < most {
            println!("an answer to no case: {}", cut(&answer));
        }
        differ += 1;
    }
    println!("{differ}");
    Ok(())
}
