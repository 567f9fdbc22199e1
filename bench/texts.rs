//! texts: the names of the benchmark's texts, a line each. texts KIND SIZE: the text of that kind, of at most so many bytes.
//! One file for rustc alone: no archive, no crate.
#[path = "rust/src/texts.rs"]
#[allow(dead_code)]
mod texts;

use std::io::Write;

fn main() {
    let words: Vec<String> = std::env::args().skip(1).collect();
    let mut all = texts::KINDS.iter().chain([&texts::SHORT, &texts::NODES]).chain(texts::RECORDS).chain(texts::WORST).chain(texts::ARRIVING);
    match &words[..] {
        [] => all.for_each(|kind| println!("{}", kind.name)),
        [name, size] => {
            let Some(kind) = all.find(|kind| kind.name == name) else {
                eprintln!("texts: no kind '{name}'; without a word the kinds are listed");
                std::process::exit(2);
            };
            let text = kind.text(size.parse().expect("no number of bytes"));
            std::io::stdout().write_all(&text).expect("standard output is closed");
        }
        _ => panic!("usage: texts [KIND SIZE]"),
    }
}
