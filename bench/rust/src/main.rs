//! What the product's calls cost beside the crate's, in one process. `versus` prints the tables; `versus count CALL KIND SIZE` makes
//! one call inside the function `versus_measured`, for a program that counts instructions; `versus kinds`, `versus worst` and `versus arriving` name the kinds.
#[path = "../../../oracle/driver/src/contents.rs"]
#[allow(dead_code)]
mod contents;
#[path = "../../../oracle/driver/src/integer.rs"]
#[allow(dead_code)]
mod integer;
#[path = "../../../oracle/driver/src/line.rs"]
#[allow(dead_code)]
mod line;
#[path = "../../../oracle/driver/src/read.rs"]
#[allow(dead_code)]
mod read;
#[path = "../../../oracle/driver/src/refusal.rs"]
#[allow(dead_code)]
mod refusal;
#[path = "../../../oracle/driver/src/run.rs"]
#[allow(dead_code)]
mod run;
#[path = "../../../oracle/driver/src/text.rs"]
mod text;

mod arrivals;
mod calls;
mod clock;
mod count;
mod edits;
mod growth;
mod lists;
mod ours;
mod reading;
mod sides;
mod texts;
mod theirs;

fn main() {
    let words: Vec<String> = std::env::args().skip(1).collect();
    let words: Vec<&str> = words.iter().map(String::as_str).collect();
    match words[..] {
        [] => {
            reading::table();
            calls::tables();
            growth::tables();
        }
        ["read"] => reading::table(),
        ["calls"] => calls::tables(),
        ["growth"] => growth::tables(),
        ["arrivals"] => growth::arriving(),
        ["kinds"] => count::kinds(),
        ["worst"] => count::worst(),
        ["arriving"] => count::arriving(),
        ["count", call, kind, size] => count::one(call, kind, size),
        _ => {
            eprintln!(
                "usage: versus [read | calls | growth | arrivals | kinds | worst | arriving | count CALL KIND SIZE]"
            );
            std::process::exit(2);
        }
    }
}
