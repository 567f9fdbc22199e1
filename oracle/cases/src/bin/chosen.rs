//! `chosen CALLS`: writes the cases chosen by hand for the letters in CALLS.
use std::io::{self, Write};

use cases::chosen::lines;

fn main() -> io::Result<()> {
    let calls = std::env::args().nth(1).unwrap_or_default();
    for call in calls.bytes() {
        io::stdout().write_all(&lines(call).text)?;
    }
    Ok(())
}
