//! The two files of the table. Both hold the same numbers, and a proof holds one against the other.
use std::fmt::Write;

use crate::rows::Row;

const WRITTEN_BY: &str = "written by oracle/table.";
const ROWS: &str = "rows of three numbers: a range's first and last code point, \
    and its class, 1 for XID_Start and 2 for XID_Continue added up.";

/// As many numbers on a line as have room there, as the language's formatter (`rt fmt`) wants it.
fn filled(numbers: &[String]) -> String {
    const WIDTH: usize = 100;
    let mut text = String::new();
    let mut line = String::from("   ");
    for number in numbers {
        if line.len() + 1 + number.len() + 1 > WIDTH {
            text.push_str(&line);
            text.push('\n');
            line = String::from("   ");
        }
        let _ = write!(line, " {number},");
    }
    text + &line + "\n"
}

/// `src/table.rt`.
pub fn code(title: &str, rows: &[Row]) -> String {
    let numbers: Vec<String> = rows
        .iter()
        .flat_map(|row| [format!("{:#x}", row.first), format!("{:#x}", row.last), row.class.to_string()])
        .collect();
    let mut text = format!("// {title}; {WRITTEN_BY}\n// {} {ROWS}\n", rows.len());
    text.push_str("ghost use Rattle.std.specs.Prelude.{◌≡◌};\nghost use Rattle.xid.specs.Table.{table as rows};\n\n");
    let _ = writeln!(text, "const TABLE: [u32; {}] = [", numbers.len());
    text.push_str(&filled(&numbers));
    text.push_str("];\n\n// The table, to be lent: it is built on the stack at each call.\n");
    let _ = writeln!(text, "pub fn table() -> [u32; {}]\n    ensures {{ result ≡ rows }}", numbers.len());
    text.push_str("{\n    TABLE\n}\n");
    text
}

/// `specs/Table.antt`: one row on a line.
pub fn definitions(title: &str, rows: &[Row]) -> String {
    let mut text = format!("-- {title}; {WRITTEN_BY}\n-- R{}\n", &ROWS[1..]);
    text.push_str("use Rattle.std.specs.Prelude.{ℕ, List, [], ◌∷◌}\n\n");
    text.push_str("unfoldable pub table : List ℕ\ntable =\n    ");
    for row in rows {
        let _ = write!(text, "{:#x} ∷ {:#x} ∷ {}\n    ∷ ", row.first, row.last, row.class);
    }
    text.push_str("[]\n");
    text
}
