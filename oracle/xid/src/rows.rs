//! The rows of the table: the largest runs of code points with the same two answers.
use unicode_ident::{is_xid_continue, is_xid_start};

pub struct Row {
    pub first: u32,
    pub last: u32,
    pub class: u32,
}

/// 1 for XID_Start and 2 for XID_Continue added up; a surrogate is no character.
fn class(code: u32) -> u32 {
    char::from_u32(code).map_or(0, |c| u32::from(is_xid_start(c)) + 2 * u32::from(is_xid_continue(c)))
}

pub fn rows() -> Vec<Row> {
    let mut rows: Vec<Row> = Vec::new();
    for code in 0..=u32::from(char::MAX) {
        match (class(code), rows.last_mut()) {
            (0, _) => {}
            (class, Some(row)) if row.class == class && row.last + 1 == code => row.last = code,
            (class, _) => rows.push(Row { first: code, last: code, class }),
        }
    }
    rows
}
