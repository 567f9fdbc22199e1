//! A case line: the call's letter, then words.
use crate::arrivals::{Call, Cut};
use crate::edits::Edit;
use crate::many::Many;
use crate::repairs::Repair;
use crate::walks::Walk;

/// Appends ` ` and the number.
pub fn number(line: &mut Vec<u8>, n: u64) {
    line.push(b' ');
    line.extend_from_slice(n.to_string().as_bytes());
}

/// Appends ` ` and the bytes in hex, `-` for none.
pub fn bytes(line: &mut Vec<u8>, bytes: &[u8]) {
    const DIGITS: &[u8; 16] = b"0123456789abcdef";
    line.push(b' ');
    if bytes.is_empty() {
        line.push(b'-');
    }
    for b in bytes {
        line.push(DIGITS[usize::from(b >> 4)]);
        line.push(DIGITS[usize::from(b & 15)]);
    }
}

/// Appends ` ` and the numbers with commas, `-` for none.
pub fn tape(line: &mut Vec<u8>, tape: &[u32]) {
    line.push(b' ');
    let numbers: Vec<String> = tape.iter().map(u32::to_string).collect();
    match numbers.len() {
        0 => line.push(b'-'),
        _ => line.extend_from_slice(numbers.join(",").as_bytes()),
    }
}

/// `s CURSOR PRE LEN HEX`; the largest length is the mark.
pub fn skip(line: &mut Vec<u8>, cursor: u64, pre: u64, len: u64, text: &[u8]) {
    line.push(b's');
    number(line, cursor);
    number(line, pre);
    match len {
        u64::MAX => line.extend_from_slice(b" mark"),
        _ => number(line, len),
    }
    bytes(line, text);
}

/// `i WIDTH PLACE HEX`.
pub fn integer(line: &mut Vec<u8>, width: u64, place: u64, text: &[u8]) {
    line.push(b'i');
    number(line, width);
    number(line, place);
    bytes(line, text);
}

/// `I LISTROOM CODEROOM COUNT E,E,.. HEX N,N,..`.
pub fn integers_of(line: &mut Vec<u8>, many: &Many) {
    line.push(b'I');
    number(line, many.rooms[0]);
    number(line, many.rooms[1]);
    number(line, many.count);
    tape(line, &many.list);
    bytes(line, &many.text);
    tape(line, &many.tape);
}

/// `n HEX`.
pub fn integers(line: &mut Vec<u8>, text: &[u8]) {
    line.push(b'n');
    bytes(line, text);
}

/// `c KIND START HEX`.
pub fn contents(line: &mut Vec<u8>, kind: u32, start: u32, text: &[u8]) {
    line.push(b'c');
    number(line, kind.into());
    number(line, start.into());
    bytes(line, text);
}

/// `C ENTRY COUNT BUFFER HEX N,N,..`.
pub fn contents_of(line: &mut Vec<u8>, entry: u64, count: u64, buffer: u64, text: &[u8], numbers: &[u32]) {
    line.push(b'C');
    number(line, entry);
    number(line, count);
    number(line, buffer);
    bytes(line, text);
    tape(line, numbers);
}

/// `k NEWTYPE TUPLE PLACE HEX`.
pub fn struct_kind(line: &mut Vec<u8>, modes: [u64; 2], place: u64, text: &[u8]) {
    line.push(b'k');
    number(line, modes[0]);
    number(line, modes[1]);
    number(line, place);
    bytes(line, text);
}

/// `r HEX`.
pub fn read(line: &mut Vec<u8>, text: &[u8]) {
    line.push(b'r');
    bytes(line, text);
}

/// `R NUMBERS HEX`.
pub fn read_into(line: &mut Vec<u8>, numbers: u64, text: &[u8]) {
    line.push(b'R');
    number(line, numbers);
    bytes(line, text);
}

/// `w LIMIT HEX`.
pub fn walk(line: &mut Vec<u8>, limit: u64, text: &[u8]) {
    line.push(b'w');
    number(line, limit);
    bytes(line, text);
}

/// `W LIMIT LINKS COUNT HEX N,N,..`.
pub fn walk_of(line: &mut Vec<u8>, walk: &Walk) {
    line.push(b'W');
    number(line, walk.limit);
    number(line, walk.links);
    number(line, walk.count);
    bytes(line, &walk.text);
    tape(line, &walk.tape);
}

/// `p A B NEWHEX HEX`.
pub fn edit(line: &mut Vec<u8>, edit: &Edit) {
    line.push(b'p');
    number(line, edit.from as u64);
    number(line, edit.to as u64);
    bytes(line, &edit.put);
    bytes(line, &edit.text);
}

/// `P COUNT OLDLEN A B HEX N,N,..`.
pub fn repair(line: &mut Vec<u8>, repair: &Repair) {
    line.push(b'P');
    number(line, repair.count);
    number(line, repair.old_length);
    number(line, repair.from);
    number(line, repair.to);
    bytes(line, &repair.new);
    tape(line, &repair.tape);
}

/// `q CUTS HEX`.
pub fn pieces(line: &mut Vec<u8>, cut: &Cut) {
    line.push(b'q');
    tape(line, &cut.lengths);
    bytes(line, &cut.text);
}

/// `Q NUMBERS STATE KEPT PIECE`; the end in the place of a piece is `end`.
pub fn piece(line: &mut Vec<u8>, call: &Call) {
    line.push(b'Q');
    number(line, call.numbers);
    let state = call.state.numbers().map(|n| n.to_string());
    line.push(b' ');
    line.extend_from_slice(state.join(",").as_bytes());
    bytes(line, &call.kept);
    match &call.piece {
        Some(piece) => bytes(line, piece),
        None => line.extend_from_slice(b" end"),
    }
}
