//! The product's calls through its C interface. An answer with the top bit set is a refusal.

// The declarations are the Rust binding's own; not all are called here.
#[allow(dead_code)]
#[rustfmt::skip]
#[path = "../../../bindings/rust/src/raw.rs"]
mod raw;

/// Set in a refusal.
const REFUSED: u64 = 1 << 63;

pub fn is_refused(answer: u64) -> bool {
    answer & REFUSED != 0
}

/// The number of a refusal.
pub fn refusal(answer: u64) -> Option<u32> {
    is_refused(answer).then_some((answer >> 32 & 0xFF) as u32)
}

/// The number of entries.
pub fn read(text: &[u8], tape: &mut [u32]) -> u64 {
    unsafe { raw::sarridok_read(text.as_ptr(), text.len(), tape.as_mut_ptr(), tape.len()) }
}

pub fn walk(text: &[u8], tape: &[u32], count: usize, links: &mut [u32]) -> u64 {
    let (text_len, tape_len, links_len) = (text.len(), tape.len(), links.len());
    unsafe {
        raw::sarridok_walk(text.as_ptr(), text_len, tape.as_ptr(), tape_len, count, 128, links.as_mut_ptr(), links_len)
    }
}

/// A run of bytes from `a` to `b` of a text of `old_len` bytes was replaced.
#[derive(Clone, Copy)]
pub struct Cut {
    pub old_len: usize,
    pub a: usize,
    pub b: usize,
}

/// The number of entries, and how many of them were kept before and behind.
pub fn repair(tape: &mut [u32], count: usize, cut: Cut, text: &[u8]) -> (u64, [u64; 2]) {
    let mut kept = [0; 2];
    let [before, behind] = &mut kept;
    let (tape_len, text_len) = (tape.len(), text.len());
    let Cut { old_len, a, b } = cut;
    let answer = unsafe {
        raw::sarridok_repair(tape.as_mut_ptr(), tape_len, count, old_len, a, b, text.as_ptr(), text_len, before, behind)
    };
    (answer, kept)
}

/// Sign and end, and the magnitude.
pub fn integer(text: &[u8], place: usize, width: u32) -> (u64, u64) {
    let mut magnitude = 0;
    let answer = unsafe { raw::sarridok_integer(text.as_ptr(), text.len(), place, width, &mut magnitude) };
    (answer, magnitude)
}

/// Nothing but whether it is refused; the magnitudes and codes are written.
pub fn integers(
    text: &[u8],
    tape: &[u32],
    count: usize,
    items: &[u32],
    magnitudes: &mut [u64],
    codes: &mut [u8],
) -> u64 {
    unsafe {
        raw::sarridok_integers(
            text.as_ptr(),
            text.len(),
            tape.as_ptr(),
            tape.len(),
            count,
            items.as_ptr(),
            items.len(),
            magnitudes.as_mut_ptr(),
            magnitudes.len(),
            codes.as_mut_ptr(),
            codes.len(),
        )
    }
}

pub fn contents(text: &[u8], tape: &[u32], count: usize, entry: usize) -> u64 {
    unsafe { raw::sarridok_contents(text.as_ptr(), text.len(), tape.as_ptr(), tape.len(), count, entry) }
}

pub fn decoded(text: &[u8], tape: &[u32], count: usize, entry: usize, out: &mut [u8]) -> u64 {
    let (text_len, tape_len, out_len) = (text.len(), tape.len(), out.len());
    unsafe {
        raw::sarridok_decoded(text.as_ptr(), text_len, tape.as_ptr(), tape_len, count, entry, out.as_mut_ptr(), out_len)
    }
}

pub fn struct_kind(text: &[u8], place: usize, newtype: u32, tuple: u32) -> u64 {
    unsafe { raw::sarridok_struct_kind(text.as_ptr(), text.len(), place, newtype, tuple) }
}

/// Numbers of a state, and which of them says how many bytes are kept at the buffer's front.
pub const ARRIVAL: usize = 10;
pub const KEPT: usize = 9;

/// The state before a text's first byte.
pub fn begin(state: &mut [u32; ARRIVAL]) -> u64 {
    unsafe { raw::sarridok_begin(state.as_mut_ptr(), ARRIVAL) }
}

/// Whether it is refused, and the number of entries before that.
pub fn piece(state: &mut [u32; ARRIVAL], buffer: &mut [u8], n: usize, tape: &mut [u32]) -> (u64, u64) {
    let (mut count, buffer_len, tape_len) = (0, buffer.len(), tape.len());
    let (state, buffer, tape) = (state.as_mut_ptr(), buffer.as_mut_ptr(), tape.as_mut_ptr());
    let answer = unsafe { raw::sarridok_piece(state, ARRIVAL, buffer, buffer_len, n, tape, tape_len, &mut count) };
    (answer, count)
}

/// The same of the end.
pub fn finish(state: &[u32; ARRIVAL], buffer: &[u8], tape: &mut [u32]) -> (u64, u64) {
    let (mut count, buffer_len, tape_len) = (0, buffer.len(), tape.len());
    let (state, buffer, tape) = (state.as_ptr(), buffer.as_ptr(), tape.as_mut_ptr());
    let answer = unsafe { raw::sarridok_finish(state, ARRIVAL, buffer, buffer_len, tape, tape_len, &mut count) };
    (answer, count)
}

pub fn skip(text: &[u8]) -> u64 {
    let [mut pre, mut last] = [0; 2];
    unsafe { raw::sarridok_skip(text.as_ptr(), text.len(), 0, 0, 0, &mut pre, &mut last) }
}
