//! The archive's functions, as `bindings/c/sarridok.h` has them. A slice is a pointer and a length.

extern "C" {
    pub fn sarridok_version() -> u32;
    pub fn sarridok_read(text: *const u8, text_len: usize, tape: *mut u32, tape_len: usize) -> u64;
    pub fn sarridok_walk(
        text: *const u8,
        text_len: usize,
        tape: *const u32,
        tape_len: usize,
        count: usize,
        limit: usize,
        links: *mut u32,
        links_len: usize,
    ) -> u64;
    pub fn sarridok_repair(
        tape: *mut u32,
        tape_len: usize,
        count: usize,
        old_len: usize,
        a: usize,
        b: usize,
        text: *const u8,
        text_len: usize,
        before: *mut u64,
        behind: *mut u64,
    ) -> u64;
    pub fn sarridok_integer(text: *const u8, text_len: usize, place: usize, width: u32, magnitude: *mut u64) -> u64;
    pub fn sarridok_integers(
        text: *const u8,
        text_len: usize,
        tape: *const u32,
        tape_len: usize,
        count: usize,
        items: *const u32,
        items_len: usize,
        magnitudes: *mut u64,
        magnitudes_len: usize,
        codes: *mut u8,
        codes_len: usize,
    ) -> u64;
    pub fn sarridok_contents(text: *const u8, text_len: usize, tape: *const u32, tape_len: usize, count: usize, entry: usize) -> u64;
    pub fn sarridok_decoded(
        text: *const u8,
        text_len: usize,
        tape: *const u32,
        tape_len: usize,
        count: usize,
        entry: usize,
        out: *mut u8,
        out_len: usize,
    ) -> u64;
    pub fn sarridok_struct_kind(text: *const u8, text_len: usize, place: usize, newtype: u32, tuple: u32) -> u64;
    pub fn sarridok_skip(
        text: *const u8,
        text_len: usize,
        cursor: usize,
        pre_ws_cursor: usize,
        last_ws_len: usize,
        new_pre_ws_cursor: *mut u64,
        new_last_ws_len: *mut u64,
    ) -> u64;
    pub fn sarridok_begin(state: *mut u32, state_len: usize) -> u64;
    pub fn sarridok_piece(
        state: *mut u32,
        state_len: usize,
        buffer: *mut u8,
        buffer_len: usize,
        n: usize,
        tape: *mut u32,
        tape_len: usize,
        count: *mut u64,
    ) -> u64;
    pub fn sarridok_finish(
        state: *const u32,
        state_len: usize,
        buffer: *const u8,
        buffer_len: usize,
        tape: *mut u32,
        tape_len: usize,
        count: *mut u64,
    ) -> u64;
}
