//! Bytes to judge as UTF-8.
use crate::damage::NOT_UTF8;

/// RFC 3629, section 7, and the edges of section 3's table.
const GOOD: &[&[u8]] = &[
    b"\x41\xe2\x89\xa2\xce\x91\x2e", b"\xed\x95\x9c\xea\xb5\xad\xec\x96\xb4", b"\xe6\x97\xa5\xe6\x9c\xac\xe8\xaa\x9e",
    b"\xef\xbb\xbf\xf0\xa3\x8e\xb4", b"\x00", b"\x7f", b"\xc2\x80", b"\xdf\xbf", b"\xe0\xa0\x80", b"\xed\x9f\xbf",
    b"\xee\x80\x80", b"\xef\xbf\xbf", b"\xf0\x90\x80\x80", b"\xf4\x8f\xbf\xbf",
];

/// Section 10's overlong forms and a pair of surrogates; second, third and fourth bytes out of their ranges.
const BAD: &[&[u8]] = &[
    b"\x2f\xc0\xae\x2e\x2f", b"\xed\xa1\x8c\xed\xbe\xb4", b"\xc2\x7f", b"\xc2\xc0", b"\xdf\x00", b"\xe0\xa0\x7f",
    b"\xe0\xc0\x80", b"\xe1\x7f\x80", b"\xef\xbf\xc0", b"\xf0\x90\x80\x7f", b"\xf0\x90\xc0\x80", b"\xf1\x7f\x80\x80",
    b"\xf3\xbf\xbf\xff", b"\xf4\x8f\xbf\xc0", b"\xf6\x80\x80\x80", b"\xf7\xbf\xbf\xbf", b"\xf9",
    b"\xfb\xbf\xbf\xbf\xbf", b"\xfd\xbf\xbf\xbf\xbf\xbf",
];

/// Good and bad sequences alone, behind something, and with something behind them.
pub fn texts(front: &str, back: &str) -> Vec<Vec<u8>> {
    let mut texts = Vec::new();
    for bytes in GOOD.iter().chain(BAD).chain(NOT_UTF8) {
        texts.push(bytes.to_vec());
        texts.push([front.as_bytes(), bytes].concat());
        texts.push([front.as_bytes(), bytes, back.as_bytes()].concat());
    }
    texts
}
