//! The 87 bytes before block 0: which of them are fixed, and what they hold.

use crate::shape::{FIRST_FREE_AT, HEADER, S_AT, TABLE_AT};
use std::ops::Range;

/// The header with zeros in its three changing parts (s, first free block, table descriptor).
pub const TEMPLATE: [u8; HEADER] = template();

/// The bytes that never differ from the template, around the changing parts.
pub const FIXED: [Range<usize>; 4] = [
    0..S_AT,
    S_AT + 1..FIRST_FREE_AT,
    FIRST_FREE_AT + 8..TABLE_AT,
    TABLE_AT + 25..HEADER,
];

const fn template() -> [u8; HEADER] {
    let mut out = [0; HEADER];
    put(&mut out, 0, b"YAK1\x01");
    put(&mut out, 5, &(HEADER as u16).to_le_bytes());
    put(&mut out, 7, b"\x07\x00memory\x01");
    put(&mut out, 16, b"\x12\x00blocks\x01");
    out[26] = 4; // index width
    put(&mut out, 36, b"\x20\x00stream\x01");
    put(&mut out, 70, b"\x0F\x00filing\x01");
    out
}

const fn put(out: &mut [u8; HEADER], at: usize, bytes: &[u8]) {
    let mut i = 0;
    while i < bytes.len() {
        out[at + i] = bytes[i];
        i += 1;
    }
}
