//! A card's shape (block size and block count), and every limit and place by name, once.

use crate::pyramid::Fan;
use std::ops::Range;

/// Bytes before block 0.
pub const HEADER: usize = 87;
/// Where the header keeps s.
pub const S_AT: usize = 25;
/// Where the header keeps the first free block, 8 bytes.
pub const FIRST_FREE_AT: usize = 27;
/// Where the header keeps the stream table's descriptor.
pub const TABLE_AT: usize = 45;

/// The least s; a block has 2^s bytes.
pub const LEAST_S: u64 = 6;
/// The greatest s.
pub const MOST_S: u64 = 12;
/// The most blocks a card may have.
pub const MOST_BLOCKS: u64 = 4096;
/// The most descriptors a table may have, the root's included.
pub const MOST_DESCRIPTORS: u64 = 256;

/// The longest name.
pub const MOST_NAME: usize = 64;
/// The one byte no name may hold, "/".
pub const SLASH: u8 = 47;
/// The shortest tray a listing accepts.
pub const LIST_TRAY: usize = 64;

/// Bytes of a block index in a redirector or in a free block's link.
pub const INDEX: u64 = 4;
/// Bytes of a descriptor.
pub const DESCRIPTOR: usize = 25;
/// Bytes before the first descriptor in the table.
pub const TABLE_HEAD: usize = 8;
/// Bytes of an entry before its name.
pub const ENTRY_HEAD: usize = 6;

/// Block size and block count, both within the limits.
#[derive(Clone, Copy, Debug, PartialEq, Eq)]
pub struct Shape {
    s: u32,
    count: u64,
}

impl Shape {
    /// The shape of a card of `length` bytes with blocks of 2^s bytes, if it is a good one.
    pub fn of(s: u64, length: usize) -> Option<Shape> {
        if !(LEAST_S..=MOST_S).contains(&s) {
            return None;
        }
        let rest = length.checked_sub(HEADER)? as u64;
        let s = s as u32;
        let count = rest >> s;
        let whole = count << s == rest;
        (whole && (1..=MOST_BLOCKS).contains(&count)).then_some(Shape { s, count })
    }

    /// s itself.
    pub fn s(self) -> u32 {
        self.s
    }

    /// Bytes of one block.
    pub fn block_size(self) -> u64 {
        1 << self.s
    }

    /// How many blocks the card has.
    pub fn count(self) -> u64 {
        self.count
    }

    /// How many indices one redirector holds.
    pub fn fan(self) -> Fan {
        Fan::of_block_size(self.block_size())
    }

    /// Where a block starts in the card.
    pub fn start(self, block: u64) -> usize {
        HEADER + (block << self.s) as usize
    }

    /// Where a block lies in the card.
    pub fn span(self, block: u64) -> Range<usize> {
        let start = self.start(block);
        start..start + self.block_size() as usize
    }

    /// d: the data blocks of a stream of `size` bytes.
    pub fn data_blocks(self, size: u64) -> u64 {
        size.div_ceil(self.block_size())
    }

    /// P of a size in bytes: data blocks and every redirector above them.
    pub fn blocks_needed(self, size: u64) -> u64 {
        self.fan().blocks_needed(self.data_blocks(size))
    }

    /// The blocks a stream must take to grow from one size to another that is not below it.
    pub fn growth(self, before: u64, after: u64) -> u64 {
        self.blocks_needed(after) - self.blocks_needed(before)
    }
}

#[cfg(test)]
mod tests {
    use super::*;

    #[test]
    fn only_whole_blocks_make_a_shape() {
        for s in LEAST_S..=MOST_S {
            let block = 1usize << s;
            for count in [1, 2, 4095, 4096] {
                let length = HEADER + count * block;
                let shape = Shape::of(s, length).expect("a good shape");
                assert_eq!((shape.s() as u64, shape.count()), (s, count as u64));
                assert_eq!(shape.span(count as u64 - 1).end, length);
                assert_eq!(Shape::of(s, length - 1), None);
                assert_eq!(Shape::of(s, length + 1), None);
            }
            assert_eq!(Shape::of(s, HEADER), None);
            assert_eq!(Shape::of(s, HEADER + 4097 * block), None);
        }
    }

    #[test]
    fn s_is_a_whole_number_of_64_bits() {
        for s in [0, 5, 13, 63, 64, 255, 256 + 6, u64::MAX] {
            assert_eq!(Shape::of(s, HEADER + 4096), None, "s = {s}");
        }
        for length in [0, 1, 86, usize::MAX] {
            assert_eq!(Shape::of(6, length), None, "length = {length}");
        }
    }
}
