//! Pyramids: how many blocks stand above how many, and finding the way down through them.

use crate::bytes::{get_u32, put_u32};
use crate::shape::{Shape, INDEX};
use std::iter::successors;

/// How many indices one redirector holds: any number from 2 up.
#[derive(Clone, Copy, Debug, PartialEq, Eq)]
pub struct Fan(u64);

impl Fan {
    /// A fan of `f`, if that is at least 2.
    pub fn new(f: u64) -> Option<Fan> {
        (f >= 2).then_some(Fan(f))
    }

    /// The fan of a card's block size, which is at least 64 bytes.
    pub(crate) fn of_block_size(block_size: u64) -> Fan {
        Fan(block_size / INDEX)
    }

    /// The number itself.
    pub fn get(self) -> u64 {
        self.0
    }

    /// The lengths of the rows above d data blocks, the data row first, the top row last.
    pub fn rows(self, d: u64) -> impl Iterator<Item = u64> {
        let data = (d > 0).then_some(d);
        successors(data, move |&row| (row > 1).then(|| row.div_ceil(self.0)))
    }

    /// How many rows of redirectors stand above d data blocks.
    pub fn height(self, d: u64) -> u32 {
        (self.rows(d).count() as u32).saturating_sub(1)
    }

    /// P(d): all blocks of a pyramid over d data blocks.
    pub fn blocks_needed(self, d: u64) -> u64 {
        self.rows(d).fold(0, u64::saturating_add)
    }

    /// The data blocks that a full node of a given height carries.
    pub fn carries(self, height: u32) -> u64 {
        self.0.saturating_pow(height)
    }
}

/// Reads one index out of a redirector.
pub fn slot(card: &[u8], shape: Shape, redirector: u64, slot: u64) -> u64 {
    get_u32(card, slot_at(shape, redirector, slot)).into()
}

/// Writes one index into a redirector.
pub fn set_slot(card: &mut [u8], shape: Shape, redirector: u64, slot: u64, block: u64) {
    put_u32(card, slot_at(shape, redirector, slot), block as u32);
}

fn slot_at(shape: Shape, redirector: u64, slot: u64) -> usize {
    shape.start(redirector) + (slot * INDEX) as usize
}

/// A pyramid on a card: its top block and its number of data blocks.
#[derive(Clone, Copy, Debug, PartialEq, Eq)]
pub struct Pyramid {
    /// The top block; 0 when there are no data blocks, and then it is not looked at.
    pub top: u64,
    /// d, the number of data blocks.
    pub d: u64,
}

impl Pyramid {
    /// Shows every block to `visit` with its height (0 for data), each node before what it
    /// carries and each row from the left. A node that `visit` turns down ends the walk, so
    /// `visit` must turn down an index that is out of range.
    pub fn walk(self, card: &[u8], shape: Shape, visit: &mut impl FnMut(u64, u32) -> bool) -> bool {
        let height = shape.fan().height(self.d);
        self.d == 0 || descend(card, shape, self.top, height, self.d, visit)
    }

    /// The block that holds the stream's data block number `i`, which is below d.
    pub fn data_block(self, card: &[u8], shape: Shape, i: u64) -> u64 {
        let fan = shape.fan();
        let mut block = self.top;
        for height in (0..fan.height(self.d)).rev() {
            block = slot(card, shape, block, i / fan.carries(height) % fan.get());
        }
        block
    }
}

/// One node that carries `d` data blocks, and everything below it.
fn descend(
    card: &[u8],
    shape: Shape,
    block: u64,
    height: u32,
    d: u64,
    visit: &mut impl FnMut(u64, u32) -> bool,
) -> bool {
    if !visit(block, height) {
        return false;
    }
    if height == 0 {
        return true;
    }
    let each = shape.fan().carries(height - 1);
    (0..d.div_ceil(each)).all(|i| {
        let child = slot(card, shape, block, i);
        descend(
            card,
            shape,
            child,
            height - 1,
            each.min(d - i * each),
            visit,
        )
    })
}

#[cfg(test)]
mod tests {
    use super::*;

    fn fan(f: u64) -> Fan {
        Fan::new(f).expect("at least 2")
    }

    #[test]
    fn the_figures_of_the_layout_page() {
        let needs = |d| fan(16).blocks_needed(d);
        assert_eq!([0, 1, 2, 16, 17, 257].map(needs), [0, 1, 3, 17, 20, 277]);
        // Blocks of 10 bytes with 4 indices: sizes 17 and 58.
        let of_size = |size: u64| fan(4).blocks_needed(size.div_ceil(10));
        assert_eq!([17, 58].map(of_size), [3, 9]);
    }

    #[test]
    fn no_fan_below_two() {
        assert_eq!((Fan::new(0), Fan::new(1)), (None, None));
    }

    #[test]
    fn the_height_is_the_least_that_carries_d() {
        for f in [2, 3, 4, 16, 32, 1024] {
            assert_eq!((fan(f).height(0), fan(f).height(1)), (0, 0));
            for d in 2..3000 {
                let height = fan(f).height(d);
                assert!(fan(f).carries(height) >= d, "f {f} d {d}");
                assert!(fan(f).carries(height - 1) < d, "f {f} d {d}");
            }
        }
    }

    #[test]
    fn one_block_more_adds_itself_a_new_top_and_the_missing_redirectors() {
        for f in [2, 3, 4, 16, 32, 1024] {
            for d in 1..3000u64 {
                let (before, after) = (fan(f).height(d), fan(f).height(d + 1));
                let new_top = u64::from(after > before);
                let missing = (0..after).filter(|&h| d % fan(f).carries(h) == 0).count() as u64;
                let grown = fan(f).blocks_needed(d + 1) - fan(f).blocks_needed(d);
                assert_eq!(grown, new_top + missing, "f {f} d {d}");
            }
        }
    }

    #[test]
    fn the_largest_numbers_do_not_overflow() {
        for f in [2, 3, 16, u64::MAX] {
            assert!(fan(f).blocks_needed(u64::MAX) == u64::MAX);
            assert!(fan(f).carries(64) >= u64::MAX / 2);
        }
        assert_eq!(fan(2).height(u64::MAX), 64);
    }
}
