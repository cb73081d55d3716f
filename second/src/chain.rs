//! The free chain: taking a block from its head, putting blocks back before it.

use crate::bytes::{get_u32, get_u64, put_u32, put_u64, NONE_4, NONE_8};
use crate::shape::{Shape, FIRST_FREE_AT};

/// The first free block as the header names it, all FF if there is none.
pub fn first(card: &[u8]) -> u64 {
    get_u64(card, FIRST_FREE_AT)
}

/// Names another first free block in the header.
pub fn set_first(card: &mut [u8], block: u64) {
    put_u64(card, FIRST_FREE_AT, block);
}

/// The free block after this one, all FF (8 bytes wide) at the chain's end.
pub fn next(card: &[u8], shape: Shape, block: u64) -> u64 {
    match get_u32(card, shape.start(block)) {
        NONE_4 => NONE_8,
        link => link.into(),
    }
}

/// Makes a free block name the one after it, which may be all FF.
pub fn set_next(card: &mut [u8], shape: Shape, block: u64, next: u64) {
    // The lower half of 8 FF is 4 FF, so that the chain's end narrows like any index.
    put_u32(card, shape.start(block), next as u32);
}

/// Takes the chain's head and zeroes it whole. The caller has asked for room before.
pub fn take(card: &mut [u8], shape: Shape) -> u64 {
    let block = first(card);
    set_first(card, next(card, shape, block));
    card[shape.span(block)].fill(0);
    block
}

/// Puts one stream's blocks, sorted rising, before the old chain.
pub fn put_back(card: &mut [u8], shape: Shape, mut blocks: Vec<u64>) {
    blocks.sort_unstable();
    let mut following = first(card);
    for &block in blocks.iter().rev() {
        set_next(card, shape, block, following);
        following = block;
    }
    set_first(card, following);
}
