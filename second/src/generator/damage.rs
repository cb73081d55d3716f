//! A card with one thing wrong, or nearly: aimed at the places where rules look.

use super::dice::Dice;
use super::layout::{byte_at, slot_at, Layout, Rows};
use crate::bytes::{put_u32, put_u64};

/// Changes one thing on the card; it may be sound afterwards all the same. A card that is not
/// sound before gets random bytes in a few places.
pub fn damage(card: &mut Vec<u8>, dice: &mut Dice) {
    let Some(layout) = Layout::read(card) else {
        for _ in 0..1 + dice.below(4) {
            any_byte(card, dice);
        }
        return;
    };
    match dice.below(10) {
        0 => length(card, &layout, dice),
        1 => byte_in(card, 0, 87, dice),
        2 => put_u64(card, 27, number(&layout, dice)),
        3 => field(card, 45, &layout, dice),
        4 | 5 => descriptor(card, &layout, dice),
        6 => slot(card, &layout, dice),
        7 => link(card, &layout, dice),
        8 => entry(card, &layout, dice),
        _ => any_byte(card, dice),
    }
}

/// A number that a rule might mistake for a good one.
fn number(layout: &Layout, dice: &mut Dice) -> u64 {
    let count = layout.shape.count();
    match dice.below(8) {
        0 => u64::MAX,
        1 => u32::MAX.into(),
        2 => count,
        3 => (1 << 32) + dice.below(count),
        4 => 8 + 25 * dice.below(257),
        5 => dice.roll(),
        6 => dice.below(count + 1) * layout.shape.block_size(),
        _ => dice.below(count),
    }
}

fn any_byte(card: &mut [u8], dice: &mut Dice) {
    byte_in(card, 0, card.len(), dice);
}

fn byte_in(card: &mut [u8], from: usize, to: usize, dice: &mut Dice) {
    let at = from + dice.below((to - from) as u64) as usize;
    if let Some(byte) = card.get_mut(at) {
        *byte = dice.roll() as u8;
    }
}

/// Cuts off or adds a few bytes or a block, or cuts into the header.
fn length(card: &mut Vec<u8>, layout: &Layout, dice: &mut Dice) {
    let step = match dice.below(3) {
        0 => 1,
        1 => layout.shape.block_size() as usize,
        _ => dice.below(300) as usize,
    };
    match dice.below(5) {
        0 => card.truncate(dice.below(88) as usize),
        1 | 2 => card.resize(card.len() + step, 0),
        _ => card.truncate(card.len().saturating_sub(step)),
    }
}

/// One field of the descriptor whose 25 bytes start here.
fn field(card: &mut [u8], at: usize, layout: &Layout, dice: &mut Dice) {
    match dice.below(4) {
        3 => card[at + 24] = dice.roll() as u8,
        which => put_u64(card, at + 8 * which as usize, number(layout, dice)),
    }
}

/// A field of a descriptor in the table, or the offset of the first free one.
fn descriptor(card: &mut [u8], layout: &Layout, dice: &mut Dice) {
    let mut table = layout.table_bytes();
    if dice.one_in(6) {
        put_u64(&mut table, 0, number(layout, dice));
    } else {
        let index = dice.below(layout.descriptors()) as usize;
        field(&mut table, 8 + 25 * index, layout, dice);
    }
    for (offset, byte) in table.into_iter().enumerate() {
        card[byte_at(layout.shape, &layout.table, offset)] = byte;
    }
}

/// All pyramids with a redirector.
fn tall(layout: &Layout) -> Vec<&Rows> {
    let held = layout.streams.values().map(|held| &held.rows);
    let all = [&layout.table, &layout.root].into_iter().chain(held);
    all.filter(|rows| rows.len() > 1).collect()
}

fn slot(card: &mut [u8], layout: &Layout, dice: &mut Dice) {
    let tall = tall(layout);
    if let Some(rows) = dice.pick(&tall) {
        let below = dice.below(rows.len() as u64 - 1) as usize;
        let i = dice.below(rows[below].len() as u64) as usize;
        let at = slot_at(layout.shape, rows, below, i);
        put_u32(card, at, number(layout, dice) as u32);
    }
}

fn link(card: &mut [u8], layout: &Layout, dice: &mut Dice) {
    let chain: Vec<u64> = layout.chain.iter().copied().collect();
    if let Some(&block) = dice.pick(&chain) {
        put_u32(card, layout.shape.start(block), number(layout, dice) as u32);
    }
}

/// A byte of the root, often one of an entry's first six.
fn entry(card: &mut [u8], layout: &Layout, dice: &mut Dice) {
    let mut starts = vec![0];
    for (_, name) in &layout.entries {
        starts.push(starts[starts.len() - 1] + 6 + name.len());
    }
    let size = starts.pop().unwrap_or(0);
    let head = dice
        .pick(&starts)
        .map_or(0, |at| at + dice.below(6) as usize);
    let anywhere = dice.below(size as u64) as usize;
    let offset = if dice.one_in(3) { anywhere } else { head };
    if offset < size {
        let at = byte_at(layout.shape, &layout.root, offset);
        card[at] = [0, 1, 2, 47, 64, 65, 255, dice.roll() as u8][dice.below(8) as usize];
    }
}
