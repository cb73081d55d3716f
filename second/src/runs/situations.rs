//! Five cards, and on each every call with all its arguments (R8, R9).

use super::call::{Call, Which};
use super::damage::Damage;
use super::random::{begin, write_ones};
use super::Table;

/// Blocks, names made, names with one byte.
const CARDS: [(usize, u64, u64); 5] = [
    (2, 0, 0),
    (60, 3, 1),
    (6, 3, 3),
    (280, 255, 1),
    (280, 255, 8),
];
const NAMES: [u64; 6] = [0, 259, 255, 256, 257, 258];
const PLACES: [u64; 5] = [0, 1, 2, 6, u64::MAX];
const LENGTHS: [usize; 4] = [0, 63, 64, 100_000];

/// Everything on all five.
pub fn all(table: &mut Table) {
    for (c, (blocks, made, ones)) in CARDS.into_iter().enumerate() {
        let len = 87 + 64 * blocks;
        begin(table, len, 6, made);
        write_ones(table, len, ones);
        let kept = table.row[..len].to_vec();
        for number in 0..=8 {
            if c == 1 || number == 0 || number == c as u64 + 4 {
                damaged(table, &kept, Damage::new(number, len, 64, 0, 1));
            }
        }
    }
}

/// All calls with all their arguments, each on the kept card with this damage.
fn damaged(table: &mut Table, kept: &[u8], damage: Damage) {
    for which in Which::ALL {
        for &name in names(which) {
            for &place in places(which) {
                for &length in lengths(which) {
                    let card = &mut table.row[..kept.len()];
                    card.copy_from_slice(kept);
                    damage.strike(card);
                    let mut call = Call::plain(which, name, place);
                    call.length = length;
                    table.make(damage.lent, call, Some(kept));
                }
            }
        }
    }
}

fn names(which: Which) -> &'static [u64] {
    match which {
        Which::Format | Which::Check | Which::Room | Which::List => &NAMES[..1],
        _ => &NAMES,
    }
}

fn places(which: Which) -> &'static [u64] {
    match which {
        Which::Check | Which::Room | Which::Create | Which::Delete | Which::Size => &PLACES[..1],
        _ => &PLACES,
    }
}

fn lengths(which: Which) -> &'static [usize] {
    match which {
        Which::Write | Which::Read | Which::List => &LENGTHS,
        _ => &LENGTHS[..1],
    }
}
