//! Another sound card with the same names and bytes, as a stranger might have written it.

use super::dice::Dice;
use super::layout::{Layout, Rows};

/// Renumbers blocks and descriptors, shuffles the free chain, the entries and the chain of free
/// descriptors, and puts noise into every unused byte. None of a card that is not sound.
///
/// Names, bytes and the table's length stay; the directory's order does not, so take the plain
/// list afresh.
pub fn scramble(card: &[u8], dice: &mut Dice) -> Option<Vec<u8>> {
    let mut layout = Layout::read(card)?;
    renumber_blocks(&mut layout, dice);
    renumber_descriptors(&mut layout, dice);
    dice.shuffle(layout.chain.make_contiguous());
    dice.shuffle(layout.spare.make_contiguous());
    dice.shuffle(&mut layout.entries);
    let mut out = dice.bytes(card.len());
    layout.write(&mut out);
    Some(out)
}

fn renumber_blocks(layout: &mut Layout, dice: &mut Dice) {
    let mut new: Vec<u64> = (0..layout.shape.count()).collect();
    dice.shuffle(&mut new);
    let renumber = |rows: &mut Rows| {
        let blocks = rows.iter_mut().flatten();
        blocks.for_each(|b| *b = new[*b as usize]);
    };
    renumber(&mut layout.table);
    renumber(&mut layout.root);
    let held = layout.streams.values_mut();
    held.for_each(|held| renumber(&mut held.rows));
    layout.chain.iter_mut().for_each(|b| *b = new[*b as usize]);
}

/// The root keeps descriptor 0.
fn renumber_descriptors(layout: &mut Layout, dice: &mut Dice) {
    let mut new: Vec<u64> = (0..layout.descriptors()).collect();
    dice.shuffle(&mut new[1..]);
    let streams = std::mem::take(&mut layout.streams);
    let renumbered = streams.into_iter().map(|(i, held)| (new[i as usize], held));
    layout.streams = renumbered.collect();
    layout
        .entries
        .iter_mut()
        .for_each(|(i, _)| *i = new[*i as usize]);
    layout.spare.iter_mut().for_each(|i| *i = new[*i as usize]);
}
