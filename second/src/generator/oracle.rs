//! Every byte of the card after an accepted call, worked out on lists of blocks.

use super::call::Call;
use super::layout::{row_lengths, Held, Layout, Rows};
use crate::shape::Shape;
use std::collections::{HashSet, VecDeque};

/// The card that an accepted call must leave; none if `before` is not sound (but formatting
/// asks only for a shape).
///
/// Blocks taken are zeroed, then every used byte is written as the lists say. All other bytes
/// are those of `before`.
pub fn card_after(before: &[u8], call: &Call) -> Option<Vec<u8>> {
    if let Call::Format { s } = call {
        let mut card = vec![0; before.len()];
        Layout::fresh(Shape::of(*s, before.len())?).write(&mut card);
        return Some(card);
    }
    let old = Layout::read(before)?;
    let mut new = old.clone();
    new.edit(call);
    let mut card = before.to_vec();
    let still_free: HashSet<u64> = new.chain.iter().copied().collect();
    for &taken in old.chain.iter().filter(|&b| !still_free.contains(b)) {
        card[old.shape.span(taken)].fill(0);
    }
    new.write(&mut card);
    Some(card)
}

impl Layout {
    /// Makes an accepted call's edit on the lists.
    pub fn edit(&mut self, call: &Call) {
        match call {
            Call::Create { name } => self.create(name),
            Call::Write { name, place, data } => {
                let end = *place as usize + data.len();
                self.on_stream(name, |held, shape, chain| {
                    let size = held.bytes.len().max(end);
                    held.bytes.resize(size, 0);
                    held.bytes[*place as usize..end].copy_from_slice(data);
                    lengthen(&mut held.rows, shape, size, chain);
                });
            }
            Call::Truncate { name, n } => self.on_stream(name, |held, shape, chain| {
                held.bytes.truncate(*n as usize);
                shorten(&mut held.rows, shape, *n as usize, chain);
            }),
            Call::Delete { name } => self.delete(name),
            _ => {}
        }
    }

    fn on_stream(&mut self, name: &[u8], edit: impl FnOnce(&mut Held, Shape, &mut VecDeque<u64>)) {
        let index = self.find(name).expect("an accepted call's stream is known");
        let held = self
            .streams
            .get_mut(&index)
            .expect("a named stream is held");
        edit(held, self.shape, &mut self.chain);
    }

    fn create(&mut self, name: &[u8]) {
        let index = self.spare.pop_front().unwrap_or(self.descriptors());
        let (bytes, rows) = (Vec::new(), Vec::new());
        self.streams.insert(index, Held { bytes, rows });
        self.entries.push((index, name.to_vec()));
        // The table first, then the root.
        let (table, root) = (self.table_bytes().len(), self.root_bytes().len());
        lengthen(&mut self.table, self.shape, table, &mut self.chain);
        lengthen(&mut self.root, self.shape, root, &mut self.chain);
    }

    fn delete(&mut self, name: &[u8]) {
        let index = self.find(name).expect("an accepted call's stream is known");
        let mut held = self.streams.remove(&index).expect("a named stream is held");
        shorten(&mut held.rows, self.shape, 0, &mut self.chain);
        self.spare.push_front(index);
        self.entries.retain(|(i, _)| *i != index);
        let root = self.root_bytes().len();
        shorten(&mut self.root, self.shape, root, &mut self.chain);
    }
}

fn data_blocks(shape: Shape, size: usize) -> u64 {
    (size as u64).div_ceil(shape.block_size())
}

/// Takes blocks one data block at a time: a new top row, then each row that is one block short
/// from the top down, the data row last.
fn lengthen(rows: &mut Rows, shape: Shape, size: usize, chain: &mut VecDeque<u64>) {
    let mut take = || chain.pop_front().expect("an accepted call has room");
    let old = rows.first().map_or(0, Vec::len) as u64;
    for d in old + 1..=data_blocks(shape, size) {
        let wanted = row_lengths(shape, d);
        if wanted.len() > rows.len() {
            rows.push(vec![take()]);
        }
        for (row, &length) in rows.iter_mut().zip(&wanted).rev() {
            if (row.len() as u64) < length {
                row.push(take());
            }
        }
    }
}

/// Gives back every row above the new top and every row's right end, sorted, before the chain.
fn shorten(rows: &mut Rows, shape: Shape, size: usize, chain: &mut VecDeque<u64>) {
    let wanted = row_lengths(shape, data_blocks(shape, size));
    let mut freed: Vec<u64> = Vec::new();
    for (height, row) in rows.iter_mut().enumerate() {
        let keep = wanted.get(height).map_or(0, |&length| length as usize);
        freed.extend(row.drain(keep.min(row.len())..));
    }
    rows.truncate(wanted.len());
    freed.sort_unstable();
    freed.into_iter().rev().for_each(|b| chain.push_front(b));
}
