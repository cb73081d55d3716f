//! The plain list: names with their bytes, in the directory's order, and nothing of blocks but
//! how many the layout needs.

use super::call::Call;
use crate::answer::{Outcome, Refusal};
use crate::shape::{Shape, DESCRIPTOR, ENTRY_HEAD, TABLE_HEAD};

/// A stream of the plain list.
#[derive(Clone, Debug, PartialEq, Eq)]
pub struct Stream {
    /// Its name.
    pub name: Vec<u8>,
    /// All its bytes.
    pub bytes: Vec<u8>,
}

/// A card as a plain list.
#[derive(Clone, Debug, PartialEq, Eq)]
pub struct Plain {
    /// Block size and count, which decide about room alone.
    pub shape: Shape,
    /// The streams in the directory's order.
    pub streams: Vec<Stream>,
    /// The most streams ever held at once.
    pub most: usize,
}

impl Plain {
    /// The list of a newly formatted card.
    pub fn fresh(shape: Shape) -> Plain {
        Plain {
            shape,
            streams: Vec::new(),
            most: 0,
        }
    }

    /// Blocks of a stream of `size` bytes: its data blocks, and as long as a row has more than
    /// one block, the row above it.
    pub fn blocks_needed(&self, size: u64) -> u64 {
        let block = self.shape.block_size();
        let fan = block / 4;
        let mut row = size.div_ceil(block);
        let mut sum = row;
        while row > 1 {
            row = row.div_ceil(fan);
            sum += row;
        }
        sum
    }

    /// The directory's length in bytes.
    pub fn root_size(&self) -> u64 {
        let entry = |s: &Stream| (ENTRY_HEAD + s.name.len()) as u64;
        self.streams.iter().map(entry).sum()
    }

    /// The table's length in bytes.
    pub fn table_size(&self) -> u64 {
        (TABLE_HEAD + DESCRIPTOR * (1 + self.most)) as u64
    }

    /// The card's blocks less what the layout needs for the lengths.
    pub fn free(&self) -> u64 {
        let lengths = self.streams.iter().map(|s| s.bytes.len() as u64);
        let needed = |size| self.blocks_needed(size);
        let streams: u64 = lengths.map(needed).sum();
        self.shape.count() - needed(self.table_size()) - needed(self.root_size()) - streams
    }

    /// Which stream has this name.
    pub fn find(&self, name: &[u8]) -> Option<usize> {
        self.streams.iter().position(|s| s.name == name)
    }

    /// What a call answers, and leaves in the tray; an accepted edit is made to the list.
    pub fn answer(&mut self, call: &Call, tray: &mut [u8]) -> Outcome {
        match lowest(&self.refusals(call)) {
            Some(refusal) => refusal.into(),
            None => self.done(call, tray),
        }
    }

    /// Every refusal that applies to a call, in no order.
    fn refusals(&self, call: &Call) -> Vec<(bool, Refusal)> {
        use Refusal::*;
        let bad = |name: &[u8]| name.is_empty() || name.len() > 64 || name.contains(&b'/');
        let known = |name: &[u8]| self.find(name).is_some();
        let size = |name: &[u8]| self.size(name);
        match call {
            Call::Format { s } => {
                let length = 87 + self.shape.count() * self.shape.block_size();
                vec![(Shape::of(*s, length as usize).is_none(), BadShape)]
            }
            Call::Check | Call::Room => vec![],
            Call::Create { name } => vec![
                (self.create_needs(name) > self.free(), NoRoom),
                (self.streams.len() == 255, StreamsFull),
                (known(name), AlreadyKnown),
                (bad(name), BadName),
            ],
            Call::Write { name, place, data } => vec![
                (self.write_needs(name, *place, data) > self.free(), NoRoom),
                (*place > size(name), PastTheEnd),
                (!known(name), NotKnown),
                (bad(name), BadName),
            ],
            Call::Read { name, place: n, .. } | Call::Truncate { name, n } => vec![
                (*n > size(name), PastTheEnd),
                (!known(name), NotKnown),
                (bad(name), BadName),
            ],
            Call::Delete { name } | Call::Size { name } => {
                vec![(!known(name), NotKnown), (bad(name), BadName)]
            }
            Call::List { k, tray } => vec![
                (*tray < 64, ShortTray),
                (*k >= self.streams.len() as u64, PastTheEnd),
            ],
        }
    }

    fn size(&self, name: &[u8]) -> u64 {
        self.find(name)
            .map_or(0, |at| self.streams[at].bytes.len() as u64)
    }

    fn growth(&self, before: u64, after: u64) -> u64 {
        self.blocks_needed(after) - self.blocks_needed(before)
    }

    /// Blocks that a create needs: for the table, if no descriptor is free, and for the root.
    pub fn create_needs(&self, name: &[u8]) -> u64 {
        let one_more = (self.streams.len() == self.most) as u64 * DESCRIPTOR as u64;
        let entry = (ENTRY_HEAD + name.len()) as u64;
        self.growth(self.table_size(), self.table_size() + one_more)
            + self.growth(self.root_size(), self.root_size() + entry)
    }

    /// Blocks that a write needs, were its place accepted.
    pub fn write_needs(&self, name: &[u8], place: u64, data: &[u8]) -> u64 {
        let size = self.size(name);
        let end = place.saturating_add(data.len() as u64);
        self.growth(size, size.max(end))
    }

    fn done(&mut self, call: &Call, tray: &mut [u8]) -> Outcome {
        let mut outcome = Outcome::DONE;
        match call {
            Call::Format { s } => {
                let length = 87 + self.shape.count() * self.shape.block_size();
                if let Some(shape) = Shape::of(*s, length as usize) {
                    *self = Plain::fresh(shape);
                }
            }
            Call::Check => {}
            Call::Room => outcome.count = self.free(),
            Call::Create { name } => self.add(name),
            Call::Write { name, place, data } => {
                self.lay(name, *place as usize, data);
                outcome.count = data.len() as u64;
            }
            Call::Read { name, place, .. } => {
                let left = &self.bytes(name)[*place as usize..];
                let count = left.len().min(tray.len());
                tray[..count].copy_from_slice(&left[..count]);
                outcome.count = count as u64;
            }
            Call::Truncate { name, n } => self.edit(name, |bytes| bytes.truncate(*n as usize)),
            Call::Delete { name } => self.streams.retain(|s| s.name != *name),
            Call::Size { name } => outcome.size = self.size(name),
            Call::List { k, .. } => {
                let Stream { name, bytes } = &self.streams[*k as usize];
                tray[..name.len()].copy_from_slice(name);
                outcome.length = name.len() as u64;
                outcome.size = bytes.len() as u64;
            }
        }
        outcome
    }

    fn add(&mut self, name: &[u8]) {
        let (name, bytes) = (name.to_vec(), Vec::new());
        self.streams.push(Stream { name, bytes });
        self.most = self.most.max(self.streams.len());
    }

    fn lay(&mut self, name: &[u8], place: usize, data: &[u8]) {
        self.edit(name, |bytes| {
            let end = bytes.len().max(place + data.len());
            bytes.resize(end, 0);
            bytes[place..place + data.len()].copy_from_slice(data);
        });
    }

    fn bytes(&self, name: &[u8]) -> &[u8] {
        self.find(name).map_or(&[], |at| &self.streams[at].bytes)
    }

    fn edit(&mut self, name: &[u8], change: impl FnOnce(&mut Vec<u8>)) {
        if let Some(at) = self.find(name) {
            change(&mut self.streams[at].bytes);
        }
    }
}

/// The refusal with the lowest number among those that apply.
fn lowest(refusals: &[(bool, Refusal)]) -> Option<Refusal> {
    let applying = refusals.iter().filter(|(applies, _)| *applies);
    applying
        .map(|&(_, refusal)| refusal)
        .min_by_key(|r| r.number())
}
