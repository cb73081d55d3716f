//! The stream table: a stream of descriptors with the free ones chained by offset.

use crate::bytes::{get_u64, NONE_8};
use crate::shape::{Shape, DESCRIPTOR, TABLE_AT, TABLE_HEAD};
use crate::streams::{self, Descriptor};

/// The table of a card, read into memory.
#[derive(Clone, Debug)]
pub struct Table {
    /// The table's own descriptor, which stands in the header.
    pub stream: Descriptor,
    /// The offset of the first free descriptor, all FF if there is none.
    pub first_free: u64,
    /// The descriptors by index, live and free.
    pub descriptors: Vec<Descriptor>,
}

impl Table {
    /// Reads the table behind the header's descriptor, whose size is 8 + 25n.
    pub fn read(card: &[u8], shape: Shape, stream: Descriptor) -> Table {
        let bytes = streams::contents(card, shape, &stream);
        let descriptors = bytes[TABLE_HEAD..].chunks_exact(DESCRIPTOR);
        Table {
            stream,
            first_free: get_u64(&bytes, 0),
            descriptors: descriptors.map(Descriptor::decode).collect(),
        }
    }

    /// The index of the descriptor at an offset, if there is one exactly there.
    pub fn index_at(&self, offset: u64) -> Option<usize> {
        let rest = offset.checked_sub(TABLE_HEAD as u64)?;
        let index = rest / DESCRIPTOR as u64;
        let exact = rest % DESCRIPTOR as u64 == 0;
        (exact && index < self.descriptors.len() as u64).then_some(index as usize)
    }

    /// The root's descriptor.
    pub fn root(&self) -> Descriptor {
        self.descriptors[0]
    }

    /// How many descriptors are live, the root's included.
    pub fn live(&self) -> usize {
        self.descriptors.iter().filter(|d| !d.is_free()).count()
    }

    /// The table's size once it has one more live descriptor.
    pub fn size_with_one_more(&self) -> u64 {
        match self.first_free {
            NONE_8 => self.stream.size + DESCRIPTOR as u64,
            _ => self.stream.size,
        }
    }

    /// Makes a descriptor live and empty: the first free one, else one past the table's end.
    pub fn claim(&mut self, card: &mut [u8], shape: Shape) -> usize {
        let index = match self.index_at(self.first_free) {
            Some(index) => {
                self.set_first_free(card, shape, self.descriptors[index].size);
                index
            }
            None => {
                let size = self.size_with_one_more();
                streams::grow(card, shape, &mut self.stream, size);
                store_own(card, &self.stream);
                self.descriptors.push(Descriptor::EMPTY);
                self.descriptors.len() - 1
            }
        };
        self.store(card, shape, index, Descriptor::EMPTY);
        index
    }

    /// Puts a descriptor first on the chain of free ones.
    pub fn release(&mut self, card: &mut [u8], shape: Shape, index: usize) {
        self.store(card, shape, index, Descriptor::free(self.first_free));
        self.set_first_free(card, shape, offset_of(index));
    }

    /// Writes a descriptor into its 25 bytes.
    pub fn store(&mut self, card: &mut [u8], shape: Shape, index: usize, descriptor: Descriptor) {
        let bytes = descriptor.encode();
        streams::overwrite(card, shape, &self.stream, offset_of(index), &bytes);
        self.descriptors[index] = descriptor;
    }

    /// Writes the offset of the first free descriptor.
    pub fn set_first_free(&mut self, card: &mut [u8], shape: Shape, offset: u64) {
        streams::overwrite(card, shape, &self.stream, 0, &offset.to_le_bytes());
        self.first_free = offset;
    }
}

/// Where a descriptor stands in the table.
pub fn offset_of(index: usize) -> u64 {
    (TABLE_HEAD + DESCRIPTOR * index) as u64
}

/// Reads the table's own descriptor from the header.
pub fn load_own(card: &[u8]) -> Descriptor {
    Descriptor::decode(&card[TABLE_AT..])
}

/// Writes the table's own descriptor into the header.
pub fn store_own(card: &mut [u8], descriptor: &Descriptor) {
    card[TABLE_AT..TABLE_AT + DESCRIPTOR].copy_from_slice(&descriptor.encode());
}
