//! A sound card as lists: who has which blocks in which order, who is called what.
//!
//! Pyramids are read and written here row by row, not node by node as the store does it.

use super::plain::{Plain, Stream};
use crate::bytes::{get_u16, get_u32, get_u64, put_u32, put_u64};
use crate::calls;
use crate::header::TEMPLATE;
use crate::shape::Shape;
use std::collections::{BTreeMap, VecDeque};

/// A pyramid's blocks: the data row first, the top row last; no rows for an empty stream.
pub type Rows = Vec<Vec<u64>>;

/// A named stream: its bytes and the blocks that hold them.
#[derive(Clone, Debug, PartialEq, Eq)]
pub struct Held {
    /// All bytes of the stream.
    pub bytes: Vec<u8>,
    /// Its blocks.
    pub rows: Rows,
}

/// A sound card as lists. Every used byte of the card follows from it.
#[derive(Clone, Debug, PartialEq, Eq)]
pub struct Layout {
    /// Block size and count.
    pub shape: Shape,
    /// The free blocks, first to last.
    pub chain: VecDeque<u64>,
    /// The stream table's blocks.
    pub table: Rows,
    /// The root's blocks.
    pub root: Rows,
    /// The root's entries: index and name.
    pub entries: Vec<(u64, Vec<u8>)>,
    /// The named streams by index.
    pub streams: BTreeMap<u64, Held>,
    /// The free descriptors, first to last.
    pub spare: VecDeque<u64>,
}

/// The lengths of a pyramid's rows over `d` data blocks.
pub fn row_lengths(shape: Shape, d: u64) -> Vec<u64> {
    let fan = shape.block_size() / 4;
    let mut lengths = vec![d];
    while lengths[lengths.len() - 1] > 1 {
        lengths.push(lengths[lengths.len() - 1].div_ceil(fan));
    }
    lengths.retain(|&length| length > 0);
    lengths
}

/// Where byte number `offset` of a stream with these rows lies on the card.
pub fn byte_at(shape: Shape, rows: &Rows, offset: usize) -> usize {
    let block = shape.block_size() as usize;
    shape.start(rows[0][offset / block]) + offset % block
}

/// Where the index of block number `i` in row `below` lies on the card, in the row above it.
pub fn slot_at(shape: Shape, rows: &Rows, below: usize, i: usize) -> usize {
    let fan = shape.block_size() as usize / 4;
    shape.start(rows[below + 1][i / fan]) + 4 * (i % fan)
}

fn read_rows(card: &[u8], shape: Shape, size: u64, top: u64) -> Rows {
    let lengths = row_lengths(shape, size.div_ceil(shape.block_size()));
    let mut rows: Rows = Vec::new();
    for &length in lengths.iter().rev() {
        let row = match rows.last() {
            None => vec![top],
            Some(above) => {
                let blocks = above
                    .iter()
                    .flat_map(|&block| card[shape.span(block)].chunks(4));
                let indices = blocks.map(|four| u64::from(get_u32(four, 0)));
                indices.take(length as usize).collect()
            }
        };
        rows.push(row);
    }
    rows.reverse();
    rows
}

fn read_bytes(card: &[u8], shape: Shape, rows: &Rows, size: u64) -> Vec<u8> {
    let data = rows.first().map_or(&[][..], Vec::as_slice);
    let mut bytes: Vec<u8> = Vec::new();
    data.iter()
        .for_each(|&block| bytes.extend(&card[shape.span(block)]));
    bytes.truncate(size as usize);
    bytes
}

fn read_stream(card: &[u8], shape: Shape, descriptor: &[u8]) -> Held {
    let size = get_u64(descriptor, 0);
    let rows = read_rows(card, shape, size, get_u64(descriptor, 8));
    let bytes = read_bytes(card, shape, &rows, size);
    Held { bytes, rows }
}

fn read_chain(card: &[u8], shape: Shape) -> VecDeque<u64> {
    let mut chain = VecDeque::new();
    let mut next = get_u64(card, 27);
    while next < shape.count() {
        chain.push_back(next);
        next = get_u32(card, shape.start(next)).into();
    }
    chain
}

fn read_spare(table: &[u8]) -> VecDeque<u64> {
    let mut spare = VecDeque::new();
    let mut next = get_u64(table, 0);
    while next != u64::MAX {
        spare.push_back((next - 8) / 25);
        next = get_u64(table, next as usize);
    }
    spare
}

fn read_entries(root: &[u8]) -> Vec<(u64, Vec<u8>)> {
    let mut entries = Vec::new();
    let mut rest = root;
    while !rest.is_empty() {
        let (name, later) = rest[6..].split_at(get_u16(rest, 4).into());
        entries.push((get_u32(rest, 0).into(), name.to_vec()));
        rest = later;
    }
    entries
}

impl Layout {
    /// Reads a card that passes the check; none of any other.
    pub fn read(card: &[u8]) -> Option<Layout> {
        if !calls::check(card).is_done() {
            return None;
        }
        let shape = Shape::of(card[25].into(), card.len())?;
        let table = read_stream(card, shape, &card[45..]);
        let descriptor = |index: u64| &table.bytes[8 + 25 * index as usize..];
        let root = read_stream(card, shape, descriptor(0));
        let entries = read_entries(&root.bytes);
        let held = |(index, _): &(u64, Vec<u8>)| {
            let held = read_stream(card, shape, descriptor(*index));
            (*index, held)
        };
        Some(Layout {
            shape,
            chain: read_chain(card, shape),
            streams: entries.iter().map(held).collect(),
            spare: read_spare(&table.bytes),
            root: root.rows,
            table: table.rows,
            entries,
        })
    }

    /// The layout of a newly formatted card.
    pub fn fresh(shape: Shape) -> Layout {
        Layout {
            shape,
            chain: (1..shape.count()).collect(),
            table: vec![vec![0]],
            root: Vec::new(),
            entries: Vec::new(),
            streams: BTreeMap::new(),
            spare: VecDeque::new(),
        }
    }

    /// Writes every byte that is used and leaves the others.
    pub fn write(&self, card: &mut [u8]) {
        card[..87].copy_from_slice(&TEMPLATE);
        card[25] = self.shape.s() as u8;
        put_u64(card, 27, self.chain.front().map_or(u64::MAX, |&b| b));
        let table = self.table_bytes();
        card[45..70].copy_from_slice(&self.descriptor(table.len(), &self.table));
        self.lay(card, &self.table, &table);
        self.lay(card, &self.root, &self.root_bytes());
        for held in self.streams.values() {
            self.lay(card, &held.rows, &held.bytes);
        }
        let links = self.chain.iter().skip(1).map(|&block| block as u32);
        for (&block, link) in self.chain.iter().zip(links.chain([u32::MAX])) {
            put_u32(card, self.shape.start(block), link);
        }
    }

    fn lay(&self, card: &mut [u8], rows: &Rows, bytes: &[u8]) {
        for below in 0..rows.len().saturating_sub(1) {
            for (i, &block) in rows[below].iter().enumerate() {
                put_u32(card, slot_at(self.shape, rows, below, i), block as u32);
            }
        }
        let chunks = bytes.chunks(self.shape.block_size() as usize);
        for (chunk, &block) in chunks.zip(rows.iter().take(1).flatten()) {
            let start = self.shape.start(block);
            card[start..start + chunk.len()].copy_from_slice(chunk);
        }
    }

    fn descriptor(&self, size: usize, rows: &Rows) -> [u8; 25] {
        let mut out = [0; 25];
        let data = rows.first().map_or(0, Vec::len) as u64;
        put_u64(&mut out, 0, size as u64);
        put_u64(&mut out, 8, rows.last().map_or(0, |row| row[0]));
        put_u64(&mut out, 16, data * self.shape.block_size());
        out
    }

    /// How many descriptors the table has.
    pub fn descriptors(&self) -> u64 {
        1 + (self.streams.len() + self.spare.len()) as u64
    }

    /// The table's bytes.
    pub fn table_bytes(&self) -> Vec<u8> {
        let mut out = vec![0; 8 + 25 * self.descriptors() as usize];
        let place = |index: u64| 8 + 25 * index as usize;
        let offset = |index: Option<&u64>| index.map_or(u64::MAX, |&i| place(i) as u64);
        let root = self.descriptor(self.root_bytes().len(), &self.root);
        out[8..33].copy_from_slice(&root);
        for (&index, held) in &self.streams {
            let descriptor = self.descriptor(held.bytes.len(), &held.rows);
            out[place(index)..place(index) + 25].copy_from_slice(&descriptor);
        }
        put_u64(&mut out, 0, offset(self.spare.front()));
        for (i, &index) in self.spare.iter().enumerate() {
            put_u64(&mut out, place(index), offset(self.spare.get(i + 1)));
            put_u64(&mut out, place(index) + 8, u64::MAX);
        }
        out
    }

    /// The root's bytes.
    pub fn root_bytes(&self) -> Vec<u8> {
        let mut out = Vec::new();
        for (index, name) in &self.entries {
            out.extend((*index as u32).to_le_bytes());
            out.extend((name.len() as u16).to_le_bytes());
            out.extend(name);
        }
        out
    }

    /// The index of the stream with this name.
    pub fn find(&self, name: &[u8]) -> Option<u64> {
        let mut entries = self.entries.iter();
        entries.find(|(_, n)| n == name).map(|&(index, _)| index)
    }

    /// The same card as a plain list. The table's length tells the most streams ever held.
    pub fn plain(&self) -> Plain {
        let stream = |(index, name): &(u64, Vec<u8>)| Stream {
            name: name.clone(),
            bytes: self.streams[index].bytes.clone(),
        };
        Plain {
            shape: self.shape,
            streams: self.entries.iter().map(stream).collect(),
            most: self.descriptors() as usize - 1,
        }
    }
}
