//! Streams: the descriptor, the bytes behind it, growing and shrinking.

use crate::bytes::{get_u64, put_u64, NONE_8};
use crate::chain;
use crate::pyramid::{set_slot, slot, Pyramid};
use crate::shape::{Shape, DESCRIPTOR};
use std::ops::Range;

/// A descriptor as its 25 bytes say, live or free.
#[derive(Clone, Copy, Debug, PartialEq, Eq)]
pub struct Descriptor {
    /// The stream's length in bytes; in a free descriptor the next free offset.
    pub size: u64,
    /// The top block; all FF marks a free descriptor.
    pub top: u64,
    /// The bytes of the stream's data blocks.
    pub reserved: u64,
    /// Always 0.
    pub flags: u8,
}

impl Descriptor {
    /// An empty stream's descriptor, all zero.
    pub const EMPTY: Descriptor = Descriptor {
        size: 0,
        top: 0,
        reserved: 0,
        flags: 0,
    };

    /// A free descriptor that names the next free offset.
    pub fn free(next: u64) -> Descriptor {
        Descriptor {
            size: next,
            top: NONE_8,
            ..Descriptor::EMPTY
        }
    }

    /// Reads the first 25 bytes.
    pub fn decode(bytes: &[u8]) -> Descriptor {
        Descriptor {
            size: get_u64(bytes, 0),
            top: get_u64(bytes, 8),
            reserved: get_u64(bytes, 16),
            flags: bytes[24],
        }
    }

    /// The 25 bytes.
    pub fn encode(&self) -> [u8; DESCRIPTOR] {
        let mut out = [0; DESCRIPTOR];
        put_u64(&mut out, 0, self.size);
        put_u64(&mut out, 8, self.top);
        put_u64(&mut out, 16, self.reserved);
        out[24] = self.flags;
        out
    }

    /// Whether the descriptor is marked free.
    pub fn is_free(&self) -> bool {
        self.top == NONE_8
    }

    /// The pyramid behind a live descriptor.
    pub fn pyramid(&self, shape: Shape) -> Pyramid {
        Pyramid {
            top: self.top,
            d: shape.data_blocks(self.size),
        }
    }

    /// The descriptor of a stream of `size` bytes under this top.
    fn resized(self, shape: Shape, size: u64, top: u64) -> Descriptor {
        Descriptor {
            size,
            top,
            reserved: shape.data_blocks(size) * shape.block_size(),
            ..self
        }
    }
}

/// Fills `out` with the stream's bytes from a place on; they lie within the stream.
pub fn read(card: &[u8], shape: Shape, stream: &Descriptor, place: u64, out: &mut [u8]) {
    let pyramid = stream.pyramid(shape);
    for piece in pieces(shape, place, out.len()) {
        let at = shape.start(pyramid.data_block(card, shape, piece.block)) + piece.offset;
        let length = piece.bytes.len();
        out[piece.bytes].copy_from_slice(&card[at..at + length]);
    }
}

/// All bytes of a stream.
pub fn contents(card: &[u8], shape: Shape, stream: &Descriptor) -> Vec<u8> {
    let mut out = vec![0; stream.size as usize];
    read(card, shape, stream, 0, &mut out);
    out
}

/// Lays bytes over the stream from a place on; they lie within the stream.
pub fn overwrite(card: &mut [u8], shape: Shape, stream: &Descriptor, place: u64, data: &[u8]) {
    let pyramid = stream.pyramid(shape);
    for piece in pieces(shape, place, data.len()) {
        let at = shape.start(pyramid.data_block(card, shape, piece.block)) + piece.offset;
        let bytes = &data[piece.bytes];
        card[at..at + bytes.len()].copy_from_slice(bytes);
    }
}

/// The part of a run of bytes that lies in one data block.
struct Piece {
    block: u64,
    offset: usize,
    bytes: Range<usize>,
}

fn pieces(shape: Shape, place: u64, length: usize) -> impl Iterator<Item = Piece> {
    let size = shape.block_size();
    let mut from = 0;
    std::iter::from_fn(move || {
        let here = place + from as u64;
        let offset = (here % size) as usize;
        let to = length.min(from + size as usize - offset);
        let piece = Piece {
            block: here / size,
            offset,
            bytes: from..to,
        };
        let more = from < length;
        from = to;
        more.then_some(piece)
    })
}

/// Lengthens a stream to a size not below its own, one data block at a time. The caller has
/// asked for room before, and stores the descriptor afterwards.
pub fn grow(card: &mut [u8], shape: Shape, stream: &mut Descriptor, size: u64) {
    let mut pyramid = stream.pyramid(shape);
    while pyramid.d < shape.data_blocks(size) {
        add_data_block(card, shape, &mut pyramid);
    }
    *stream = stream.resized(shape, size, pyramid.top);
}

/// Takes a new top if the height must rise, then missing redirectors from the top down, then
/// the data block. What is missing follows from d alone: stale slots are never looked at.
fn add_data_block(card: &mut [u8], shape: Shape, pyramid: &mut Pyramid) {
    let fan = shape.fan();
    let new = pyramid.d;
    pyramid.d += 1;
    if new == 0 {
        pyramid.top = chain::take(card, shape);
        return;
    }
    let height = fan.height(pyramid.d);
    if height > fan.height(new) {
        let top = chain::take(card, shape);
        set_slot(card, shape, top, 0, pyramid.top);
        pyramid.top = top;
    }
    let mut node = pyramid.top;
    for below in (0..height).rev() {
        let carries = fan.carries(below);
        let at = new / carries % fan.get();
        let is_missing = new.is_multiple_of(carries);
        if is_missing {
            let taken = chain::take(card, shape);
            set_slot(card, shape, node, at, taken);
            node = taken;
        } else {
            node = slot(card, shape, node, at);
        }
    }
}

/// Shortens a stream to a size not above its own and frees what it no longer needs. The
/// caller stores the descriptor afterwards.
pub fn shrink(card: &mut [u8], shape: Shape, stream: &mut Descriptor, size: u64) {
    let pyramid = stream.pyramid(shape);
    let d = shape.data_blocks(size);
    // The new top is read before freeing, which writes over the old tops' first slots.
    let top = lowered_top(card, shape, pyramid, d);
    if d < pyramid.d {
        let surplus = surplus(card, shape, pyramid, d);
        chain::put_back(card, shape, surplus);
    }
    *stream = stream.resized(shape, size, top);
}

/// The top over the first `d` data blocks: slot 0 of the old top, as often as the height falls.
fn lowered_top(card: &[u8], shape: Shape, pyramid: Pyramid, d: u64) -> u64 {
    if d == 0 {
        return 0;
    }
    let fan = shape.fan();
    (fan.height(d)..fan.height(pyramid.d)).fold(pyramid.top, |top, _| slot(card, shape, top, 0))
}

/// The blocks of a pyramid that one over its first `d` data blocks does without.
fn surplus(card: &[u8], shape: Shape, pyramid: Pyramid, d: u64) -> Vec<u64> {
    let mut kept: Vec<u64> = shape.fan().rows(d).collect();
    let mut surplus = Vec::new();
    pyramid.walk(card, shape, &mut |block, height| {
        match kept.get_mut(height as usize) {
            Some(left) if *left > 0 => *left -= 1,
            _ => surplus.push(block),
        }
        true
    });
    surplus
}
