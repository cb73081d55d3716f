//! The ten calls. Each examines the card itself, refuses before it changes anything, and then
//! cannot fail.

use crate::answer::{Outcome, Refusal};
use crate::bytes::NONE_8;
use crate::chain;
use crate::check::{examine, Sound};
use crate::filing::{entry_bytes, good_name, Entry};
use crate::header::TEMPLATE;
use crate::shape::{Shape, DESCRIPTOR, HEADER, LIST_TRAY, MOST_DESCRIPTORS, S_AT, TABLE_HEAD};
use crate::streams::{self, Descriptor};
use crate::table::{self, Table};

type Answer = Result<Outcome, Refusal>;

/// Lays an empty card over the whole slice, with blocks of 2^s bytes.
pub fn format(card: &mut [u8], s: u64) -> Outcome {
    let Some(shape) = Shape::of(s, card.len()) else {
        return Refusal::BadShape.into();
    };
    card.fill(0);
    card[..HEADER].copy_from_slice(&TEMPLATE);
    card[S_AT] = s as u8;
    chain::set_first(card, NONE_8);
    chain::put_back(card, shape, (0..shape.count()).collect());
    let mut table = Table {
        stream: Descriptor::EMPTY,
        first_free: NONE_8,
        descriptors: vec![Descriptor::EMPTY],
    };
    let size = (TABLE_HEAD + DESCRIPTOR) as u64;
    streams::grow(card, shape, &mut table.stream, size);
    table::store_own(card, &table.stream);
    table.set_first_free(card, shape, NONE_8);
    table.store(card, shape, 0, Descriptor::EMPTY);
    Outcome::DONE
}

/// Tells whether the card is sound, else the lowest broken rule.
pub fn check(card: &[u8]) -> Outcome {
    examine(card).map(|_| Outcome::DONE).into()
}

/// Counts the free blocks.
pub fn room(card: &[u8]) -> Outcome {
    examine(card).map(|sound| counted(sound.free)).into()
}

/// Makes an empty stream with a new name.
pub fn create(card: &mut [u8], name: &[u8]) -> Outcome {
    try_create(card, name).into()
}

fn try_create(card: &mut [u8], name: &[u8]) -> Answer {
    let Sound {
        shape,
        mut table,
        free,
        filing,
    } = examine(card)?;
    refuse(!good_name(name), Refusal::BadName)?;
    refuse(filing.find(name).is_some(), Refusal::AlreadyKnown)?;
    let full = table.live() as u64 == MOST_DESCRIPTORS;
    refuse(full, Refusal::StreamsFull)?;
    let mut root = table.root();
    let old_end = root.size;
    // The entry's length does not depend on the index that the table will give.
    let new_end = old_end + entry_bytes(0, name).len() as u64;
    let needed = shape.growth(table.stream.size, table.size_with_one_more())
        + shape.growth(old_end, new_end);
    refuse(needed > free, Refusal::NoRoom)?;

    let index = table.claim(card, shape);
    streams::grow(card, shape, &mut root, new_end);
    streams::overwrite(card, shape, &root, old_end, &entry_bytes(index, name));
    table.store(card, shape, 0, root);
    Ok(Outcome::DONE)
}

/// Lays bytes over a stream from a place not past its end, lengthening it where needed.
pub fn write(card: &mut [u8], name: &[u8], place: u64, data: &[u8]) -> Outcome {
    try_write(card, name, place, data).into()
}

fn try_write(card: &mut [u8], name: &[u8], place: u64, data: &[u8]) -> Answer {
    let mut sound = examine(card)?;
    let Entry { raw, mut stream } = known(&sound, name)?.clone();
    refuse(place > stream.size, Refusal::PastTheEnd)?;
    // No overflow: the place lies in a stream of the card, the data in memory.
    let size = stream.size.max(place + data.len() as u64);
    let needed = sound.shape.growth(stream.size, size);
    refuse(needed > sound.free, Refusal::NoRoom)?;

    if size > stream.size {
        streams::grow(card, sound.shape, &mut stream, size);
        sound.table.store(card, sound.shape, raw.index, stream);
    }
    streams::overwrite(card, sound.shape, &stream, place, data);
    Ok(counted(data.len() as u64))
}

/// Reads from a place not past the end as far as tray and stream go.
pub fn read(card: &[u8], name: &[u8], place: u64, tray: &mut [u8]) -> Outcome {
    try_read(card, name, place, tray).into()
}

fn try_read(card: &[u8], name: &[u8], place: u64, tray: &mut [u8]) -> Answer {
    let sound = examine(card)?;
    let stream = known(&sound, name)?.stream;
    refuse(place > stream.size, Refusal::PastTheEnd)?;
    let count = (stream.size - place).min(tray.len() as u64);
    streams::read(
        card,
        sound.shape,
        &stream,
        place,
        &mut tray[..count as usize],
    );
    Ok(counted(count))
}

/// Keeps a stream's first n bytes.
pub fn truncate(card: &mut [u8], name: &[u8], n: u64) -> Outcome {
    try_truncate(card, name, n).into()
}

fn try_truncate(card: &mut [u8], name: &[u8], n: u64) -> Answer {
    let mut sound = examine(card)?;
    let Entry { raw, mut stream } = known(&sound, name)?.clone();
    refuse(n > stream.size, Refusal::PastTheEnd)?;
    streams::shrink(card, sound.shape, &mut stream, n);
    sound.table.store(card, sound.shape, raw.index, stream);
    Ok(Outcome::DONE)
}

/// Removes a stream and its name.
pub fn delete(card: &mut [u8], name: &[u8]) -> Outcome {
    try_delete(card, name).into()
}

fn try_delete(card: &mut [u8], name: &[u8]) -> Answer {
    let sound = examine(card)?;
    let Entry { raw, mut stream } = known(&sound, name)?.clone();
    let Sound {
        shape,
        mut table,
        filing,
        ..
    } = sound;

    streams::shrink(card, shape, &mut stream, 0);
    table.release(card, shape, raw.index);
    let mut root = table.root();
    let later = &filing.root[raw.span.end..];
    streams::overwrite(card, shape, &root, raw.span.start as u64, later);
    let size = root.size - raw.span.len() as u64;
    streams::shrink(card, shape, &mut root, size);
    table.store(card, shape, 0, root);
    Ok(Outcome::DONE)
}

/// Tells a stream's size.
pub fn size(card: &[u8], name: &[u8]) -> Outcome {
    try_size(card, name).into()
}

fn try_size(card: &[u8], name: &[u8]) -> Answer {
    let sound = examine(card)?;
    let size = known(&sound, name)?.stream.size;
    Ok(Outcome {
        size,
        ..Outcome::DONE
    })
}

/// Tells entry k's name, counted from 0, and its stream's size.
pub fn list(card: &[u8], k: u64, tray: &mut [u8]) -> Outcome {
    try_list(card, k, tray).into()
}

fn try_list(card: &[u8], k: u64, tray: &mut [u8]) -> Answer {
    let filing = examine(card)?.filing;
    let k = usize::try_from(k).map_err(|_| Refusal::PastTheEnd)?;
    let entry = filing.entries.get(k).ok_or(Refusal::PastTheEnd)?;
    refuse(tray.len() < LIST_TRAY, Refusal::ShortTray)?;
    let name = filing.name(entry);
    tray[..name.len()].copy_from_slice(name);
    Ok(Outcome {
        size: entry.stream.size,
        length: name.len() as u64,
        ..Outcome::DONE
    })
}

fn refuse(applies: bool, refusal: Refusal) -> Result<(), Refusal> {
    match applies {
        true => Err(refusal),
        false => Ok(()),
    }
}

fn counted(count: u64) -> Outcome {
    Outcome {
        count,
        ..Outcome::DONE
    }
}

/// The entry with a good name that is known.
fn known<'a>(sound: &'a Sound, name: &[u8]) -> Result<&'a Entry, Refusal> {
    refuse(!good_name(name), Refusal::BadName)?;
    sound.filing.find(name).ok_or(Refusal::NotKnown)
}
