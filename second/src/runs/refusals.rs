//! Which refusals hold for a call, whatever their order.

use super::call::{name, Call, Which};
use super::TRAY;
use crate::check::{examine, Sound};
use crate::filing::good_name;
use crate::shape::{Shape, ENTRY_HEAD, LIST_TRAY, MOST_DESCRIPTORS};
use std::collections::BTreeSet;

/// The refusals that a call can give, by number, as the layout page lists them.
pub fn list(which: Which) -> &'static [u8] {
    match which {
        Which::Format => &[9],
        Which::Check | Which::Room => &[1],
        Which::Create => &[1, 2, 4, 6, 7],
        Which::Write => &[1, 2, 3, 5, 7],
        Which::Read | Which::Truncate => &[1, 2, 3, 5],
        Which::Delete | Which::Size => &[1, 2, 3],
        Which::List => &[1, 5, 8],
    }
}

/// Whether two refusals of a call can hold together. A name on a sound card is good, so that none is both known and bad.
pub fn can_meet(which: Which, one: u8, other: u8) -> bool {
    !(which == Which::Create && (one, other) == (2, 4))
}

/// The refusals that hold for a call on the card that it is lent. On a damaged card all but DAMAGED are read as on the card
/// before the damage, where that is sound. A stream that is not there is taken for one of no bytes.
pub fn holding(call: &Call, lent: &[u8], before: &[u8]) -> BTreeSet<u8> {
    if call.which == Which::Format {
        let bad = Shape::of(call.place, lent.len()).is_none();
        return bad.then_some(9).into_iter().collect();
    }
    let (damaged, sound) = match examine(lent) {
        Ok(sound) => (false, Some(sound)),
        Err(_) => (true, examine(before).ok()),
    };
    let mut found: BTreeSet<u8> = damaged.then_some(1).into_iter().collect();
    let asked = list(call.which).iter().filter(|&&number| number > 1);
    if let Some(sound) = sound {
        found.extend(asked.filter(|&&number| holds(number, call, &sound)));
    }
    found
}

/// Whether one refusal above 1 holds.
fn holds(number: u8, call: &Call, sound: &Sound) -> bool {
    let name = name(call.name);
    let entry = sound.filing.find(&name);
    let size = entry.map_or(0, |entry| entry.stream.size);
    match number {
        2 => !good_name(&name),
        3 => entry.is_none(),
        4 => entry.is_some(),
        5 if call.which == Which::List => call.place >= sound.filing.entries.len() as u64,
        5 => call.place > size,
        6 => sound.table.live() as u64 == MOST_DESCRIPTORS,
        7 => wanted(call, sound) > sound.free,
        _ => call.length.min(TRAY) < LIST_TRAY,
    }
}

/// The blocks that a create or a write wants; no other call wants one.
pub fn wanted(call: &Call, sound: &Sound) -> u64 {
    let Sound { shape, table, .. } = sound;
    let name = name(call.name);
    match call.which {
        Which::Create => {
            let root = table.root().size;
            shape.growth(table.stream.size, table.size_with_one_more())
                + shape.growth(root, root + (ENTRY_HEAD + name.len()) as u64)
        }
        Which::Write => {
            let entry = sound.filing.find(&name);
            let size = entry.map_or(0, |entry| entry.stream.size);
            let end = call.place.saturating_add(call.length as u64);
            shape.growth(size, end.max(size))
        }
        _ => 0,
    }
}
