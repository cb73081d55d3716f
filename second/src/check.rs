//! What a sound card is: eight rules, each read on the footing that the earlier ones hold.
//!
//! Any bytes may be handed in. Every walk marks what it meets and stops at the first block,
//! descriptor or entry met twice or out of range, so that each one ends.

use crate::answer::Refusal;
use crate::bytes::NONE_8;
use crate::chain;
use crate::filing::{good_name, Entry, Filing, RawEntry};
use crate::header::{FIXED, TEMPLATE};
use crate::shape::{Shape, DESCRIPTOR, HEADER, MOST_DESCRIPTORS, S_AT, TABLE_HEAD};
use crate::streams::{self, Descriptor};
use crate::table::{self, Table};
use std::collections::HashSet;

/// What reading a sound card gives.
#[derive(Clone, Debug)]
pub struct Sound {
    /// Block size and count.
    pub shape: Shape,
    /// The stream table.
    pub table: Table,
    /// The number of free blocks.
    pub free: u64,
    /// The root's entries.
    pub filing: Filing,
}

/// Reads a card, or tells the lowest rule it breaks.
pub fn examine(card: &[u8]) -> Result<Sound, Refusal> {
    let broken = Refusal::Damaged;
    rule_1(card).ok_or(broken(1))?;
    rule_2(card).ok_or(broken(2))?;
    let shape = rule_3(card).ok_or(broken(3))?;
    let mut met = Met::none_of(shape.count());
    let own = rule_4(card, shape, &mut met).ok_or(broken(4))?;
    let table = rule_5(card, shape, own).ok_or(broken(5))?;
    rule_6(card, shape, &table, &mut met).ok_or(broken(6))?;
    let free = rule_7(card, shape, &mut met).ok_or(broken(7))?;
    let filing = rule_8(card, shape, &table).ok_or(broken(8))?;
    Ok(Sound {
        shape,
        table,
        free,
        filing,
    })
}

/// Which of a range of numbers a walk has met.
struct Met(Vec<bool>);

impl Met {
    fn none_of(count: u64) -> Met {
        Met(vec![false; count as usize])
    }

    /// Marks a number; none if it is out of range or was met before.
    fn meet(&mut self, number: u64) -> Option<()> {
        let met = self.0.get_mut(usize::try_from(number).ok()?)?;
        (!std::mem::replace(met, true)).then_some(())
    }

    fn all(&self) -> bool {
        self.0.iter().all(|&met| met)
    }
}

/// At least 87 bytes.
fn rule_1(card: &[u8]) -> Option<()> {
    (card.len() >= HEADER).then_some(())
}

/// The fixed header values.
fn rule_2(card: &[u8]) -> Option<()> {
    let right = |part: std::ops::Range<usize>| card[part.clone()] == TEMPLATE[part];
    FIXED.into_iter().all(right).then_some(())
}

/// s in range; the rest is 1 to 4,096 whole blocks.
fn rule_3(card: &[u8]) -> Option<Shape> {
    Shape::of(card[S_AT].into(), card.len())
}

/// The table's descriptor and its pyramid.
fn rule_4(card: &[u8], shape: Shape, met: &mut Met) -> Option<Descriptor> {
    let own = table::load_own(card);
    let rest = own.size.checked_sub(TABLE_HEAD as u64)?;
    let n = rest / DESCRIPTOR as u64;
    let whole = rest % DESCRIPTOR as u64 == 0 && (1..=MOST_DESCRIPTORS).contains(&n);
    (whole && right_when_live(shape, &own)).then_some(())?;
    meet_pyramid(card, shape, &own, met)?;
    Some(own)
}

/// Flags, d, reserved and an empty stream's top.
fn right_when_live(shape: Shape, descriptor: &Descriptor) -> bool {
    let d = shape.data_blocks(descriptor.size);
    descriptor.flags == 0
        && d <= shape.count() // asked first: a larger d could wrap in the product
        && descriptor.reserved == d * shape.block_size()
        && (descriptor.size > 0 || descriptor.top == 0)
}

/// Marks a pyramid's blocks; none if an index is out of range or was met before.
fn meet_pyramid(card: &[u8], shape: Shape, stream: &Descriptor, met: &mut Met) -> Option<()> {
    stream
        .pyramid(shape)
        .walk(card, shape, &mut |block, _| met.meet(block).is_some())
        .then_some(())
}

/// Each descriptor in live or free form, the free ones on one chain, descriptor 0 live.
fn rule_5(card: &[u8], shape: Shape, own: Descriptor) -> Option<Table> {
    let table = Table::read(card, shape, own);
    let right = |d: &Descriptor| match d.is_free() {
        true => d.reserved == 0 && d.flags == 0,
        false => right_when_live(shape, d),
    };
    let root_is_live = !table.root().is_free();
    (root_is_live && table.descriptors.iter().all(right)).then_some(())?;
    let mut met = Met::none_of(table.descriptors.len() as u64);
    let mut offset = table.first_free;
    let mut on_chain = 0;
    while offset != NONE_8 {
        let index = table.index_at(offset)?;
        met.meet(index as u64)?;
        let descriptor = table.descriptors[index];
        descriptor.is_free().then_some(())?;
        offset = descriptor.size;
        on_chain += 1;
    }
    let none_missed = on_chain + table.live() == table.descriptors.len();
    none_missed.then_some(table)
}

/// All pyramids together reach no block twice; the table's is marked already.
fn rule_6(card: &[u8], shape: Shape, table: &Table, met: &mut Met) -> Option<()> {
    let mut live = table.descriptors.iter().filter(|d| !d.is_free());
    live.try_for_each(|stream| meet_pyramid(card, shape, stream, met))
}

/// The free chain has all other blocks, each once.
fn rule_7(card: &[u8], shape: Shape, met: &mut Met) -> Option<u64> {
    let mut free = 0;
    let mut block = chain::first(card);
    while block != NONE_8 {
        met.meet(block)?;
        free += 1;
        block = chain::next(card, shape, block);
    }
    met.all().then_some(free)
}

/// The root reads exactly as entries, which name every live descriptor but 0, once.
fn rule_8(card: &[u8], shape: Shape, table: &Table) -> Option<Filing> {
    let root = streams::contents(card, shape, &table.root());
    let mut entries = Vec::new();
    let mut names = HashSet::new();
    let mut named = Met::none_of(table.descriptors.len() as u64);
    named.meet(0)?; // the root is no stream to be named
    let mut at = 0;
    while at < root.len() {
        let raw = RawEntry::at(&root, at)?;
        let name = raw.name(&root);
        (good_name(name) && names.insert(name)).then_some(())?;
        named.meet(raw.index as u64)?;
        let stream = table.descriptors[raw.index];
        (!stream.is_free()).then_some(())?;
        at = raw.span.end;
        entries.push(Entry { raw, stream });
    }
    let every_live_one = entries.len() + 1 == table.live();
    every_live_one.then_some(Filing { root, entries })
}
