//! Filing: the root's entries, which give streams their names.

use crate::bytes::{get_u16, get_u32};
use crate::shape::{ENTRY_HEAD, MOST_NAME, SLASH};
use crate::streams::Descriptor;
use std::ops::Range;

/// Whether a name has 1 to 64 bytes and no "/".
pub fn good_name(name: &[u8]) -> bool {
    (1..=MOST_NAME).contains(&name.len()) && !name.contains(&SLASH)
}

/// An entry as its bytes say.
#[derive(Clone, Debug, PartialEq, Eq)]
pub struct RawEntry {
    /// The stream's index in the table.
    pub index: usize,
    /// Where the entry lies in the root, its name at the end.
    pub span: Range<usize>,
}

impl RawEntry {
    /// Reads the entry that starts at `at`, if the root holds all of it.
    pub fn at(root: &[u8], at: usize) -> Option<RawEntry> {
        let head = root.get(at..)?.get(..ENTRY_HEAD)?;
        let end = at + ENTRY_HEAD + usize::from(get_u16(head, 4));
        (end <= root.len()).then_some(RawEntry {
            index: get_u32(head, 0) as usize,
            span: at..end,
        })
    }

    /// The entry's name.
    pub fn name<'a>(&self, root: &'a [u8]) -> &'a [u8] {
        &root[self.span.start + ENTRY_HEAD..self.span.end]
    }
}

/// The bytes of a new entry.
pub fn entry_bytes(index: usize, name: &[u8]) -> Vec<u8> {
    let mut out = Vec::with_capacity(ENTRY_HEAD + name.len());
    out.extend((index as u32).to_le_bytes());
    out.extend((name.len() as u16).to_le_bytes());
    out.extend(name);
    out
}

/// An entry of a sound card, with the live descriptor it names.
#[derive(Clone, Debug)]
pub struct Entry {
    /// Index and place in the root.
    pub raw: RawEntry,
    /// The stream's descriptor.
    pub stream: Descriptor,
}

/// The root of a sound card, read into memory.
#[derive(Clone, Debug)]
pub struct Filing {
    /// The root's bytes.
    pub root: Vec<u8>,
    /// Its entries, in order.
    pub entries: Vec<Entry>,
}

impl Filing {
    /// The entry with this name.
    pub fn find(&self, name: &[u8]) -> Option<&Entry> {
        self.entries.iter().find(|e| self.name(e) == name)
    }

    /// An entry's name.
    pub fn name(&self, entry: &Entry) -> &[u8] {
        entry.raw.name(&self.root)
    }
}
