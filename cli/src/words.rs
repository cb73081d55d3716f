//! A refusal in words: what is the matter with this card and this name, and what to do next. The figures come from the
//! second program, which reads the card as it was before; they decide nothing.

use crate::card::{Card, MOST_DATA};
use crate::failure::{Failure, Kind};
use crate::names::{counted, quoted};
use lamporchid::Refusal;
use second::check::{examine, Sound};
use second::shape::{ENTRY_HEAD, MOST_DESCRIPTORS, MOST_NAME, SLASH};

/// What was asked of a card.
#[derive(Clone, Copy)]
pub enum Ask<'a> {
    Look,
    Find(&'a [u8]),
    Put(&'a [u8], u64),
    Append(&'a [u8], u64),
    Keep(&'a [u8], u64),
    Remove(&'a [u8]),
}

impl<'a> Ask<'a> {
    fn name(self) -> &'a [u8] {
        match self {
            Ask::Look => b"",
            Ask::Find(name) | Ask::Put(name, _) | Ask::Append(name, _) | Ask::Keep(name, _) | Ask::Remove(name) => name,
        }
    }

    fn changes(self) -> bool {
        !matches!(self, Ask::Look | Ask::Find(_))
    }
}

/// The failure that a refusal is, where it came from a card as it was read.
pub fn refused(refusal: Refusal, card: &Card, ask: Ask) -> Failure {
    let at = card.name();
    let (words, next) = match refusal {
        Refusal::Damaged(rule) => (format!("{at} breaks rule {rule}: {}", broken(rule)), damaged(rule, &at)),
        Refusal::BadName => (bad_name(ask.name()), "give 1 to 64 bytes without '/'".into()),
        Refusal::NotKnown => (format!("{} is not on {at}", quoted(ask.name())), missing(ask, &at)),
        Refusal::AlreadyKnown => (
            format!("{} is on {at} already", quoted(ask.name())),
            format!("'lamporchid ls {at}' shows it"),
        ),
        Refusal::PastTheEnd => past_the_end(card, ask),
        Refusal::StreamsFull => (
            format!("{at} holds {} lists, and no card holds more", MOST_DESCRIPTORS - 1),
            format!("remove one with 'lamporchid rm {at} NAME', or take another card"),
        ),
        Refusal::NoRoom => (
            no_room(card, ask).unwrap_or_else(|| refusal.words().into()),
            format!("remove a list with 'lamporchid rm {at} NAME', or take a larger card"),
        ),
        Refusal::ShortTray | Refusal::BadShape => (refusal.words().into(), "this is a fault of the program".into()),
    };
    let next = match ask.changes() {
        true => format!("nothing was changed; {next}"),
        false => next,
    };
    Failure::new(Kind::Refused(refusal), words, next)
}

/// What it means that a rule is broken.
pub fn broken(rule: u8) -> &'static str {
    match rule {
        1 => "it is shorter than the 87 bytes that a card begins with",
        2 => "it does not begin as a card does",
        3 => "after its first 87 bytes there are not 1 to 4096 whole blocks of a known size",
        4 => "the table of its lists is not in order, or the way to the table's blocks is lost",
        5 => "the table has a line that is wrong, or has lost count of its unused lines",
        6 => "a list names a block that is not there, or two lists claim the same block",
        7 => "a block is both free and in use, or lost, or the chain of free blocks leads astray",
        8 => "the names are not in order: one is bad or there twice, or a list has no name or two",
        _ => "which is none of the eight",
    }
}

fn damaged(rule: u8, at: &str) -> String {
    match rule {
        1 | 2 => format!("see that {at} is the file you meant; if it is, go back to its last good copy"),
        3 => format!("see that {at} was copied to its end; if it was, go back to its last good copy"),
        _ => format!("keep {at} as it is for someone who can look into it, and go back to its last good copy"),
    }
}

fn bad_name(name: &[u8]) -> String {
    match name.len() {
        0 => "the name is empty".into(),
        n if n > MOST_NAME => format!("the name has {n} bytes, and {MOST_NAME} is the most"),
        _ if name.contains(&SLASH) => format!("{} has a '/' in it", quoted(name)),
        _ => format!("{} is no name", quoted(name)),
    }
}

fn missing(ask: Ask, at: &str) -> String {
    match ask {
        Ask::Append(..) => {
            format!("'lamporchid put' makes a new list, 'lamporchid ls {at}' shows those that are there")
        }
        _ => format!("'lamporchid ls {at}' shows the names"),
    }
}

fn past_the_end(card: &Card, ask: Ask) -> (String, String) {
    let size = examine(&card.image).ok().and_then(|sound| size(&sound, ask.name()));
    match (ask, size) {
        (Ask::Keep(name, n), Some(size)) => (
            format!(
                "{} has {}, so its first {n} cannot be kept",
                quoted(name),
                counted(size, "byte")
            ),
            format!("give 0 to {size}"),
        ),
        _ => (
            Refusal::PastTheEnd.words().into(),
            "'lamporchid ls' shows the sizes".into(),
        ),
    }
}

fn size(sound: &Sound, name: &[u8]) -> Option<u64> {
    sound.filing.find(name).map(|entry| entry.stream.size)
}

/// What a list wants of the card, and what there is.
struct Want {
    blocks: u64,
    free: u64,
    /// It adds to a list.
    adds: bool,
    /// The list has blocks now, which it may use again.
    again: bool,
}

fn want(sound: &Sound, ask: Ask) -> Option<(Want, u64)> {
    let (name, length, adds) = match ask {
        Ask::Put(name, length) => (name, length, false),
        Ask::Append(name, length) => (name, length, true),
        _ => return None,
    };
    let (shape, old) = (sound.shape, size(sound, name));
    let has = old.map_or(0, |size| shape.blocks_needed(size));
    let (blocks, free) = match old {
        Some(size) if adds => (shape.growth(size, size + length), sound.free),
        Some(_) => (shape.blocks_needed(length), sound.free + has),
        None => (for_name(sound, name) + shape.blocks_needed(length), sound.free),
    };
    let again = has > 0 && !adds;
    Some((
        Want {
            blocks,
            free,
            adds,
            again,
        },
        length,
    ))
}

fn no_room(card: &Card, ask: Ask) -> Option<String> {
    let (want, length) = want(&examine(&card.image).ok()?, ask)?;
    let needed = match (length > MOST_DATA as u64, want.adds) {
        (true, _) => "more blocks than any card has".into(),
        (_, true) => counted(want.blocks, "more block"),
        _ => counted(want.blocks, "block"),
    };
    let free = match want.free {
        1 => "1 is free".into(),
        n => format!("{n} are free"),
    };
    let own = if want.again { ", its own among them" } else { "" };
    Some(format!("{} needs {needed}, {free}{own}", quoted(ask.name())))
}

/// The blocks that the table and the root take for one name more.
fn for_name(sound: &Sound, name: &[u8]) -> u64 {
    let (table, root) = (&sound.table, sound.table.root().size);
    let entry = (ENTRY_HEAD + name.len()) as u64;
    sound.shape.growth(table.stream.size, table.size_with_one_more()) + sound.shape.growth(root, root + entry)
}
