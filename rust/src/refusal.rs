//! Why a call refused.

use std::fmt;

/// Why a call refused. Where several reasons apply, the one with the lowest number is given.
#[derive(Clone, Copy, Debug, PartialEq, Eq)]
pub enum Refusal {
    /// The card breaks this rule, 1 to 8, and none before it.
    Damaged(u8),
    /// A name of no bytes, of more than 64, or with a slash.
    BadName,
    /// No stream has that name.
    NotKnown,
    /// A stream has that name already.
    AlreadyKnown,
    /// A place or length above the stream's size, or no entry with that number.
    PastTheEnd,
    /// There are 256 streams, the root among them.
    StreamsFull,
    /// More blocks are needed than are free.
    NoRoom,
    /// A tray of less than 64 bytes for a name.
    ShortTray,
    /// No card has that length with that block size.
    BadShape,
}

impl Refusal {
    /// Its number in the layout page's list.
    pub fn number(self) -> u8 {
        match self {
            Refusal::Damaged(_) => 1,
            Refusal::BadName => 2,
            Refusal::NotKnown => 3,
            Refusal::AlreadyKnown => 4,
            Refusal::PastTheEnd => 5,
            Refusal::StreamsFull => 6,
            Refusal::NoRoom => 7,
            Refusal::ShortTray => 8,
            Refusal::BadShape => 9,
        }
    }

    /// Its name in that list.
    pub fn title(self) -> &'static str {
        match self {
            Refusal::Damaged(_) => "DAMAGED",
            Refusal::BadName => "BAD NAME",
            Refusal::NotKnown => "NOT KNOWN",
            Refusal::AlreadyKnown => "ALREADY KNOWN",
            Refusal::PastTheEnd => "PAST THE END",
            Refusal::StreamsFull => "STREAMS FULL",
            Refusal::NoRoom => "NO ROOM",
            Refusal::ShortTray => "SHORT TRAY",
            Refusal::BadShape => "BAD SHAPE",
        }
    }

    /// The same in words.
    pub fn words(self) -> &'static str {
        match self {
            Refusal::Damaged(_) => "the card is damaged",
            Refusal::BadName => "a name has 1 to 64 bytes, and no slash",
            Refusal::NotKnown => "no stream has that name",
            Refusal::AlreadyKnown => "a stream has that name already",
            Refusal::PastTheEnd => "that is past the end",
            Refusal::StreamsFull => "the card can hold no more streams",
            Refusal::NoRoom => "the card has not enough free blocks",
            Refusal::ShortTray => "the tray for a name has less than 64 bytes",
            Refusal::BadShape => "no card has that length with that block size",
        }
    }
}

impl fmt::Display for Refusal {
    fn fmt(&self, f: &mut fmt::Formatter<'_>) -> fmt::Result {
        match self {
            Refusal::Damaged(rule) => write!(f, "{}: it breaks rule {}", self.words(), rule),
            _ => f.write_str(self.words()),
        }
    }
}

impl std::error::Error for Refusal {}
