//! The word that an export returns, taken apart: bits 0 to 7 the number, bits 8 to 15 DAMAGED's
//! rule or a listed name's length, bits 16 to 63 the count or the size.

use crate::{Entry, Refusal};

pub fn done(word: usize) -> Result<(), Refusal> {
    match word & 255 {
        0 => Ok(()),
        1 => Err(Refusal::Damaged((word >> 8 & 255) as u8)),
        2 => Err(Refusal::BadName),
        3 => Err(Refusal::NotKnown),
        4 => Err(Refusal::AlreadyKnown),
        5 => Err(Refusal::PastTheEnd),
        6 => Err(Refusal::StreamsFull),
        7 => Err(Refusal::NoRoom),
        8 => Err(Refusal::ShortTray),
        9 => Err(Refusal::BadShape),
        n => unreachable!("the archive answered {}, and its numbers are 0 to 9", n),
    }
}

pub fn count(word: usize) -> Result<usize, Refusal> {
    done(word).map(|()| word >> 16)
}

pub fn entry(word: usize) -> Result<Entry, Refusal> {
    done(word).map(|()| Entry {
        length: word >> 8 & 255,
        size: word >> 16,
    })
}
