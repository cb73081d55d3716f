//! A small filing system inside a file, as an ordinary program.
//!
//! This is the store's independent second implementation. It was written from the layout page
//! (docs/LAYOUT.md) and from nobody's definitions, so that two programs can judge each other.
//!
//! A *card* is any slice of bytes. Each of the ten [`calls`] examines the card before anything
//! else, gives the lowest refusal that applies, and on a refusal leaves card and tray as they
//! were. No input makes a call panic or run for ever.
//!
//! The [`generator`] holds what tests and other programs share: the dice, plain lists, random
//! runs, the card as lists, scrambled cards and damage. The [`cases`] are damaged and scrambled
//! cards by a description of their own, which the proved check is asked about too; the [`runs`] are
//! rows of calls by the same page, which the proved store makes too. The [`cards`] are those of earlier
//! versions, which every later one is held to.

#![forbid(unsafe_code)]
#![warn(missing_docs)]

pub mod answer;
pub mod bytes;
pub mod calls;
pub mod cards;
pub mod cases;
pub mod chain;
pub mod check;
pub mod filing;
pub mod generator;
pub mod header;
pub mod pyramid;
pub mod runs;
pub mod shape;
pub mod streams;
pub mod sum;
pub mod table;

pub use answer::{Outcome, Refusal};
pub use calls::{check, create, delete, format, list, read, room, size, truncate, write};
