//! A filing system inside one run of bytes, the *card*, with every promise proved.
//!
//! Ten calls on slices. Any bytes may be handed over as a card, with any name, place or length: a
//! call examines the card itself, and a refusal leaves card and tray byte for byte as they were.
//! Nothing here allocates, keeps a reference or does anything with a file: where the card comes
//! from and where it goes is the caller's.
//!
//! For every input, the answer and every byte of card and tray are proved to be those of the
//! layout page (docs/LAYOUT.md). Not proved: that the stack suffices (each call needs less than
//! 256 KiB, by a test), the compiler's back end, and this file.
//!
//! ```
//! let mut card = vec![0; 87 + 16 * 64];
//! lamporchid::format(&mut card, 6)?;
//! lamporchid::create(&mut card, b"boxes")?;
//! lamporchid::write(&mut card, b"boxes", 0, b"two hundred")?;
//! let mut tray = [0; 64];
//! let n = lamporchid::read(&card, b"boxes", 4, &mut tray)?;
//! assert_eq!(&tray[..n], b"hundred");
//! assert_eq!(lamporchid::create(&mut card, b"boxes"), Err(lamporchid::Refusal::AlreadyKnown));
//! # Ok::<(), lamporchid::Refusal>(())
//! ```

#![warn(missing_docs)]

mod archive;
mod refusal;
mod word;

pub use refusal::Refusal;

/// An entry that was listed: the tray's first `length` bytes are its name.
#[derive(Clone, Copy, Debug, PartialEq, Eq)]
pub struct Entry {
    /// How long the name is, 1 to 64.
    pub length: usize,
    /// How many bytes the stream has.
    pub size: usize,
}

/// The card becomes a new one with blocks of 2 to the `s` bytes, `s` from 6 to 12. Its length must
/// be 87 and 1 to 4,096 whole blocks. Whatever it held is gone.
pub fn format(card: &mut [u8], s: usize) -> Result<(), Refusal> {
    word::done(archive::format(card, s))
}

/// Whether the card is sound.
pub fn check(card: &[u8]) -> Result<(), Refusal> {
    word::done(archive::check(card))
}

/// How many blocks are free.
pub fn room(card: &[u8]) -> Result<usize, Refusal> {
    word::count(archive::room(card))
}

/// A new stream of no bytes.
pub fn create(card: &mut [u8], name: &[u8]) -> Result<(), Refusal> {
    word::done(archive::create(card, name))
}

/// How many bytes a stream has.
pub fn size(card: &[u8], name: &[u8]) -> Result<usize, Refusal> {
    word::count(archive::size(card, name))
}

/// The data goes into the stream from `place` on, which is not past its end, and lengthens it where
/// it must: all of it, or a refusal. Gives how many bytes that were.
pub fn write(card: &mut [u8], name: &[u8], place: usize, data: &[u8]) -> Result<usize, Refusal> {
    word::count(archive::write(card, name, place, data))
}

/// The stream's bytes from `place` on go into the tray, as far as both go. Gives how many bytes
/// that were; the tray's rest stays.
pub fn read(card: &[u8], name: &[u8], place: usize, tray: &mut [u8]) -> Result<usize, Refusal> {
    word::count(archive::read(card, name, place, tray))
}

/// The stream's first `n` bytes are kept; `n` is not above its size.
pub fn truncate(card: &mut [u8], name: &[u8], n: usize) -> Result<(), Refusal> {
    word::done(archive::truncate(card, name, n))
}

/// The stream goes, and its blocks are free again.
pub fn delete(card: &mut [u8], name: &[u8]) -> Result<(), Refusal> {
    word::done(archive::delete(card, name))
}

/// The name of entry `k`, counted from 0, goes into the tray, which has 64 bytes at least.
pub fn list(card: &[u8], k: usize, tray: &mut [u8]) -> Result<Entry, Refusal> {
    word::entry(archive::list(card, k, tray))
}
