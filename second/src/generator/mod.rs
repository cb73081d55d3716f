//! What tests and other programs share to try the store out.
//!
//! - [`dice`]: splitmix64, the one source of chance. The same seed gives the same run anywhere.
//! - [`call`]: a call as a value, to be made, kept and made again.
//! - [`plain`]: the plain list of names with their bytes, which says what each call answers.
//! - [`runs`]: random calls that suit a plain list, refusals included.
//! - [`layout`]: a sound card as lists of blocks, read and written by their own means.
//! - [`oracle`]: every byte of the card after an accepted call, worked out on those lists.
//! - [`scramble`]: another sound card with the same names and bytes.
//! - [`damage`]: a card with one thing wrong, or nearly.
//!
//! Nothing here uses the store's own code for walking, growing or freeing, so that a slip there
//! is not repeated here. What is shared is the shape, the header's fixed bytes, the numbers and,
//! as the gate to [`layout::Layout::read`], the check.

pub mod call;
pub mod damage;
pub mod dice;
pub mod layout;
pub mod oracle;
pub mod plain;
pub mod runs;
pub mod scramble;

/// A card with blocks of 2^s bytes and so many streams, with names of `length` bytes and 100 bytes in each.
///
/// Panics where they do not fit: it is for tests and benchmarks.
pub fn filled(s: u64, blocks: usize, streams: usize, length: usize) -> Vec<u8> {
    let mut card = vec![0; 87 + blocks * (1 << s)];
    assert!(crate::format(&mut card, s).is_done());
    for k in 0..streams {
        let name = format!("{k:0length$}");
        assert!(crate::create(&mut card, name.as_bytes()).is_done());
        assert!(crate::write(&mut card, name.as_bytes(), 0, &[7; 100]).is_done());
    }
    card
}
