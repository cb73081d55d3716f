//! The cards of `cards/`, which every later version is held to: how they are judged, what they hold, how the base made them.

use crate::generator::dice::Dice;
use crate::generator::scramble::scramble;
use crate::sum;
use crate::{check, create, delete, format, list, read, room, size, truncate, write};
use std::path::Path;

/// A card and its name.
pub type Named = (String, Vec<u8>);

/// The cards of the folder, in the order of their names.
pub fn files() -> Vec<Named> {
    let folder = Path::new(concat!(env!("CARGO_MANIFEST_DIR"), "/../cards"));
    let mut out = Vec::new();
    for file in std::fs::read_dir(folder).expect("cards/") {
        let path = file.expect("a file of cards/").path();
        if path.extension().is_some_and(|word| word == "card") {
            let name = path.file_stem().expect("a name").to_string_lossy();
            out.push((name.into_owned(), std::fs::read(&path).expect("a card")));
        }
    }
    out.sort();
    out
}

/// How a card is judged and what it holds, as the text beside it says.
pub fn described(card: &[u8]) -> String {
    let mut out = format!("bytes {} sum {:016x}\n", card.len(), sum::of(&[card]));
    out += &format!("rule {}\n", check(card).rule);
    out += &format!("free {}\n", room(card).count);
    for name in names(card) {
        let size = size(card, &name).size;
        let mut bytes = vec![0; size as usize];
        assert_eq!(read(card, &name, 0, &mut bytes).count, size);
        let hex: String = name.iter().map(|byte| format!("{byte:02x}")).collect();
        out += &format!("name {hex} size {size} sum {:016x}\n", sum::of(&[&bytes]));
    }
    out
}

/// The names on a card, in order; none where it is not sound.
fn names(card: &[u8]) -> Vec<Vec<u8>> {
    let mut tray = [0; 64];
    let mut out = Vec::new();
    loop {
        let answer = list(card, out.len() as u64, &mut tray);
        if !answer.is_done() {
            return out;
        }
        out.push(tray[..answer.length as usize].to_vec());
    }
}

/// The cards that the base left, as they were made.
pub fn base() -> Vec<Named> {
    let cards = [
        ("bell", bell()),
        ("crowd", crowd()),
        ("full", full()),
        ("leaked", leaked()),
        ("old-bytes", old_bytes()),
        ("scrambled", scrambled()),
    ];
    cards
        .map(|(name, card)| (format!("base-{name}"), card))
        .into()
}

/// An empty card with so many blocks of 64 bytes.
fn empty(blocks: usize) -> Vec<u8> {
    let mut card = vec![0; 87 + 64 * blocks];
    assert!(format(&mut card, 6).is_done());
    card
}

/// A new stream of so many bytes, no two neighbours the same.
fn add(card: &mut [u8], name: &[u8], length: usize) {
    let bytes: Vec<u8> = (0..length).map(|i| (1 + i % 251) as u8).collect();
    assert!(create(card, name).is_done());
    assert!(write(card, name, 0, &bytes).is_done());
}

/// Names with a bell, a zero, a line feed and the highest byte in them.
fn bell() -> Vec<u8> {
    let mut card = empty(12);
    add(&mut card, b"ring\x07", 7);
    add(&mut card, b"\0", 64);
    add(&mut card, b"two\nlines", 0);
    add(&mut card, &[0xFF; 64], 1);
    card
}

/// Every descriptor live: each byte but "/" is a name.
fn crowd() -> Vec<u8> {
    let mut card = empty(150);
    for byte in (0..=255).filter(|&byte| byte != b'/') {
        add(&mut card, &[byte], usize::from(byte == b'a'));
    }
    card
}

/// No block is free.
fn full() -> Vec<u8> {
    let mut card = empty(8);
    add(&mut card, b"a", 64);
    add(&mut card, b"b", 128);
    assert_eq!(room(&card).count, 0);
    card
}

/// Free blocks and bytes past ends hold what stood there before; one descriptor is free.
fn old_bytes() -> Vec<u8> {
    let mut card = empty(16);
    add(&mut card, b"list", 200);
    add(&mut card, b"gone", 130);
    add(&mut card, b"kept", 64);
    assert!(delete(&mut card, b"gone").is_done());
    assert!(truncate(&mut card, b"list", 70).is_done());
    card
}

/// The same with a chain that ends early: rule 7.
fn leaked() -> Vec<u8> {
    let mut card = old_bytes();
    let first = usize::from(card[27]);
    card[87 + 64 * first..][..4].fill(0xFF);
    card
}

/// As a stranger might have written it: blocks, descriptors, entries and both chains in another order, noise elsewhere; one
/// stream has two rows of redirectors.
fn scrambled() -> Vec<u8> {
    let mut card = empty(60);
    for (name, length) in [("a", 0), ("b", 64), ("c", 65), ("d", 300), ("e", 1089)] {
        add(&mut card, name.as_bytes(), length);
    }
    for name in ["b", "d"] {
        assert!(delete(&mut card, name.as_bytes()).is_done());
    }
    scramble(&card, &mut Dice::new(1)).expect("a sound card")
}
