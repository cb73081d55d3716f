//! The twelve cases of the layout page, byte by byte and number by number.

use second::generator::layout::Layout;
use second::shape::Shape;
use second::streams::Descriptor;
use second::{check, create, delete, format, read, room, size, truncate, write};
use second::{Outcome, Refusal};

const S: u64 = 6;
const LENGTH: usize = 343;

fn done() -> Outcome {
    Outcome::DONE
}

fn counted(count: u64) -> Outcome {
    Outcome { count, ..done() }
}

/// Block b of a card with 64-byte blocks.
fn block(card: &[u8], b: usize) -> &[u8] {
    &card[87 + 64 * b..87 + 64 * (b + 1)]
}

/// The header's descriptor of the table.
fn table(card: &[u8]) -> Descriptor {
    Descriptor::decode(&card[45..70])
}

/// Blocks needed by a size on this card.
fn needs(size: u64) -> u64 {
    Shape::of(S, LENGTH).unwrap().blocks_needed(size)
}

/// The card of C1.
fn c1() -> Vec<u8> {
    let mut card = vec![0xA5; LENGTH];
    assert_eq!(format(&mut card, S), done());
    card
}

/// The card of C4: "a" created.
fn c4() -> Vec<u8> {
    let mut card = c1();
    assert_eq!(create(&mut card, b"a"), done());
    card
}

/// The card of C6: 64 bytes in "a".
fn c6() -> Vec<u8> {
    let mut card = c4();
    assert_eq!(write(&mut card, b"a", 0, &[0x77; 64]), counted(64));
    card
}

/// Makes a call that must be refused and must leave the card.
fn refused(card: &[u8], refusal: Refusal, call: impl FnOnce(&mut [u8]) -> Outcome) {
    let mut after = card.to_vec();
    assert_eq!(call(&mut after), Outcome::from(refusal));
    assert!(after == card, "{refusal} left its mark");
}

#[test]
fn c1_formatting_writes_every_byte() {
    let mut whole: Vec<u8> = Vec::new();
    whole.extend([0x59, 0x41, 0x4B, 0x31, 0x01, 0x57, 0x00]);
    whole.extend([0x07, 0x00, 0x6D, 0x65, 0x6D, 0x6F, 0x72, 0x79, 0x01]);
    whole.extend([0x12, 0x00, 0x62, 0x6C, 0x6F, 0x63, 0x6B, 0x73, 0x01]);
    whole.extend([0x06, 0x04]);
    whole.extend([0x01, 0, 0, 0, 0, 0, 0, 0, 0x00]);
    whole.extend([0x20, 0x00, 0x73, 0x74, 0x72, 0x65, 0x61, 0x6D, 0x01]);
    whole.extend([0x21, 0, 0, 0, 0, 0, 0, 0]);
    whole.extend([0; 8]);
    whole.extend([0x40, 0, 0, 0, 0, 0, 0, 0, 0x00]);
    whole.extend([0x0F, 0x00, 0x66, 0x69, 0x6C, 0x69, 0x6E, 0x67, 0x01]);
    whole.extend([0; 8]);
    assert_eq!(whole.len(), 87);
    let mut blocks = [[0; 64]; 4];
    blocks[0][..8].fill(0xFF);
    blocks[1][0] = 0x02;
    blocks[2][0] = 0x03;
    blocks[3][..4].fill(0xFF);
    whole.extend(blocks.concat());
    assert_eq!(c1(), whole);
    assert_eq!(check(&whole), done());
    assert_eq!(room(&whole), counted(3));
}

#[test]
fn c2_lengths_that_make_no_card() {
    for length in [342, 344, 87] {
        refused(&vec![0x5A; length], Refusal::BadShape, |card| {
            format(card, S)
        });
    }
}

#[test]
fn c3_block_sizes_that_make_no_card() {
    for s in [5, 13] {
        refused(&[0x5A; LENGTH], Refusal::BadShape, |card| format(card, s));
        refused(&c6(), Refusal::BadShape, |card| format(card, s));
    }
}

#[test]
fn c4_the_first_stream() {
    let card = c4();
    let own = table(&card);
    assert_eq!((own.size, own.top, own.reserved, own.flags), (58, 0, 64, 0));
    let root = Descriptor::decode(&block(&card, 0)[8..33]);
    assert_eq!((root.size, root.top, root.reserved), (7, 1, 64));
    assert_eq!(block(&card, 0)[33..58], [0; 25]);
    let entry = [0x01, 0x00, 0x00, 0x00, 0x01, 0x00, 0x61];
    assert_eq!(block(&card, 1)[..7], entry);
    assert_eq!(block(&card, 1)[7..], [0; 57]);
    assert_eq!(room(&card), counted(2));
    assert_eq!(check(&card), done());
}

#[test]
fn c5_two_data_blocks_need_a_redirector_too() {
    let card = c4();
    assert_eq!(needs(65) - needs(0), 3);
    refused(&card, Refusal::NoRoom, |card| {
        write(card, b"a", 0, &[1; 65])
    });
}

#[test]
fn c6_one_whole_block_needs_no_redirector() {
    let card = c6();
    assert_eq!(needs(64) - needs(0), 1);
    assert_eq!(block(&card, 2), [0x77; 64]);
    let a = Descriptor::decode(&block(&card, 0)[33..58]);
    assert_eq!((a.size, a.top, a.reserved, a.flags), (64, 2, 64, 0));
    assert_eq!(room(&card), counted(1));
    assert_eq!(check(&card), done());
}

#[test]
fn c7_one_byte_more() {
    let card = c6();
    assert_eq!(needs(65) - needs(64), 2);
    refused(&card, Refusal::NoRoom, |card| write(card, b"a", 64, &[1]));
    refused(&card, Refusal::PastTheEnd, |card| {
        write(card, b"a", 65, &[1])
    });
}

#[test]
fn c8_a_second_stream_takes_the_last_blocks() {
    let mut card = c4();
    assert_eq!(needs(83) - needs(58), 2);
    assert_eq!(needs(14) - needs(7), 0);
    assert_eq!(create(&mut card, b"b"), done());
    // The new top is taken first, with the old top in slot 0; then the data block.
    let own = table(&card);
    assert_eq!((own.size, own.top, own.reserved), (83, 2, 128));
    assert_eq!(block(&card, 2)[..8], [0, 0, 0, 0, 3, 0, 0, 0]);
    assert_eq!(block(&card, 2)[8..], [0; 56]);
    assert_eq!(block(&card, 3), [0; 64]);
    let entries = [1, 0, 0, 0, 1, 0, 0x61, 2, 0, 0, 0, 1, 0, 0x62];
    assert_eq!(block(&card, 1)[..14], entries);
    assert_eq!(card[27..35], [0xFF; 8]);
    assert_eq!(room(&card), counted(0));
    assert_eq!(check(&card), done());
}

#[test]
fn c9_no_room_for_a_longer_table() {
    let card = c6();
    assert_eq!(room(&card), counted(1));
    refused(&card, Refusal::NoRoom, |card| create(card, b"b"));
}

#[test]
fn c10_deleting_gives_everything_back() {
    let mut card = c6();
    assert_eq!(delete(&mut card, b"a"), done());
    let layout = Layout::read(&card).expect("sound");
    assert_eq!(layout.chain, [1, 2, 3]);
    assert_eq!(card[27..35], [1, 0, 0, 0, 0, 0, 0, 0]);
    assert_eq!(block(&card, 1)[..4], [2, 0, 0, 0]);
    assert_eq!(block(&card, 2)[..4], [3, 0, 0, 0]);
    assert_eq!(block(&card, 3)[..4], [0xFF; 4]);
    // Only the first 4 bytes of a freed block change.
    assert_eq!(block(&card, 1)[4..7], [0x01, 0x00, 0x61]);
    assert_eq!(block(&card, 2)[4..], [0x77; 60]);
    assert_eq!(block(&card, 0)[..8], [33, 0, 0, 0, 0, 0, 0, 0]);
    assert_eq!(block(&card, 0)[8..33], [0; 25]);
    assert_eq!(block(&card, 0)[33..49], [0xFF; 16]);
    assert_eq!(block(&card, 0)[49..58], [0; 9]);
    assert_eq!((table(&card).size, room(&card)), (58, counted(3)));
    assert_eq!(check(&card), done());
}

#[test]
fn c11_reading_at_the_size() {
    let card = c6();
    let mut tray = [0xEE; 9];
    assert_eq!(read(&card, b"a", 64, &mut tray), counted(0));
    assert_eq!(tray, [0xEE; 9]);
    let past = Outcome::from(Refusal::PastTheEnd);
    assert_eq!(read(&card, b"a", 65, &mut tray), past);
    assert_eq!(read(&card, b"a", 60, &mut tray), counted(4));
    assert_eq!(tray, [0x77, 0x77, 0x77, 0x77, 0xEE, 0xEE, 0xEE, 0xEE, 0xEE]);
    let expected = Outcome { size: 64, ..done() };
    assert_eq!(size(&card, b"a"), expected);
}

#[test]
fn c12_the_longest_name() {
    let mut card = c1();
    // The table still fits its block; the entry of 70 bytes needs two blocks and a redirector.
    assert_eq!((needs(58) - needs(33)) + (needs(70) - needs(0)), 3);
    refused(&card, Refusal::BadName, |card| create(card, &[b'n'; 65]));
    assert_eq!(create(&mut card, &[b'n'; 64]), done());
    assert_eq!(room(&card), counted(0));
    assert_eq!(check(&card), done());
    // The first data block, then the new top over it, then the second data block.
    let layout = Layout::read(&card).expect("sound");
    assert_eq!(layout.root, vec![vec![1, 3], vec![2]]);
}

#[test]
fn truncating_and_writing_nothing_on_a_full_card() {
    let mut card = c4();
    assert_eq!(create(&mut card, b"b"), done());
    let full = card.clone();
    assert_eq!(write(&mut card, b"a", 0, &[]), done());
    assert_eq!(truncate(&mut card, b"a", 0), done());
    assert!(card == full);
    refused(&card, Refusal::PastTheEnd, |card| write(card, b"a", 1, &[]));
    refused(&card, Refusal::PastTheEnd, |card| truncate(card, b"a", 1));
    refused(&card, Refusal::NoRoom, |card| write(card, b"a", 0, &[1]));
}
