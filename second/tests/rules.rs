//! The eight rules, each broken on purpose clause by clause; noise and damage in any number.

use second::bytes::{get_u32, put_u32, put_u64};
use second::generator::call::Call;
use second::generator::damage::damage;
use second::generator::dice::Dice;
use second::generator::layout::{byte_at, slot_at, Layout, Rows};
use second::generator::oracle::card_after;
use second::generator::runs::{random_call, MIXED};
use second::generator::scramble::scramble;
use second::{check, create, delete, format, write, Outcome, Refusal};

const BLOCKS: u64 = 120;
const LONG: [u8; 60] = [b'l'; 60];

/// A card with pyramids of height 0 to 2, a tall table and root, and three free descriptors.
fn rich() -> Vec<u8> {
    let mut card = vec![0; 87 + 64 * BLOCKS as usize];
    let mut dice = Dice::new(9);
    assert!(format(&mut card, 6).is_done());
    let names = [&b"a"[..], b"b", b"c", b"d", b"e", b"f", &LONG, b"g", b"h"];
    for name in names {
        assert!(create(&mut card, name).is_done());
    }
    for (name, length) in [(b"b", 40), (b"c", 64 * 20), (b"d", 64 * 3 - 5), (b"e", 64)] {
        assert!(write(&mut card, name, 0, &dice.bytes(length)).is_done());
    }
    for name in [b"f", b"g", b"h"] {
        assert!(delete(&mut card, name).is_done());
    }
    card
}

/// The rich card and two scrambled ones.
fn rich_ones() -> Vec<Vec<u8>> {
    let mut dice = Dice::new(10);
    let card = rich();
    let mut cards = vec![card.clone()];
    cards.extend((0..2).map(|_| scramble(&card, &mut dice).expect("sound")));
    cards
}

/// One call of every kind that asks for a sound card.
fn every_call() -> Vec<Call> {
    vec![
        Call::Check,
        Call::Room,
        Call::create(b"new"),
        Call::create(b""),
        Call::write(b"b", 0, vec![1, 2, 3]),
        Call::read(b"b", u64::MAX, 5),
        Call::truncate(b"b", 1),
        Call::delete(b"b"),
        Call::size(b"b"),
        Call::List { k: 0, tray: 64 },
    ]
}

/// Every call must answer DAMAGED with this rule and leave card and tray.
fn must_be_damaged(card: &[u8], rule: u8, what: &str) {
    for call in every_call() {
        let mut after = card.to_vec();
        let mut tray = vec![0xEE; call.tray_length()];
        let answer = call.run(&mut after, &mut tray);
        assert_eq!(answer, Refusal::Damaged(rule).into(), "{what}: {call:?}");
        assert!(
            after == card && tray.iter().all(|&b| b == 0xEE),
            "{what}: {call:?}"
        );
    }
}

/// Breaks the rich cards and expects this rule.
fn breaks(rule: u8, what: &str, edit: impl Fn(&mut Vec<u8>, &Layout)) {
    for mut card in rich_ones() {
        let layout = Layout::read(&card).expect("sound");
        edit(&mut card, &layout);
        must_be_damaged(&card, rule, what);
    }
}

/// Changes the lists, writes them over the card and expects this rule.
fn breaks_lists(rule: u8, what: &str, edit: impl Fn(&mut Layout)) {
    breaks(rule, what, |card, layout| {
        let mut layout = layout.clone();
        edit(&mut layout);
        layout.write(card);
    });
}

fn index(layout: &Layout, name: &[u8]) -> u64 {
    layout.find(name).expect("a known name")
}

fn rows<'a>(layout: &'a Layout, name: &[u8]) -> &'a Rows {
    &layout.streams[&index(layout, name)].rows
}

fn top(rows: &Rows) -> u64 {
    rows[rows.len() - 1][0]
}

/// Writes over the bytes of a stream.
fn put(card: &mut [u8], layout: &Layout, rows: &Rows, offset: u64, bytes: &[u8]) {
    for (i, &byte) in bytes.iter().enumerate() {
        card[byte_at(layout.shape, rows, offset as usize + i)] = byte;
    }
}

const SIZE: u64 = 0;
const TOP: u64 = 8;
const RESERVED: u64 = 16;
const FLAGS: u64 = 24;

/// Writes a field of descriptor k.
fn put_field(card: &mut [u8], layout: &Layout, k: u64, field: u64, value: u64) {
    let bytes = value.to_le_bytes();
    let length = if field == FLAGS { 1 } else { 8 };
    put(
        card,
        layout,
        &layout.table,
        8 + 25 * k + field,
        &bytes[..length],
    );
}

/// Writes a field of a named stream's descriptor.
fn put_named(card: &mut [u8], layout: &Layout, name: &[u8], field: u64, value: u64) {
    put_field(card, layout, index(layout, name), field, value);
}

/// Writes the offset of the first free descriptor.
fn put_head(card: &mut [u8], layout: &Layout, offset: u64) {
    put(card, layout, &layout.table, 0, &offset.to_le_bytes());
}

/// Writes a block's index into the slot for number i of row `below`.
fn put_slot(card: &mut [u8], layout: &Layout, rows: &Rows, slot: (usize, usize), block: u64) {
    put_u32(
        card,
        slot_at(layout.shape, rows, slot.0, slot.1),
        block as u32,
    );
}

#[test]
fn the_rich_cards_are_sound() {
    for card in rich_ones() {
        assert_eq!(check(&card), Outcome::DONE);
        let layout = Layout::read(&card).expect("sound");
        assert_eq!((layout.table.len(), layout.root.len()), (2, 2));
        assert_eq!((layout.spare.len(), layout.descriptors()), (3, 10));
        let heights = [&b"a"[..], b"b", b"c", b"d", b"e"].map(|name| rows(&layout, name).len());
        assert_eq!(heights, [0, 1, 3, 2, 1]);
        assert!(layout.chain.len() > 3);
    }
}

#[test]
fn rule_1_at_least_87_bytes() {
    let card = rich();
    for length in 0..87 {
        must_be_damaged(&card[..length], 1, "too short");
    }
    must_be_damaged(&[], 1, "no bytes");
}

#[test]
fn rule_2_every_fixed_byte() {
    let card = rich();
    let fixed = (0..=24).chain([26]).chain(35..=44).chain(70..=86);
    for at in fixed {
        for flip in [0x01, 0x20, 0x80, 0xFF] {
            let mut card = card.clone();
            card[at] ^= flip;
            must_be_damaged(&card, 2, &format!("byte {at}"));
        }
    }
    must_be_damaged(&[0; 87], 2, "zeros");
}

#[test]
fn rule_2_leaves_the_other_bytes_to_later_rules() {
    let card = rich();
    for at in (25..26).chain(27..35).chain(45..70) {
        let mut card = card.clone();
        card[at] ^= 0xFF;
        assert!(check(&card).rule > 2, "byte {at}");
    }
}

#[test]
fn rule_3_block_size_and_whole_blocks() {
    for s in [0, 1, 5, 13, 64, 134, 255] {
        breaks(3, "s out of range", |card, _| card[25] = s);
    }
    breaks(3, "the header alone", |card, _| card.truncate(87));
    for length in [88, 87 + 63, 87 + 65] {
        breaks(3, "no whole block", |card, _| card.truncate(length));
    }
    breaks(3, "a byte less", |card, _| card.truncate(card.len() - 1));
    breaks(3, "a byte more", |card, _| card.push(0));
    breaks(3, "4,097 blocks", |card, _| card.resize(87 + 4097 * 64, 0));
    // s = 7 reads 120 blocks of 64 as 60 of 128, so a later rule breaks.
    breaks(4, "another s", |card, _| card[25] = 7);
}

#[test]
fn rule_3_lets_4096_blocks_pass() {
    let mut card = vec![0; 87 + 4096 * 64];
    assert!(format(&mut card, 6).is_done());
    assert_eq!(check(&card), Outcome::DONE);
    card.resize(87 + 4097 * 64, 0);
    must_be_damaged(&card, 3, "one block more");
}

#[test]
fn rule_4_the_tables_descriptor() {
    let sizes = [
        0,
        1,
        7,
        8,
        32,
        34,
        257,
        259,
        8 + 25 * 257,
        u64::MAX,
        u64::MAX - 7,
    ];
    for size in sizes {
        breaks(4, "no 8 + 25n", |card, _| {
            let reserved = size.div_ceil(64).wrapping_mul(64);
            put_u64(card, 45 + SIZE as usize, size);
            put_u64(card, 45 + RESERVED as usize, reserved);
        });
    }
    for reserved in [
        0,
        5 * 64 - 1,
        5 * 64 + 1,
        4 * 64,
        6 * 64,
        u64::MAX,
        (1 << 32) + 5 * 64,
    ] {
        breaks(4, "reserved", |card, _| put_u64(card, 61, reserved));
    }
    for flags in [1, 0x80, 0xFF] {
        breaks(4, "flags", |card, _| card[69] = flags);
    }
    // 8 + 25 * 9 bytes have d = 4, still within 5 of the rich table, but reserved stays 320.
    breaks(4, "reserved of another d", |card, _| put_u64(card, 45, 233));
}

#[test]
fn rule_4_the_tables_pyramid() {
    for top in [BLOCKS, u32::MAX.into(), u64::MAX, u64::MAX - 1, 1 << 32] {
        breaks(4, "top out of range", |card, _| put_u64(card, 53, top));
    }
    breaks(4, "top beyond 32 bits", |card, layout| {
        put_u64(card, 53, (1 << 32) + top(&layout.table));
    });
    for i in 0..5 {
        for block in [BLOCKS, u32::MAX.into()] {
            breaks(4, "slot out of range", |card, layout| {
                put_slot(card, layout, &layout.table, (0, i), block);
            });
        }
        breaks(4, "slot of the top itself", |card, layout| {
            put_slot(card, layout, &layout.table, (0, i), top(&layout.table));
        });
        breaks(4, "slot twice", |card, layout| {
            let other = layout.table[0][(i + 1) % 5];
            put_slot(card, layout, &layout.table, (0, i), other);
        });
    }
}

#[test]
fn rule_4_at_most_256_descriptors() {
    let mut card = vec![0; 87 + 64 * 400];
    assert!(format(&mut card, 6).is_done());
    for k in 0..255u32 {
        assert!(create(&mut card, format!("{k}").as_bytes()).is_done());
    }
    assert_eq!(check(&card), Outcome::DONE);
    // One more fits the table's blocks, and all zero it would be a live, empty descriptor.
    put_u64(&mut card, 45, 8 + 25 * 257);
    must_be_damaged(&card, 4, "257 descriptors");
}

#[test]
fn rule_4_more_table_than_card() {
    let mut card = vec![0; 343];
    assert!(format(&mut card, 6).is_done());
    for (n, d) in [(10, 5), (256, 101)] {
        put_u64(&mut card, 45, 8 + 25 * n);
        put_u64(&mut card, 61, 64 * d);
        must_be_damaged(&card, 4, "d above the block count");
    }
    // d = 4 is not above 4 blocks, but P = 5 is: some index must be out of range or repeated.
    put_u64(&mut card, 45, 8 + 25 * 9);
    put_u64(&mut card, 61, 64 * 4);
    put_u64(&mut card, 53, 1);
    for (i, block) in [0, 2, 3, 1].into_iter().enumerate() {
        put_u32(&mut card, 87 + 64 + 4 * i, block);
    }
    must_be_damaged(&card, 4, "P above the block count");
}

#[test]
fn rule_5_live_descriptors() {
    for name in [&b"a"[..], b"b", b"c", b"e"] {
        for flags in [1, 0x80] {
            breaks(5, "flags", |card, layout| {
                put_named(card, layout, name, FLAGS, flags)
            });
        }
        for reserved in [1, 63, 65, 4096, u64::MAX, 1 << 32] {
            breaks(5, "reserved", |card, layout| {
                put_named(card, layout, name, RESERVED, reserved);
            });
        }
    }
    breaks(5, "the root's flags", |card, layout| {
        put_field(card, layout, 0, FLAGS, 1)
    });
    breaks(5, "the root's reserved", |card, layout| {
        put_field(card, layout, 0, RESERVED, 64)
    });
    for top in [1, BLOCKS, u32::MAX.into(), u64::MAX - 1] {
        breaks(5, "top of an empty stream", |card, layout| {
            put_named(card, layout, b"a", TOP, top);
        });
    }
}

#[test]
fn rule_5_streams_longer_than_the_card() {
    for (size, reserved) in [
        (64 * BLOCKS + 1, 64 * (BLOCKS + 1)),
        (u64::MAX, 0),
        (u64::MAX, u64::MAX - 63),
        (u64::MAX - 63, u64::MAX - 63),
        (1 << 63, 1 << 63),
    ] {
        breaks(5, "d above the block count", |card, layout| {
            put_named(card, layout, b"b", SIZE, size);
            put_named(card, layout, b"b", RESERVED, reserved);
        });
    }
}

#[test]
fn rule_5_half_free() {
    breaks(5, "half free", |card, layout| {
        put_named(card, layout, b"b", TOP, u64::MAX)
    });
    breaks(5, "free but on no chain", |card, layout| {
        put_named(card, layout, b"b", TOP, u64::MAX);
        put_named(card, layout, b"b", RESERVED, 0);
    });
}

#[test]
fn rule_5_free_descriptors() {
    for which in 0..3 {
        breaks(5, "flags", |card, layout| {
            put_field(card, layout, layout.spare[which], FLAGS, 1);
        });
        breaks(5, "reserved", |card, layout| {
            put_field(card, layout, layout.spare[which], RESERVED, 64);
        });
        for top in [0, 5, BLOCKS, u64::MAX - 1, u32::MAX.into()] {
            breaks(5, "top not all FF", |card, layout| {
                put_field(card, layout, layout.spare[which], TOP, top);
            });
        }
        breaks(5, "a live one on the chain", |card, layout| {
            put_field(card, layout, layout.spare[which], SIZE, 0);
            put_field(card, layout, layout.spare[which], TOP, 0);
        });
    }
    breaks(5, "descriptor 0 free, and on the chain", |card, layout| {
        let head = 8 + 25 * layout.spare[0];
        for (field, value) in [(SIZE, head), (TOP, u64::MAX), (RESERVED, 0)] {
            put_field(card, layout, 0, field, value);
        }
        put_head(card, layout, 8);
    });
}

#[test]
fn rule_5_the_chain_of_free_descriptors() {
    let wrong = [
        0,
        7,
        9,
        33 + 1,
        8 + 25 * 10,
        8 + 25 * 256,
        u32::MAX.into(),
        u64::MAX - 1,
    ];
    for offset in wrong {
        breaks(5, "head at no descriptor", |card, layout| {
            put_head(card, layout, offset)
        });
        for which in 0..3 {
            breaks(5, "next at no descriptor", |card, layout| {
                put_field(card, layout, layout.spare[which], SIZE, offset);
            });
        }
    }
}

#[test]
fn rule_5_all_ff_has_eight_bytes() {
    let mut card = vec![0; 343];
    assert!(format(&mut card, 6).is_done());
    put_u32(&mut card, 87 + 4, 0);
    must_be_damaged(&card, 5, "four FF are an offset");
    put_u32(&mut card, 87, 33);
    must_be_damaged(&card, 5, "the offset past the last descriptor");
}

#[test]
fn rule_5_the_chain_meets_free_descriptors_only() {
    breaks(5, "head at the root's", |card, layout| {
        put_head(card, layout, 8)
    });
    breaks(5, "head at a live one", |card, layout| {
        put_head(card, layout, 8 + 25 * index(layout, b"c"));
    });
    breaks(5, "next at a live one", |card, layout| {
        put_field(
            card,
            layout,
            layout.spare[2],
            SIZE,
            8 + 25 * index(layout, b"a"),
        );
    });
}

/// A live stream whose size reads as the next free offset stands in for a free descriptor, so
/// that the chain still ends and meets as many as there are free ones.
#[test]
fn rule_5_a_live_descriptor_in_place_of_a_free_one() {
    let mut card = vec![0; 87 + 64 * 8];
    assert!(format(&mut card, 6).is_done());
    for name in [b"x", b"y", b"z"] {
        assert!(create(&mut card, name).is_done());
    }
    assert!(write(&mut card, b"z", 0, &[1; 33]).is_done());
    assert!(delete(&mut card, b"x").is_done() && delete(&mut card, b"y").is_done());
    let layout = Layout::read(&card).expect("sound");
    assert_eq!(layout.spare, [2, 1]);
    put_head(&mut card, &layout, 8 + 25 * 3);
    must_be_damaged(&card, 5, "z, then x, but not y");
}

#[test]
fn rule_5_the_chain_meets_every_free_descriptor_once() {
    breaks(5, "no head", |card, layout| {
        put_head(card, layout, u64::MAX)
    });
    breaks(5, "head at the second", |card, layout| {
        put_head(card, layout, 8 + 25 * layout.spare[1]);
    });
    for (from, to) in [(0, 0), (1, 0), (1, 1), (2, 0), (2, 1), (2, 2), (0, 2)] {
        breaks(5, "a ring or one left out", |card, layout| {
            put_field(
                card,
                layout,
                layout.spare[from],
                SIZE,
                8 + 25 * layout.spare[to],
            );
        });
    }
    for last in [0, 1] {
        breaks(5, "ends too soon", |card, layout| {
            put_field(card, layout, layout.spare[last], SIZE, u64::MAX);
        });
    }
}

#[test]
fn rule_6_tops() {
    for name in [&b"b"[..], b"c", b"d", b"e"] {
        for top in [BLOCKS, u32::MAX.into(), 1 << 32, u64::MAX - 1] {
            breaks(6, "top out of range", |card, layout| {
                put_named(card, layout, name, TOP, top);
            });
        }
        breaks(6, "top beyond 32 bits", |card, layout| {
            let top = (1 << 32) + top(rows(layout, name));
            put_named(card, layout, name, TOP, top);
        });
        breaks(6, "the table's top", |card, layout| {
            put_named(card, layout, name, TOP, top(&layout.table));
        });
        breaks(6, "the table's data", |card, layout| {
            put_named(card, layout, name, TOP, layout.table[0][4]);
        });
        breaks(6, "the root's top", |card, layout| {
            put_named(card, layout, name, TOP, top(&layout.root));
        });
    }
    breaks(6, "the root's top out of range", |card, layout| {
        put_field(card, layout, 0, TOP, BLOCKS);
    });
    breaks(6, "two streams share their block", |card, layout| {
        put_named(card, layout, b"b", TOP, top(rows(layout, b"e")));
    });
    breaks(6, "a stream takes another's data", |card, layout| {
        put_named(card, layout, b"b", TOP, rows(layout, b"c")[0][19]);
    });
    breaks(6, "d fits but P does not", |card, layout| {
        put_named(card, layout, b"c", SIZE, 64 * BLOCKS);
        put_named(card, layout, b"c", RESERVED, 64 * BLOCKS);
    });
}

/// Used slots of the tall streams: the first, the edges of a redirector, the last.
const SLOTS: [(&[u8], (usize, usize)); 5] = [
    (b"c", (0, 0)),
    (b"c", (0, 15)),
    (b"c", (0, 19)),
    (b"c", (1, 1)),
    (b"d", (0, 2)),
];

#[test]
fn rule_6_slots() {
    for (name, slot) in SLOTS {
        let names = |block: fn(&Layout) -> u64| {
            move |card: &mut Vec<u8>, layout: &Layout| {
                put_slot(card, layout, rows(layout, name), slot, block(layout));
            }
        };
        breaks(6, "slot out of range", names(|_| BLOCKS));
        breaks(6, "slot all FF", names(|_| u32::MAX.into()));
        breaks(6, "slot of the table", names(|l| l.table[0][0]));
        breaks(6, "slot of the root", names(|l| l.root[0][1]));
        breaks(6, "slot of another", names(|l| top(rows(l, b"e"))));
        breaks(6, "slot of its own top", |card, layout| {
            let rows = rows(layout, name);
            put_slot(card, layout, rows, slot, top(rows));
        });
        breaks(6, "slot twice", |card, layout| {
            let rows = rows(layout, name);
            let other = if slot.1 == 0 { 1 } else { slot.1 - 1 };
            put_slot(card, layout, rows, slot, rows[slot.0][other]);
        });
    }
    breaks(6, "the root's slot", |card, layout| {
        put_slot(card, layout, &layout.root, (0, 1), layout.root[0][0]);
    });
}

#[test]
fn rule_7_the_first_free_block() {
    for block in [BLOCKS, u32::MAX.into(), u64::MAX - 1, 1 << 32] {
        breaks(7, "out of range", |card, _| put_u64(card, 27, block));
    }
    breaks(7, "beyond 32 bits", |card, layout| {
        put_u64(card, 27, (1 << 32) + layout.chain[0]);
    });
    breaks(7, "none", |card, _| put_u64(card, 27, u64::MAX));
    breaks(7, "the second", |card, layout| {
        put_u64(card, 27, layout.chain[1])
    });
    breaks(7, "the table's top", |card, layout| {
        put_u64(card, 27, top(&layout.table))
    });
    breaks(7, "the root's data", |card, layout| {
        put_u64(card, 27, layout.root[0][0])
    });
    breaks(7, "a stream's redirector", |card, layout| {
        put_u64(card, 27, rows(layout, b"c")[1][0]);
    });
}

#[test]
fn rule_7_all_ff_has_eight_bytes() {
    let mut card = vec![0; 87 + 64];
    assert!(format(&mut card, 6).is_done());
    assert_eq!(check(&card), Outcome::DONE);
    for none in [u32::MAX.into(), u64::MAX << 32, 1, u64::MAX - 1] {
        put_u64(&mut card, 27, none);
        must_be_damaged(&card, 7, "no block of a full card");
    }
}

#[test]
fn rule_7_the_chain() {
    for at in [0, 1, 5] {
        for link in [BLOCKS, u64::from(u32::MAX) - 1, u32::MAX.into()] {
            breaks(7, "out of range or ends too soon", |card, layout| {
                put_u32(card, layout.shape.start(layout.chain[at]), link as u32);
            });
        }
    }
    for (from, to) in [(0, 2), (1, 5), (5, 7)] {
        breaks(7, "some left out", |card, layout| {
            let from = layout.shape.start(layout.chain[from]);
            put_u32(card, from, layout.chain[to] as u32);
        });
    }
    for (from, to) in [(0, 0), (1, 0), (5, 5), (7, 1)] {
        breaks(7, "a ring", |card, layout| {
            let from = layout.shape.start(layout.chain[from]);
            put_u32(card, from, layout.chain[to] as u32);
        });
    }
    breaks(7, "the last names itself", |card, layout| {
        let last = *layout.chain.back().expect("free blocks");
        put_u32(card, layout.shape.start(last), last as u32);
    });
}

#[test]
fn rule_7_pyramids_and_chain_apart() {
    breaks(7, "into a pyramid", |card, layout| {
        let last = *layout.chain.back().expect("free blocks");
        put_u32(
            card,
            layout.shape.start(last),
            rows(layout, b"b")[0][0] as u32,
        );
    });
    breaks(7, "a free block is a stream's as well", |card, layout| {
        put_named(card, layout, b"b", TOP, layout.chain[3]);
    });
    breaks(7, "a slot names a free block", |card, layout| {
        put_slot(card, layout, rows(layout, b"c"), (0, 7), layout.chain[2]);
    });
    breaks(
        7,
        "a stream shrinks and its block is left over",
        |card, layout| {
            put_named(card, layout, b"b", SIZE, 0);
            put_named(card, layout, b"b", TOP, 0);
            put_named(card, layout, b"b", RESERVED, 0);
        },
    );
}

#[test]
fn rule_7_an_added_block_is_left_over() {
    breaks(7, "one block more", |card, _| {
        card.resize(card.len() + 64, 0)
    });
}

#[test]
fn rule_8_reading_as_entries() {
    let size = |layout: &Layout| layout.root_bytes().len() as u64;
    for less in [1, 5, 6, 7] {
        breaks(
            8,
            "cut inside an entry, or an entry unread",
            |card, layout| {
                put_field(card, layout, 0, SIZE, size(layout) - less);
            },
        );
    }
    for more in [1, 5, 6, 7] {
        breaks(8, "more than the entries", |card, layout| {
            put_field(card, layout, 0, SIZE, size(layout) + more);
        });
    }
    breaks(8, "the last name runs past the end", |card, layout| {
        let last = layout.entries.last().expect("entries").1.len() as u64;
        put(
            card,
            layout,
            &layout.root,
            size(layout) - last - 2,
            &[last as u8 + 1],
        );
    });
    breaks(8, "a name of 65,535 bytes", |card, layout| {
        put(card, layout, &layout.root, 4, &[0xFF, 0xFF]);
    });
}

/// Puts another name into the entry of `old`.
fn rename(layout: &mut Layout, old: &[u8], new: &[u8]) {
    let mut entries = layout.entries.iter_mut();
    let entry = entries.find(|(_, name)| name == old).expect("a known name");
    entry.1 = new.to_vec();
}

/// Puts another index into the entry of a name.
fn repoint(layout: &mut Layout, name: &[u8], index: u64) {
    let mut entries = layout.entries.iter_mut();
    let entry = entries.find(|(_, n)| n == name).expect("a known name");
    entry.0 = index;
}

#[test]
fn rule_8_names() {
    breaks_lists(8, "an empty name", |layout| rename(layout, b"b", b""));
    breaks_lists(8, "65 bytes", |layout| rename(layout, &LONG, &[b'l'; 65]));
    for name in [&b"/"[..], b"x/", b"/x", b"x/y"] {
        breaks_lists(8, "a slash", |layout| rename(layout, b"b", name));
    }
    breaks_lists(8, "a name twice", |layout| rename(layout, b"b", b"c"));
    breaks_lists(8, "a longer name twice", |layout| {
        rename(layout, b"b", &LONG[..30]);
        rename(layout, &LONG, &LONG[..30]);
    });
}

#[test]
fn rule_8_lets_other_names_pass() {
    for name in [&[0][..], &[0, 0], b"bb", &[255], &[46], &[48], &[b'm'; 64]] {
        let mut card = rich();
        let mut layout = Layout::read(&card).expect("sound");
        rename(&mut layout, &LONG, name);
        // A shorter root may need one block less; then its rows are cut and freed by hand.
        if layout.root_bytes().len() <= 64 {
            let (kept, freed) = (layout.root[0][0], [layout.root[0][1], layout.root[1][0]]);
            layout.root = vec![vec![kept]];
            layout.chain.extend(freed);
        }
        layout.write(&mut card);
        assert_eq!(check(&card), Outcome::DONE, "{name:?}");
    }
}

#[test]
fn rule_8_indices() {
    breaks_lists(8, "the root's own index", |layout| repoint(layout, b"b", 0));
    for index in [10, 255, 256, 65_537, u32::MAX.into()] {
        breaks_lists(8, "no descriptor", |layout| repoint(layout, b"b", index));
    }
    for which in 0..3 {
        breaks_lists(8, "a free one", |layout| {
            let free = layout.spare[which];
            repoint(layout, b"b", free);
        });
    }
    breaks_lists(8, "an index twice", |layout| {
        let other = index(layout, b"e");
        repoint(layout, b"b", other);
    });
    for name in [&b"a"[..], b"b", b"c"] {
        breaks_lists(8, "a live stream without a name", |layout| {
            layout.entries.retain(|(_, n)| n != name);
        });
    }
    breaks_lists(8, "streams and an empty root", |layout| {
        layout.entries.clear();
        let root = std::mem::take(&mut layout.root);
        layout.chain.extend(root.into_iter().flatten());
    });
    breaks_lists(8, "a free descriptor made live", |layout| {
        let index = layout.spare.pop_back().expect("a free descriptor");
        let unnamed = layout.streams[&layout.find(b"a").expect("known")].clone();
        layout.streams.insert(index, unnamed);
    });
}

#[test]
fn the_lowest_broken_rule_is_told() {
    type Edit = fn(&mut Vec<u8>, &Layout);
    let edits: [Edit; 8] = [
        |card, _| card.truncate(86),
        |card, _| card[0] = 0,
        |card, _| card[25] = 13,
        |card, _| card[69] = 1,
        |card, layout| put_named(card, layout, b"b", FLAGS, 1),
        |card, layout| put_named(card, layout, b"b", TOP, BLOCKS),
        |card, _| put_u64(card, 27, BLOCKS),
        |card, layout| put(card, layout, &layout.root, 6, b"/"),
    ];
    for low in 0..8 {
        breaks(low as u8 + 1, "one rule", edits[low]);
        for high in low + 1..8 {
            breaks(low as u8 + 1, "two rules", |card, layout| {
                edits[high](card, layout);
                edits[low](card, layout);
            });
        }
    }
}

/// Which bytes of the card are used: those that writing the lists determines.
fn used(card: &[u8], layout: &Layout) -> Vec<bool> {
    let [mut low, mut high] = [0x00, 0xFF].map(|byte| vec![byte; card.len()]);
    layout.write(&mut low);
    layout.write(&mut high);
    low.iter()
        .zip(&high)
        .map(|(low, high)| low == high)
        .collect()
}

#[test]
fn unused_bytes_may_hold_anything() {
    let mut card = rich();
    let layout = Layout::read(&card).expect("sound");
    let used = used(&card, &layout);
    let unused: Vec<usize> = (0..card.len()).filter(|&at| !used[at]).collect();
    assert!(unused.len() > 3000);
    for at in unused {
        card[at] ^= 0xA7;
        assert_eq!(check(&card), Outcome::DONE, "byte {at}");
    }
    assert!(Layout::read(&card).expect("sound") == layout);
}

/// A card that passes has every used byte as its lists demand, and every block one owner.
fn must_be_what_its_lists_say(card: &[u8]) {
    let layout = Layout::read(card).expect("a card that passes");
    let mut again = card.to_vec();
    layout.write(&mut again);
    assert!(again == card, "a card that passes is not sound");
    let held = layout.streams.values().map(|held| &held.rows);
    let rows = held
        .chain([&layout.table, &layout.root])
        .flatten()
        .flatten();
    let mut blocks: Vec<u64> = rows.chain(&layout.chain).copied().collect();
    blocks.sort_unstable();
    assert!(blocks.into_iter().eq(0..layout.shape.count()));
}

/// Damages cards in many ways; each either passes and works, or answers one rule everywhere.
#[test]
fn damage_is_told_or_does_no_harm() {
    let mut dice = Dice::new(77);
    let sound = rich_ones();
    let mut rules = [0u64; 9];
    for round in 0..12_000 {
        let mut card = sound[round % 3].clone();
        for _ in 0..1 + dice.below(2) {
            damage(&mut card, &mut dice);
        }
        let Outcome { rule, .. } = check(&card);
        rules[usize::from(rule)] += 1;
        if rule > 0 {
            must_be_damaged(&card, rule, "damage");
            continue;
        }
        must_be_what_its_lists_say(&card);
        let mut plain = Layout::read(&card).expect("sound").plain();
        for _ in 0..4 {
            let call = random_call(&mut dice, &plain, &MIXED);
            let before = card.clone();
            let mut tray = vec![0; call.tray_length()];
            let answer = call.run(&mut card, &mut tray.clone());
            assert_eq!(answer, plain.answer(&call, &mut tray), "{call:?}");
            if answer.is_done() && call.edits() {
                assert!(
                    card_after(&before, &call).expect("sound") == card,
                    "{call:?}"
                );
            }
        }
    }
    assert!(rules.iter().all(|&n| n > 100), "met each rule: {rules:?}");
}

/// Runs every call on the card; only no panic and no change on a refusal are asked.
fn must_come_back(card: &[u8], dice: &mut Dice) -> u8 {
    let rule = check(card).rule;
    for call in every_call() {
        let mut after = card.to_vec();
        let mut tray = dice.bytes(call.tray_length());
        let old_tray = tray.clone();
        let answer = call.run(&mut after, &mut tray);
        assert_eq!(answer.rule, rule, "{call:?}");
        if !answer.is_done() {
            assert!(after == card && tray == old_tray, "{call:?}");
        }
    }
    rule
}

#[test]
fn noise_of_any_length() {
    let mut dice = Dice::new(78);
    for round in 0..3000 {
        let length = dice.below(if round % 10 == 0 { 5000 } else { 300 });
        let card = dice.bytes(length as usize);
        must_come_back(&card, &mut dice);
    }
    let filled = [0x00, 0xFF, 0x59].map(|byte| vec![byte; 343]);
    filled
        .iter()
        .for_each(|card| assert_eq!(must_come_back(card, &mut dice), 2));
}

/// Noise behind a right header with likely numbers, so that the later rules are reached.
#[test]
fn noise_behind_a_right_header() {
    let mut dice = Dice::new(79);
    let mut rules = [0u64; 9];
    for _ in 0..20_000 {
        let blocks = 1 + dice.below(24);
        let mut card = vec![0; 87 + 64 * blocks as usize];
        assert!(format(&mut card, 6).is_done());
        let low_bytes = dice.one_in(2);
        dice.fill(&mut card[87..]);
        if low_bytes {
            card[87..]
                .iter_mut()
                .for_each(|b| *b = [0, *b % 26, 0, 0][usize::from(*b % 4)]);
        }
        let n = 1 + dice.below(4);
        put_u64(&mut card, 45, 8 + 25 * n);
        put_u64(&mut card, 53, dice.below(blocks));
        put_u64(&mut card, 61, (8 + 25 * n).div_ceil(64) * 64);
        put_u64(&mut card, 27, dice.below(blocks + 1));
        likely_table(&mut card, n, blocks, &mut dice);
        rules[usize::from(must_come_back(&card, &mut dice))] += 1;
    }
    assert!(
        rules[4] > 100 && rules[5] > 100 && rules[6] > 100 && rules[7] > 100,
        "{rules:?}"
    );
}

/// Often lays likely live descriptors over the table, if it is one block.
fn likely_table(card: &mut [u8], n: u64, blocks: u64, dice: &mut Dice) {
    let top = get_u32(card, 53) as usize;
    if n > 2 || dice.one_in(4) {
        return;
    }
    let start = 87 + 64 * top;
    put_u64(card, start, u64::MAX);
    for k in 0..n as usize {
        let d = dice.below(blocks.min(20) + 1);
        let at = start + 8 + 25 * k;
        put_u64(card, at, 64 * d);
        put_u64(card, at + 8, if d == 0 { 0 } else { dice.below(blocks) });
        put_u64(card, at + 16, 64 * d);
        card[at + 24] = 0;
    }
}
