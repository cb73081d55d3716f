//! No theorem bounds the stack that a call uses. Here every call runs on the largest card and on the
//! one with the tallest pyramids, on a thread with 256 KiB.

use lamporchid::{check, create, delete, format, list, read, room, size, truncate, write, Refusal};

fn name(i: usize) -> [u8; 64] {
    let mut name = [b'n'; 64];
    name[63] = if i < 47 { i as u8 } else { i as u8 + 1 };
    name
}

// A stream over so many data blocks of 2 to the `s` bytes has `above` blocks over them.
struct Large {
    s: usize,
    blocks: usize,
    above: usize,
}

fn calls(large: Large, card: &mut [u8], data: &[u8], tray: &mut [u8]) {
    let most = data.len();
    assert_eq!(format(card, large.s), Ok(()));
    for i in 0..255 {
        assert_eq!(create(card, &name(i)), Ok(()));
    }
    assert_eq!(create(card, b"more"), Err(Refusal::StreamsFull));
    let free = room(card).unwrap();
    assert_eq!(write(card, &name(0), 0, data), Ok(most));
    assert_eq!(room(card), Ok(free - large.blocks - large.above));
    assert_eq!(size(card, &name(0)), Ok(most));
    assert_eq!(read(card, &name(0), 0, tray), Ok(most));
    assert!(data == tray);
    assert_eq!(list(card, 254, tray).map(|e| e.length), Ok(64));
    assert_eq!(tray[..64], name(254));
    assert_eq!(check(card), Ok(()));
    assert_eq!(truncate(card, &name(0), 1), Ok(()));
    assert_eq!(delete(card, &name(0)), Ok(()));
    assert_eq!(create(card, &name(0)), Ok(()));
    assert_eq!(room(card), Ok(free));
    assert_eq!(check(card), Ok(()));
}

fn on_a_small_stack(large: Large) {
    let mut card = vec![0; 87 + (4096 << large.s)];
    let most = large.blocks << large.s;
    let data: Vec<u8> = (0..most).map(|i| (i * 31 + i / 4096) as u8).collect();
    let mut tray = vec![0; most];
    std::thread::Builder::new()
        .stack_size(256 * 1024)
        .spawn(move || calls(large, &mut card, &data, &mut tray))
        .expect("a thread")
        .join()
        .expect("every call is as it should be");
}

#[test]
fn the_largest_card() {
    on_a_small_stack(Large {
        s: 12,
        blocks: 4000,
        above: 5,
    });
}

#[test]
fn the_tallest_pyramids() {
    on_a_small_stack(Large {
        s: 6,
        blocks: 3400,
        above: 228,
    });
}
