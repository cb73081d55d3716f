//! The order of refusals: where several apply, the lowest number is given.

use second::generator::call::Call;
use second::generator::runs::good_name;
use second::{check, create, delete, format, room, write, Outcome, Refusal};

/// A card of 64-byte blocks with "a" on it and `free` blocks free.
fn card_with_free(free: u64) -> Vec<u8> {
    let mut card = vec![0; 87 + 64 * (free as usize + 2)];
    assert!(format(&mut card, 6).is_done());
    assert!(create(&mut card, b"a").is_done());
    assert_eq!(room(&card).count, free);
    card
}

/// Makes a call, expects a refusal, and finds card and tray as they were.
fn refuses(card: &[u8], call: Call, refusal: Refusal) {
    let mut after = card.to_vec();
    let mut tray = vec![0xEE; call.tray_length()];
    let answer = call.run(&mut after, &mut tray);
    assert_eq!(answer, refusal.into(), "{refusal}");
    assert!(after == card, "the card after {refusal}");
    assert!(tray.iter().all(|&b| b == 0xEE), "the tray after {refusal}");
}

/// Makes a call that is done and changes nothing.
fn idles(card: &[u8], call: Call) {
    let mut after = card.to_vec();
    let mut tray = vec![0xEE; call.tray_length()];
    let answer = call.run(&mut after, &mut tray);
    assert_eq!(answer, Outcome::DONE, "{call:?}");
    assert!(after == card, "{call:?}");
}

#[test]
fn damage_comes_first() {
    let mut card = card_with_free(0);
    card[0] = 0;
    for name in [&b""[..], b"/", b"none", b"a"] {
        let damaged = Refusal::Damaged(2);
        refuses(&card, Call::create(name), damaged);
        refuses(&card, Call::write(name, u64::MAX, vec![1; 999]), damaged);
        refuses(&card, Call::read(name, u64::MAX, 9), damaged);
        refuses(&card, Call::truncate(name, u64::MAX), damaged);
        refuses(&card, Call::delete(name), damaged);
        refuses(&card, Call::size(name), damaged);
    }
    refuses(&card, Call::List { k: 9, tray: 3 }, Refusal::Damaged(2));
}

#[test]
fn a_bad_name_comes_before_everything_about_streams() {
    let card = card_with_free(0);
    let long = [b'a'; 65];
    for name in [&b""[..], &long, b"/", b"a/", b"/a", &[0, 47], &[47; 64]] {
        refuses(&card, Call::create(name), Refusal::BadName);
        refuses(
            &card,
            Call::write(name, u64::MAX, vec![1]),
            Refusal::BadName,
        );
        refuses(&card, Call::read(name, u64::MAX, 9), Refusal::BadName);
        refuses(&card, Call::truncate(name, u64::MAX), Refusal::BadName);
        refuses(&card, Call::delete(name), Refusal::BadName);
        refuses(&card, Call::size(name), Refusal::BadName);
    }
}

#[test]
fn an_unknown_name_comes_before_any_place() {
    let card = card_with_free(0);
    for name in [&b"b"[..], b"A", b"aa", &[0], &[b'a', 0], &[b'a'; 64]] {
        refuses(&card, Call::write(name, 0, vec![1]), Refusal::NotKnown);
        refuses(
            &card,
            Call::write(name, u64::MAX, vec![]),
            Refusal::NotKnown,
        );
        refuses(&card, Call::read(name, u64::MAX, 0), Refusal::NotKnown);
        refuses(&card, Call::truncate(name, u64::MAX), Refusal::NotKnown);
        refuses(&card, Call::delete(name), Refusal::NotKnown);
        refuses(&card, Call::size(name), Refusal::NotKnown);
    }
}

#[test]
fn a_place_past_the_end_comes_before_room() {
    let card = card_with_free(0);
    for place in [1, 64, 1 << 32, u64::MAX - 63, u64::MAX] {
        for length in [0, 1, 64, 100_000] {
            let call = Call::write(b"a", place, vec![1; length]);
            refuses(&card, call, Refusal::PastTheEnd);
        }
        refuses(&card, Call::read(b"a", place, 9), Refusal::PastTheEnd);
        refuses(&card, Call::truncate(b"a", place), Refusal::PastTheEnd);
    }
    refuses(
        &card,
        Call::write(b"a", 0, vec![1; 1 << 26]),
        Refusal::NoRoom,
    );
}

#[test]
fn no_bytes_need_no_room() {
    let card = card_with_free(0);
    idles(&card, Call::write(b"a", 0, vec![]));
    idles(&card, Call::read(b"a", 0, 0));
    idles(&card, Call::read(b"a", 0, 10));
    idles(&card, Call::truncate(b"a", 0));
}

#[test]
fn an_entry_past_the_last_comes_before_a_short_tray() {
    let card = card_with_free(0);
    for tray in [0, 63, 64] {
        for k in [1, 255, 256, 1 << 32, u64::MAX] {
            refuses(&card, Call::List { k, tray }, Refusal::PastTheEnd);
        }
    }
    for tray in [0, 1, 63] {
        refuses(&card, Call::List { k: 0, tray }, Refusal::ShortTray);
    }
    let mut tray = [0xEE; 64];
    let answer = Call::List { k: 0, tray: 64 }.run(&mut card.clone(), &mut tray);
    assert_eq!((answer.number, answer.length, answer.size), (0, 1, 0));
    assert_eq!((tray[0], &tray[1..]), (b'a', &[0xEE; 63][..]));
}

/// 255 names that differ.
fn crowd() -> Vec<Vec<u8>> {
    let mut names: Vec<Vec<u8>> = (0..400).map(|j| good_name(j, 9)).collect();
    names.sort();
    names.dedup();
    names.truncate(255);
    assert_eq!(names.len(), 255);
    names
}

#[test]
fn known_names_then_full_streams_then_room() {
    let mut card = vec![0; 87 + 64 * 400];
    assert!(format(&mut card, 6).is_done());
    let names = crowd();
    for name in &names {
        assert!(create(&mut card, name).is_done());
    }
    // Full streams with room, then without.
    let new = [0xAB; 64];
    refuses(&card, Call::create(&new), Refusal::StreamsFull);
    refuses(&card, Call::create(&names[3]), Refusal::AlreadyKnown);
    for name in names.iter().take(room(&card).count as usize) {
        assert!(write(&mut card, name, 0, &[1]).is_done());
    }
    assert_eq!(room(&card).count, 0);
    refuses(&card, Call::create(&new), Refusal::StreamsFull);
    refuses(&card, Call::create(&names[3]), Refusal::AlreadyKnown);
    refuses(&card, Call::create(b"a/b"), Refusal::BadName);
}

#[test]
fn a_full_table_with_a_free_descriptor_is_not_full() {
    let mut card = vec![0; 87 + 64 * 400];
    assert!(format(&mut card, 6).is_done());
    for name in crowd() {
        assert!(create(&mut card, &name).is_done());
    }
    assert!(delete(&mut card, &crowd()[100]).is_done());
    assert!(create(&mut card, &[0xAB; 64]).is_done());
    refuses(&card, Call::create(&[0xAC; 64]), Refusal::StreamsFull);
    assert_eq!(check(&card), Outcome::DONE);
}

#[test]
fn a_known_name_comes_before_room() {
    let card = card_with_free(0);
    refuses(&card, Call::create(b"a"), Refusal::AlreadyKnown);
    refuses(&card, Call::create(b"b"), Refusal::NoRoom);
}

#[test]
fn formatting_asks_for_a_shape_alone() {
    let mut card = vec![0xD1; 87 + 64 * 2];
    for s in [0, 5, 8, 13, 6 + 256, (1 << 32) + 6, u64::MAX] {
        refuses(&card, Call::Format { s }, Refusal::BadShape);
    }
    assert!(format(&mut card, 7).is_done());
    assert_eq!(room(&card), Outcome::DONE);
    assert_eq!(card[27..35], [0xFF; 8]);
    for length in [0, 1, 86, 87, 88, 87 + 4097 * 64] {
        refuses(
            &vec![0xD1; length],
            Call::Format { s: 6 },
            Refusal::BadShape,
        );
    }
}
