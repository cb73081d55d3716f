//! Every call from Rust: done, refused in each way, and with empty slices.

use lamporchid::{
    check, create, delete, format, list, read, room, size, truncate, write, Entry, Refusal,
};

// The four-block card of the layout page's cases.
fn new_card() -> Vec<u8> {
    let mut card = vec![0xa5; 343];
    format(&mut card, 6).unwrap();
    card
}

// One that holds the stream "a" of 64 bytes.
fn filled() -> Vec<u8> {
    let mut card = new_card();
    create(&mut card, b"a").unwrap();
    assert_eq!(write(&mut card, b"a", 0, &[7; 64]), Ok(64));
    card
}

#[test]
fn each_call_is_done() {
    let mut card = new_card();
    assert_eq!(check(&card), Ok(()));
    assert_eq!(room(&card), Ok(3));
    assert_eq!(create(&mut card, b"a"), Ok(()));
    assert_eq!(size(&card, b"a"), Ok(0));
    assert_eq!(write(&mut card, b"a", 0, b"a row"), Ok(5));
    let mut tray = [1; 70];
    assert_eq!(read(&card, b"a", 2, &mut tray), Ok(3));
    assert_eq!(&tray[..4], b"row\x01");
    let entry = Entry { length: 1, size: 5 };
    assert_eq!(list(&card, 0, &mut tray), Ok(entry));
    assert_eq!(&tray[..3], b"aow");
    assert_eq!(truncate(&mut card, b"a", 1), Ok(()));
    assert_eq!(size(&card, b"a"), Ok(1));
    assert_eq!(delete(&mut card, b"a"), Ok(()));
    assert_eq!(room(&card), Ok(3));
    assert_eq!(check(&card), Ok(()));
}

#[test]
fn each_refusal_leaves_every_byte() {
    let card = filled();
    let mut c = card.clone();
    assert_eq!(format(&mut c, 5), Err(Refusal::BadShape));
    assert_eq!(format(&mut c, 13), Err(Refusal::BadShape));
    assert_eq!(format(&mut c, 262), Err(Refusal::BadShape));
    assert_eq!(create(&mut c, b"a/b"), Err(Refusal::BadName));
    assert_eq!(create(&mut c, &[b'n'; 65]), Err(Refusal::BadName));
    assert_eq!(create(&mut c, b"a"), Err(Refusal::AlreadyKnown));
    assert_eq!(create(&mut c, b"b"), Err(Refusal::NoRoom));
    assert_eq!(write(&mut c, b"a", 64, &[0]), Err(Refusal::NoRoom));
    assert_eq!(write(&mut c, b"a", 65, &[0]), Err(Refusal::PastTheEnd));
    let far = usize::MAX;
    assert_eq!(write(&mut c, b"a", far, &[0]), Err(Refusal::PastTheEnd));
    assert_eq!(write(&mut c, b"b", 0, &[0]), Err(Refusal::NotKnown));
    assert_eq!(truncate(&mut c, b"a", 65), Err(Refusal::PastTheEnd));
    assert_eq!(truncate(&mut c, b"b", 0), Err(Refusal::NotKnown));
    assert_eq!(delete(&mut c, b"b"), Err(Refusal::NotKnown));
    assert_eq!(size(&c, b"b"), Err(Refusal::NotKnown));
    let mut tray = [1; 63];
    assert_eq!(read(&c, b"a", 65, &mut tray), Err(Refusal::PastTheEnd));
    assert_eq!(read(&c, b"b", 0, &mut tray), Err(Refusal::NotKnown));
    assert_eq!(list(&c, 0, &mut tray), Err(Refusal::ShortTray));
    assert_eq!(list(&c, 1, &mut tray), Err(Refusal::PastTheEnd));
    assert_eq!(c, card);
    assert_eq!(tray, [1; 63]);
}

#[test]
fn a_damaged_card_is_refused_by_every_call_but_format() {
    for (at, rule) in [(0, 2), (25, 3), (45, 4), (27, 7)] {
        let mut card = filled();
        card[at] ^= 0x55;
        let before = card.clone();
        let no = Refusal::Damaged(rule);
        let mut tray = [1; 64];
        assert_eq!(check(&card), Err(no));
        assert_eq!(room(&card), Err(no));
        assert_eq!(create(&mut card, b"b"), Err(no));
        assert_eq!(size(&card, b"a"), Err(no));
        assert_eq!(write(&mut card, b"a", 0, b"x"), Err(no));
        assert_eq!(read(&card, b"a", 0, &mut tray), Err(no));
        assert_eq!(truncate(&mut card, b"a", 0), Err(no));
        assert_eq!(delete(&mut card, b"a"), Err(no));
        assert_eq!(list(&card, 0, &mut tray), Err(no));
        assert_eq!(card, before);
        assert_eq!(tray, [1; 64]);
        assert_eq!(format(&mut card, 6), Ok(()));
    }
}

#[test]
fn empty_slices() {
    let none: &mut [u8] = &mut [];
    let no = Refusal::Damaged(1);
    assert_eq!(format(none, 6), Err(Refusal::BadShape));
    assert_eq!(check(none), Err(no));
    assert_eq!(room(none), Err(no));
    assert_eq!(create(none, b""), Err(no));
    assert_eq!(size(none, b""), Err(no));
    assert_eq!(write(none, b"", 0, b""), Err(no));
    assert_eq!(read(none, b"", 0, &mut []), Err(no));
    assert_eq!(truncate(none, b"", 0), Err(no));
    assert_eq!(delete(none, b""), Err(no));
    assert_eq!(list(none, 0, &mut []), Err(no));

    let card = filled();
    let mut c = card.clone();
    assert_eq!(create(&mut c, b""), Err(Refusal::BadName));
    assert_eq!(size(&c, b""), Err(Refusal::BadName));
    assert_eq!(write(&mut c, b"", 0, b""), Err(Refusal::BadName));
    assert_eq!(read(&c, b"", 0, &mut []), Err(Refusal::BadName));
    assert_eq!(truncate(&mut c, b"", 0), Err(Refusal::BadName));
    assert_eq!(delete(&mut c, b""), Err(Refusal::BadName));
    assert_eq!(write(&mut c, b"a", 64, b""), Ok(0));
    assert_eq!(read(&c, b"a", 0, &mut []), Ok(0));
    assert_eq!(list(&c, 0, &mut []), Err(Refusal::ShortTray));
    assert_eq!(list(&c, 1, &mut []), Err(Refusal::PastTheEnd));
    assert_eq!(c, card);
}

#[test]
fn numbers_and_words() {
    let all = [
        Refusal::Damaged(8),
        Refusal::BadName,
        Refusal::NotKnown,
        Refusal::AlreadyKnown,
        Refusal::PastTheEnd,
        Refusal::StreamsFull,
        Refusal::NoRoom,
        Refusal::ShortTray,
        Refusal::BadShape,
    ];
    for (i, refusal) in all.iter().enumerate() {
        assert_eq!(refusal.number() as usize, i + 1);
        assert!(!refusal.words().is_empty());
    }
    // The header for C says the same.
    let header = include_str!("../../include/lamporchid.h");
    for refusal in all {
        let name = refusal.title().replace(' ', "_");
        let (number, words) = (refusal.number(), refusal.words());
        assert!(header.contains(&format!("LAMPORCHID_{} = {}", name, number)));
        assert!(header.contains(&format!("LAMPORCHID_{}: return \"{}\";", name, words)));
    }
    let told = all[0].to_string();
    assert_eq!(told, "the card is damaged: it breaks rule 8");
}
