//! The largest card, and input that no card can hold.

use person::Desk;

#[test]
fn a_card_of_16_mib() {
    let desk = Desk::new("large");
    desk.run("format c --blocks 4096 --size 4096").done();
    let list: Vec<u8> = (0..15_000_000u32).map(|i| (i * 31 + i / 4096) as u8).collect();
    desk.write("list", &list);
    desk.run("put c list list").done();
    desk.run("put c list list").done();
    desk.run("get c list back").done();
    assert!(desk.read("back") == list);
    desk.run("check c").done();
    desk.run("put c more list")
        .refused(7, "'more' needs 3668 blocks, 426 are free");
    assert_eq!(desk.run("map c").done().lines().count(), 2 + 128 + 1 + 4);
}

#[test]
fn input_without_an_end() {
    let desk = Desk::with_card("endless");
    desk.run("put c a /dev/zero").refused(
        7,
        "NO ROOM (7): 'a' needs more blocks than any card has, 3 are free; nothing was changed",
    );
    desk.run("put c a/b /dev/zero").refused(2, "BAD NAME (2)");
}
