//! A card is made, filled, looked into, changed and copied.

use person::Desk;

#[test]
fn lists_go_on_and_come_back() {
    let desk = Desk::new("session");
    let made = desk.run("format c --blocks 16 --size 64");
    assert_eq!(
        made.done(),
        "c is a new card: 16 blocks of 64 bytes, 1111 bytes in all\n"
    );
    assert_eq!(desk.read("c").len(), 87 + 16 * 64);
    desk.write("rows", &[b'r'; 130]);
    let put = desk.run("put c boats rows");
    assert_eq!(put.done(), "'boats' is on c: 130 bytes; 10 of 16 blocks are free\n");
    assert_eq!(
        desk.pipe("put c clinics", b"one\n").done(),
        "'clinics' is on c: 4 bytes; 7 of 16 blocks are free\n"
    );
    assert_eq!(desk.pipe("append c clinics -", b"two\n").status, 0);
    let ls = desk.run("ls c");
    assert_eq!(
        ls.done(),
        "       130  boats\n         8  clinics\n2 lists, 138 bytes; 7 of 16 blocks are free\n"
    );
    assert_eq!(desk.run("get c clinics").out, b"one\ntwo\n");
    desk.run("get c boats copy").done();
    assert_eq!(desk.read("copy"), [b'r'; 130]);
    assert_eq!(
        desk.run("room c").done(),
        "7 of 16 blocks are free; an empty list can take 384 bytes\n"
    );
    assert!(desk
        .run("check c")
        .done()
        .starts_with("c is sound: 2 lists; 7 of 16 blocks are free"));
    assert_eq!(
        desk.run("truncate c boats 64").done(),
        "'boats' is on c: 64 bytes; 10 of 16 blocks are free\n"
    );
    assert_eq!(
        desk.run("rm c boats").done(),
        "'boats' is no longer on c; 11 of 16 blocks are free\n"
    );
    assert_eq!(desk.names(), ["c", "copy", "rows"]);
}

#[test]
fn put_replaces_a_list_that_is_there() {
    let desk = Desk::with_card("replace");
    desk.pipe("put c a", &[1; 64]).done();
    desk.pipe("put c a", b"less").done();
    assert_eq!(desk.run("get c a").out, b"less");
    desk.pipe("put c a", b"").done();
    assert!(desk.run("ls c").done().starts_with("         0  a\n"));
    assert_eq!(desk.run("get c a").done(), "");
}

#[test]
fn lists_are_copied_between_cards_and_within_one() {
    let desk = Desk::with_card("copy");
    desk.run("format d --blocks 32 --size 128").done();
    desk.pipe("put c a", b"rows").done();
    desk.run("cp c a d").done();
    desk.run("cp c a d b").done();
    desk.run("cp d b d c").done();
    desk.run("cp d b d b").done();
    for name in ["a", "b", "c"] {
        assert_eq!(desk.run(&format!("get d {name}")).out, b"rows");
    }
    let full = desk.read("c");
    desk.pipe("put d long", &[7; 200]).done();
    desk.run("cp d long c")
        .refused(7, "NO ROOM (7): 'long' needs 7 blocks, 1 is free");
    desk.run("cp d none c").refused(3, "'none' is not on d");
    assert_eq!(desk.read("c"), full);
}

#[test]
fn names_of_any_bytes() {
    let desk = Desk::new("names");
    desk.run("format c --blocks 64 --size 64").done();
    desk.pipe("put c --hex-name 000aff5c", b"x").done();
    desk.pipe("put c -- --force", b"y").done();
    desk.pipe("put c läkare", b"z").done();
    desk.run_words(&["put", "c", "two words"], b"w").done();
    let spaced = desk.run_words(&["rm", "my card", "a"], b"");
    spaced.refused(
        74,
        "lamporchid rm 'my card' a: FILE (74): cannot read \"my card\": there is no such file",
    );
    let ls = desk.run("ls c");
    let lines: Vec<&str> = ls.done().lines().map(|line| line[10..].trim()).collect();
    assert_eq!(lines[..4], ["\\x00\\x0a\\xff\\\\", "--force", "läkare", "two words"]);
    assert!(desk.run("ls c --hex-name").done().starts_with("         1  000aff5c\n"));
    assert_eq!(desk.run("get c --hex-name 000AFF5C").out, b"x");
    assert_eq!(desk.run("get c -- --force").out, b"y");
    desk.run("rm c --hex-name 000aff5c").done();
    desk.run("rm c --hex-name 00f")
        .refused(64, "'00f' is not a row of pairs of hex digits");
}

#[test]
fn a_format_by_force() {
    let desk = Desk::with_card("force");
    desk.pipe("put c a", b"rows").done();
    let old = desk.read("c");
    desk.run("format c --blocks 4 --size 64")
        .refused(74, "c is there already; nothing was changed");
    assert_eq!(desk.read("c"), old);
    desk.run("format c --blocks 8 --size 64 --force").done();
    assert_eq!(desk.run("ls c").done(), "0 lists, 0 bytes; 7 of 8 blocks are free\n");
}
