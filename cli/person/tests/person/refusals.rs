//! Every refusal that a command can meet: number, words, and the card as it was.

use person::Desk;

/// Runs a line that is refused, and sees that the card stands.
#[track_caller]
fn refused(desk: &Desk, line: &str, input: &[u8], status: i32, words: &str) {
    let (card, names) = (desk.read("c"), desk.names());
    desk.pipe(line, input).refused(status, words);
    assert_eq!(desk.read("c"), card, "{line}");
    assert_eq!(desk.names(), names, "{line}");
}

#[test]
fn no_room_in_figures() {
    let desk = Desk::with_card("room");
    refused(
        &desk,
        "put c plan-b",
        &[0; 65],
        7,
        ": NO ROOM (7): 'plan-b' needs 4 blocks, 3 are free; nothing was changed; ",
    );
    desk.pipe("put c plan-b", &[0; 64]).done();
    refused(
        &desk,
        "put c plan-b",
        &[0; 65],
        7,
        "'plan-b' needs 3 blocks, 2 are free, its own among them; ",
    );
    refused(
        &desk,
        "append c plan-b",
        b"1",
        7,
        "'plan-b' needs 2 more blocks, 1 is free; nothing was changed; ",
    );
    refused(
        &desk,
        "put c second",
        b"",
        7,
        "'second' needs 2 blocks, 1 is free; nothing was changed; ",
    );
}

#[test]
fn names_and_places() {
    let desk = Desk::with_card("places");
    desk.pipe("put c a", b"rows").done();
    refused(
        &desk,
        "put c a/b",
        b"x",
        2,
        ": BAD NAME (2): 'a/b' has a '/' in it; nothing was changed; give 1 to 64 bytes",
    );
    let long = "n".repeat(65);
    refused(
        &desk,
        &format!("rm c {long}"),
        b"",
        2,
        "the name has 65 bytes, and 64 is the most",
    );
    refused(&desk, "get c ", b"", 2, "the name is empty");
    refused(
        &desk,
        "get c b",
        b"",
        3,
        ": NOT KNOWN (3): 'b' is not on c; 'lamporchid ls c' shows the names",
    );
    refused(
        &desk,
        "append c b",
        b"x",
        3,
        "nothing was changed; 'lamporchid put' makes a new list",
    );
    refused(&desk, "rm c b", b"", 3, "'b' is not on c; nothing was changed");
    refused(&desk, "truncate c b 0", b"", 3, "'b' is not on c");
    let past = ": PAST THE END (5): 'a' has 4 bytes, so its first 5 cannot be kept; nothing was changed; give 0 to 4";
    refused(&desk, "truncate c a 5", b"", 5, past);
    refused(&desk, "truncate c a 18446744073709551615", b"", 5, "PAST THE END (5)");
}

#[test]
fn shapes_that_no_card_has() {
    let desk = Desk::new("shapes");
    for (blocks, size) in [
        ("0", "64"),
        ("4097", "64"),
        ("4", "100"),
        ("4", "32"),
        ("4", "8192"),
        ("4", "0"),
    ] {
        let ran = desk.run(&format!("format c --blocks {blocks} --size {size}"));
        ran.refused(9, ": BAD SHAPE (9): no card has ");
        ran.refused(9, "nothing was changed; give 1 to 4096 blocks of 64, 128, 256");
    }
    desk.run("format c --blocks 18446744073709551615 --size 9223372036854775808")
        .refused(9, "BAD SHAPE (9)");
    assert!(desk.names().is_empty());
}

#[test]
fn no_more_lists() {
    let desk = Desk::new("streams");
    let mut card = vec![0; 87 + 1024 * 64];
    assert!(second::format(&mut card, 6).is_done());
    for i in 0..255 {
        assert!(second::create(&mut card, format!("list {i}").as_bytes()).is_done());
    }
    desk.write("c", &card);
    refused(
        &desk,
        "put c more",
        b"x",
        6,
        ": STREAMS FULL (6): c holds 255 lists, and no card holds more; nothing was changed; ",
    );
    assert!(desk
        .run("ls c")
        .done()
        .ends_with("255 lists, 0 bytes; 855 of 1024 blocks are free\n"));
    assert!(desk
        .run("map c")
        .done()
        .ends_with("\nju  list 254, 0 bytes: 0 blocks\n"));
}

/// A card that breaks just this rule.
fn broken(rule: u8) -> Vec<u8> {
    let mut card = vec![0; 343];
    assert!(second::format(&mut card, 6).is_done());
    assert!(second::create(&mut card, b"a").is_done());
    assert!(second::write(&mut card, b"a", 0, b"rows").is_done());
    match rule {
        1 => card.truncate(86),
        2 => card[0] ^= 1,
        3 => card.truncate(342),
        4 => card[45] ^= 1,
        5 => card[87 + 8 + 24] ^= 1,
        6 => card[87 + 8 + 25 + 8] = 1,
        7 => card[27] = 2,
        _ => card[87 + 64 + 6] = b'/',
    }
    assert_eq!(second::check(&card), second::Refusal::Damaged(rule).into());
    card
}

#[test]
fn each_rule_in_words_from_every_command() {
    let desk = Desk::new("rules");
    desk.run("format good --blocks 4 --size 64").done();
    let all = "check c|room c|ls c|map c|put c a|append c a|get c a|rm c a|truncate c a 0|cp c a good|cp good a c";
    desk.pipe("put good a", b"x").done();
    for rule in 1..=8 {
        desk.write("c", &broken(rule));
        let words = format!(": DAMAGED (1): c breaks rule {rule}: ");
        let lines: Vec<&str> = if rule == 7 {
            all.split('|').collect()
        } else {
            vec!["check c", "put c b"]
        };
        for line in lines {
            refused(&desk, line, b"x", 1, &words);
        }
    }
    desk.run("format c --blocks 4 --size 64 --force").done();
    desk.run("check c").done();
}

#[test]
fn a_file_longer_than_any_card() {
    let desk = Desk::new("long");
    let file = std::fs::File::create(desk.path("c")).expect("a file");
    file.set_len(1 << 40).expect("a file with a hole");
    desk.run("check c").refused(1, "c breaks rule 2");
}
