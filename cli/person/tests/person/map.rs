//! The picture of a card's blocks.

use person::Desk;

#[test]
fn every_block_has_its_owner() {
    let desk = Desk::new("map");
    desk.run("format c --blocks 16 --size 64").done();
    desk.pipe("put c boats", &[1; 130]).done();
    desk.run_words(&["put", "c", "<&>"], b"x").done();
    let wanted = "c: 16 blocks of 64 bytes\n\n     \
        0  # @ a A a a # # b . . . . . . .\n\n\
        #  the table of lists: 2 blocks, and 1 to find them by\n\
        @  the names: 1 block\n\
        .  free: 7 blocks\n\
        a  boats, 130 bytes: 3 blocks, and 1 to find them by (in capitals)\n\
        b  <&>, 1 byte: 1 block\n";
    assert_eq!(desk.run("map c").done(), wanted);
    let svg = desk.run("map c --svg");
    let svg = svg.done();
    assert!(svg.starts_with("<svg xmlns=") && svg.ends_with("</svg>\n"));
    assert_eq!(svg.matches("<title>block ").count(), 16);
    assert!(svg.contains("<title>block 8: &lt;&amp;&gt;</title>"));
    assert_eq!(svg.matches("<circle").count(), 2);
}
