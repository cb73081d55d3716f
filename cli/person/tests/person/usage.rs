//! Wrong command lines, and help.

use person::Desk;

#[test]
fn wrong_lines_are_told_the_form() {
    let desk = Desk::with_card("usage");
    let none: [&str; 0] = [];
    desk.run_words(&none, b"").refused(
        64,
        "lamporchid: USAGE (64): no command; 'lamporchid --help' shows them all",
    );
    desk.run("pot c a")
        .refused(64, "there is no command 'pot'; did you mean 'put'?");
    desk.run("put c").refused(
        64,
        "put is without its NAME; the form is: lamporchid put CARD NAME [FILE] [--hex-name]",
    );
    desk.run("ls").refused(64, "ls is without its CARD");
    desk.run("rm c a b").refused(64, "'b' is one word too many");
    desk.run("format d").refused(
        64,
        "format is without its --blocks; the form is: lamporchid format CARD --blocks N --size BYTES",
    );
    desk.run("format d --blocks four --size 64")
        .refused(64, "--blocks is a whole number, and 'four' is none");
    desk.run("truncate c a -1").refused(64, "truncate has no option '-1'");
    desk.run("truncate c a ten").refused(64, "BYTES is a whole number");
    desk.run("get c a --no").refused(64, "get has no option '--no'");
    desk.run("help pot").refused(64, "did you mean 'put'?");
    assert_eq!(desk.names(), ["c"]);
}

#[test]
fn help_for_everyone() {
    let desk = Desk::new("help");
    let all = desk.run("--help");
    for command in [
        "format", "check", "room", "ls", "map", "put", "append", "get", "rm", "truncate", "cp",
    ] {
        assert!(all.done().contains(&format!("\n  {command} CARD")), "{command}");
        let one = desk.run(&format!("help {command}"));
        assert!(one.done().starts_with(&format!("lamporchid {command} CARD")));
        assert_eq!(desk.run(&format!("{command} --help")).out, one.out);
    }
    assert_eq!(
        desk.run("--version").done(),
        format!("lamporchid {}\n", env!("CARGO_PKG_VERSION"))
    );
}
