//! Pipes that are closed early or are slow, and the bar on a terminal.

use person::{ended, Desk};
use std::io::Read;
use std::process::{Command, Stdio};

#[test]
fn a_reader_that_has_seen_enough_is_no_panic() {
    let desk = Desk::new("closed");
    desk.run("format c --blocks 1024 --size 1024").done();
    desk.pipe("put c a", &[b'x'; 900_000]).done();
    let mut child = desk.start(&["get", "c", "a"]);
    let mut few = [0; 10];
    child
        .stdout
        .take()
        .expect("a pipe")
        .read_exact(&mut few)
        .expect("ten bytes");
    let ran = ended(child);
    assert_eq!((ran.status, ran.err.as_str(), few), (74, "", [b'x'; 10]));
}

#[test]
fn one_program_feeds_another() {
    let desk = Desk::with_card("feeds");
    let rows = b"b\na\n";
    desk.pipe("put c a", rows).done();
    let got = desk.run("get c a").out;
    desk.run("format d --blocks 8 --size 64").done();
    desk.pipe("put d copy", &got).done();
    assert_eq!(desk.run("get d copy -").out, rows);
}

/// `script` gives the program a terminal of its own.
#[test]
fn a_bar_on_a_terminal_for_what_takes_longer_than_a_second() {
    let desk = Desk::with_card("slow");
    let program = desk.program();
    let words: Vec<_> = std::iter::once(program.get_program())
        .chain(program.get_args())
        .collect();
    let words = words.join(" ".as_ref()).into_string().expect("text");
    let mut script = Command::new("script");
    script.args([
        "-qec",
        &format!("(echo rows; sleep 3; echo rows) | {words} put c slow"),
        "/dev/null",
    ]);
    script
        .current_dir(&desk.folder)
        .stdin(Stdio::null())
        .stdout(Stdio::piped())
        .stderr(Stdio::piped());
    let Ok(child) = script.spawn() else {
        return eprintln!("not tried: there is no 'script' here");
    };
    let ran = ended(child);
    let out = String::from_utf8_lossy(&ran.out);
    assert!(out.contains("\r\x1b[Kreading standard input"), "{ran:?}");
    assert!(
        out.ends_with("\r\x1b[K'slow' is on c: 10 bytes; 1 of 4 blocks is free\r\n"),
        "{ran:?}"
    );
    // The same without a terminal draws nothing.
    desk.pipe("put c slow", b"rows\n").done();
}
