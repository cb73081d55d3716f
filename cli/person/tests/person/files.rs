//! Files that do not do what they must: a clear error, and the old card stands.

use person::{ended, Desk, Ran};
use std::fs::{self, Permissions};
use std::io::Write;
use std::os::unix::fs::{symlink, MetadataExt, PermissionsExt};
use std::os::unix::process::CommandExt;
use std::process::{Command, Stdio};

const LINES: [&str; 6] = ["check c", "ls c", "put c a", "rm c a", "get c a", "truncate c a 0"];

#[test]
fn what_is_no_file() {
    let desk = Desk::new("none");
    for line in LINES {
        desk.run(line).refused(
            74,
            "FILE (74): cannot read c: there is no such file or folder; nothing was changed",
        );
    }
    fs::create_dir(desk.path("c")).expect("a folder");
    for line in LINES {
        desk.run(line)
            .refused(74, "FILE (74): c is a folder, and a card is an ordinary file");
    }
    desk.run("format c --blocks 4 --size 64 --force")
        .refused(74, "c is a folder");
    desk.run("check /dev/null")
        .refused(74, "/dev/null is a device or a pipe");
    desk.run("check ")
        .refused(74, "cannot read \"\": there is no such file or folder");
    desk.write("file", b"x");
    desk.run("check file/c")
        .refused(74, "a part of its path is not a folder");
    desk.run("format file/c --blocks 4 --size 64")
        .refused(74, "cannot write file/c: a part of its path is not a folder");
    desk.run("format none/c --blocks 4 --size 64")
        .refused(74, "cannot write none/c: there is no such file or folder");
    assert_eq!(desk.names(), ["c", "file"]);
}

#[test]
fn input_and_output_that_fail() {
    let desk = Desk::with_card("input");
    let old = desk.read("c");
    desk.run("put c a none").refused(
        74,
        "cannot read none: there is no such file or folder; nothing was changed",
    );
    desk.run("put c a .").refused(74, "cannot read .: it is a folder");
    assert_eq!(desk.read("c"), old);
    desk.pipe("put c a", b"rows").done();
    desk.run("get c a c").refused(64, "c is the card itself");
    desk.run("get c a .").refused(74, ". is a folder");
    desk.write("out", b"old");
    desk.run("get c a out").refused(
        74,
        "out is there already; nothing was changed; give another name, or --force",
    );
    assert_eq!(desk.read("out"), b"old");
    desk.run("get c a out --force").done();
    assert_eq!(desk.read("out"), b"rows");
    desk.run("get c a /dev/full")
        .refused(74, "cannot write /dev/full: the disk is full");
    desk.run("get c a none/out")
        .refused(74, "cannot write none/out: there is no such file or folder");
    assert_eq!(desk.names(), ["c", "out"]);
}

fn with_output_on_a_full_disk(desk: &Desk, line: &str) -> Ran {
    let full = fs::OpenOptions::new()
        .write(true)
        .open("/dev/full")
        .expect("Linux has one");
    let mut command = desk.program();
    command
        .args(line.split(' '))
        .stdin(Stdio::null())
        .stdout(full)
        .stderr(Stdio::piped());
    ended(command.spawn().expect("it starts"))
}

#[test]
fn standard_output_on_a_full_disk() {
    let desk = Desk::with_card("full-output");
    desk.pipe("put c a", b"rows").done();
    for line in ["ls c", "get c a", "--help", "map c", "ls c --json"] {
        with_output_on_a_full_disk(&desk, line).refused(
            74,
            "cannot write standard output: the disk is full; nothing was changed",
        );
    }
    with_output_on_a_full_disk(&desk, "rm c a").refused(74, "the disk is full; c was written before that");
    assert!(desk.run("ls c").done().starts_with("0 lists"));
}

#[test]
fn a_card_marked_read_only() {
    let desk = Desk::with_card("mark");
    desk.pipe("put c a", b"rows").done();
    let old = desk.read("c");
    fs::set_permissions(desk.path("c"), Permissions::from_mode(0o444)).expect("a mark");
    desk.pipe("put c b", b"x")
        .refused(74, "cannot write c: its file is marked read-only; nothing was changed");
    desk.run("rm c a").refused(74, "marked read-only");
    assert_eq!((desk.read("c"), desk.names()), (old, vec!["c".to_string()]));
    desk.run("ls c").done();
}

/// A limit on the size of files stands for the disk that is full: the write of the new card fails halfway.
#[test]
fn no_room_on_the_disk() {
    let desk = Desk::new("disk");
    desk.run("format c --blocks 256 --size 256").done();
    let old = desk.read("c");
    desk.write("rows", b"rows");
    let program = desk.program();
    let mut command = Command::new("sh");
    command.args(["-c", "trap '' XFSZ; ulimit -f 16; exec \"$@\"", "sh"]);
    command
        .arg(program.get_program())
        .args(program.get_args())
        .args(["put", "c", "a", "rows"]);
    command
        .current_dir(&desk.folder)
        .stdin(Stdio::null())
        .stdout(Stdio::piped())
        .stderr(Stdio::piped());
    ended(command.spawn().expect("it starts")).refused(74, "a file may not become so large here; nothing was changed");
    assert_eq!(
        (desk.read("c"), desk.names()),
        (old, vec!["c".to_string(), "rows".to_string()])
    );
}

#[test]
fn a_card_that_goes_or_changes_meanwhile() {
    let desk = Desk::new("meanwhile");
    for gone in [true, false] {
        desk.run("format c --blocks 256 --size 1024 --force").done();
        let mut child = desk.start(&["put", "c", "a"]);
        let mut pipe = child.stdin.take().expect("a pipe");
        // More than a pipe holds: when it is written, the program has read the card.
        pipe.write_all(&[b'r'; 1 << 17]).expect("it reads");
        match gone {
            true => fs::remove_file(desk.path("c")).expect("gone"),
            false => desk.pipe("put c other", b"rows").done().to_string().clear(),
        }
        drop(pipe);
        let words = if gone {
            "cannot read c: there is no such file"
        } else {
            "another program has changed c meanwhile"
        };
        ended(child).refused(74, words);
        assert_eq!(desk.names(), if gone { vec![] } else { vec!["c"] });
    }
    assert!(desk.run("ls c").done().starts_with("         4  other\n1 list"));
}

/// Whoever wraps a command in a lock of their own, on the card or on its folder, does not wait for themselves.
#[test]
fn locks_of_others() {
    let desk = Desk::with_card("others");
    for path in [desk.folder.clone(), desk.path("c")] {
        let lock = fs::File::open(path).expect("it is there");
        lock.lock().expect("locked");
        desk.pipe("put c a", b"rows").done();
        desk.pipe("append c a", b" more").done();
        desk.run("get c a out --force").done();
        desk.run("format d --blocks 4 --size 64 --force").done();
        desk.run("cp c a d").done();
    }
    assert_eq!(desk.run("get d a").out, b"rows more");
    assert_eq!(desk.names(), ["c", "d", "out"]);
}

/// A lock that stays, as of a command that was stopped, is waited for and no longer; one that was left behind is taken over.
#[test]
fn a_lock_that_stays() {
    let desk = Desk::with_card("stays");
    let lock = fs::File::create(desk.path(".lamporchid-lock-c")).expect("a file");
    lock.lock().expect("locked");
    let old = desk.read("c");
    desk.pipe("put c a", b"rows").refused(
        74,
        "cannot write c: another command has been at it for five seconds; nothing was changed",
    );
    assert_eq!(
        (desk.read("c"), desk.names()),
        (old, vec![".lamporchid-lock-c".to_string(), "c".to_string()])
    );
    desk.run("check c").done();
    desk.run("format d --blocks 4 --size 64").done();
    drop(lock);
    desk.pipe("put c a", b"rows").done();
    assert_eq!(desk.names(), ["c", "d"]);
}

/// All have read the same card before any of them writes it: one is done, and the card holds its list and no other.
#[test]
fn of_many_that_change_one_card_at_once_one_is_done() {
    let desk = Desk::new("many");
    for _ in 0..8 {
        desk.run("format c --blocks 256 --size 1024 --force").done();
        let mut children: Vec<_> = (0..12).map(|n| desk.start(&["put", "c", &format!("a{n}")])).collect();
        let mut pipes: Vec<_> = children.iter_mut().map(|c| c.stdin.take().expect("a pipe")).collect();
        for pipe in &mut pipes {
            pipe.write_all(&[b'r'; 1 << 17]).expect("it reads");
        }
        drop(pipes);
        let ran: Vec<_> = children.into_iter().map(ended).collect();
        let (done, refused): (Vec<_>, Vec<_>) = ran.iter().partition(|ran| ran.status == 0);
        for ran in refused {
            ran.refused(74, "another program has changed c meanwhile");
        }
        assert_eq!(done.len(), 1, "{done:?}");
        let name = done[0].done().split('\'').nth(1).unwrap_or_default().to_string();
        assert_eq!(desk.run(&format!("get c {name}")).out, [b'r'; 1 << 17]);
        assert!(desk.run("ls c").done().contains("\n1 list"));
        assert_eq!(desk.names(), ["c"]);
    }
}

#[test]
fn permissions_and_links_are_kept() {
    let desk = Desk::with_card("kept");
    fs::set_permissions(desk.path("c"), Permissions::from_mode(0o640)).expect("permissions");
    symlink("c", desk.path("link")).expect("a link");
    desk.pipe("put link a", b"rows").done();
    assert_eq!(fs::metadata(desk.path("c")).expect("there").mode() & 0o777, 0o640);
    assert!(fs::symlink_metadata(desk.path("link")).expect("there").is_symlink());
    assert_eq!(desk.run("get c a").out, b"rows");
    symlink("nowhere", desk.path("dangling")).expect("a link");
    desk.run("check dangling").refused(74, "there is no such file");
    desk.run("format dangling --blocks 4 --size 64")
        .refused(74, "cannot write dangling");
}

/// Runs a line as the user 65534, where the tests run as root, whom permissions do not bind.
fn as_nobody(desk: &Desk, line: &str) -> Option<Ran> {
    let mut command = desk.program();
    if fs::metadata("/proc/self").expect("Linux has one").uid() == 0 {
        command.uid(65534).gid(65534);
    }
    command
        .args(line.split(' '))
        .stdin(Stdio::null())
        .stdout(Stdio::piped())
        .stderr(Stdio::piped());
    command.spawn().ok().map(ended)
}

#[test]
fn no_permission() {
    let desk = Desk::with_card("permission");
    let allow =
        |name: &str, mode| fs::set_permissions(desk.path(name), Permissions::from_mode(mode)).expect("permissions");
    match as_nobody(&desk, "--version") {
        Some(ran) if ran.status == 0 => (),
        _ => return eprintln!("not tried: the program cannot be started by another user here"),
    }
    let old = desk.read("c");
    allow("c", 0o000);
    as_nobody(&desk, "check c")
        .expect("it starts")
        .refused(74, "cannot read c: you have no permission for that");
    allow("c", 0o666);
    allow(".", 0o555);
    let words = "you have no permission for that; nothing was changed; the file and its folder must be yours to write";
    as_nobody(&desk, "put c a").expect("it starts").refused(74, words);
    as_nobody(&desk, "format d --blocks 4 --size 64")
        .expect("it starts")
        .refused(74, "cannot write d: you have no permission");
    as_nobody(&desk, "ls c").expect("it starts").done();
    allow(".", 0o755);
    assert_eq!((desk.read("c"), desk.names()), (old, vec!["c".to_string()]));
}
