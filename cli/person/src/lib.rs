//! A folder of its own for each test, and the program started in it.
//!
//! The program is not part of this one, and is started by its path: on a machine that runs it through an emulator the tests are
//! this machine's own code all the same. (An emulated test hung there: threads and children do not go together in one.)

use std::ffi::OsStr;
use std::fs;
use std::io::Write;
use std::path::PathBuf;
use std::process::{Child, Command, Stdio};

/// What a run of the program left behind.
#[derive(Debug)]
pub struct Ran {
    pub status: i32,
    pub out: Vec<u8>,
    pub err: String,
}

impl Ran {
    /// It was done, and said this.
    #[track_caller]
    pub fn done(&self) -> &str {
        assert_eq!((self.status, self.err.as_str()), (0, ""), "{self:?}");
        std::str::from_utf8(&self.out).expect("text")
    }

    /// It was refused with this number, in one line that holds these words.
    #[track_caller]
    pub fn refused(&self, status: i32, words: &str) {
        assert_eq!((self.status, self.out.len()), (status, 0), "{self:?}");
        assert_eq!(self.err.matches('\n').count(), 1, "{self:?}");
        assert!(self.err.starts_with("lamporchid"), "{self:?}");
        assert!(self.err.contains(words), "{self:?}\nwanted: {words}");
    }
}

pub struct Desk {
    pub folder: PathBuf,
}

impl Drop for Desk {
    fn drop(&mut self) {
        let _ = fs::remove_dir_all(&self.folder);
    }
}

impl Desk {
    pub fn new(name: &str) -> Desk {
        let folder = std::env::temp_dir().join(format!("lamporchid-test-{}-{name}", std::process::id()));
        let _ = fs::remove_dir_all(&folder);
        fs::create_dir_all(&folder).expect("a folder");
        Desk { folder }
    }

    /// One with the four-block card of the layout page's cases.
    pub fn with_card(name: &str) -> Desk {
        let desk = Desk::new(name);
        desk.run("format c --blocks 4 --size 64").done();
        desk
    }

    pub fn path(&self, name: &str) -> PathBuf {
        self.folder.join(name)
    }

    pub fn write(&self, name: &str, bytes: &[u8]) {
        fs::write(self.path(name), bytes).expect("written");
    }

    pub fn read(&self, name: &str) -> Vec<u8> {
        fs::read(self.path(name)).expect("read")
    }

    /// The names in the folder, hidden ones too.
    pub fn names(&self) -> Vec<String> {
        let names = fs::read_dir(&self.folder).expect("a folder");
        let mut names: Vec<String> = names
            .map(|n| n.expect("a name").file_name().into_string().expect("text"))
            .collect();
        names.sort();
        names
    }

    /// The program, to be started in the folder: on another machine by the emulator.
    pub fn program(&self) -> Command {
        let words = std::env::var("LAMPORCHID_PROGRAM").expect("LAMPORCHID_PROGRAM, which cli/run sets: a line a word");
        let mut words = words.lines();
        let mut command = Command::new(words.next().expect("a word"));
        command.args(words).current_dir(&self.folder);
        command
    }

    pub fn start(&self, words: &[impl AsRef<OsStr>]) -> Child {
        let mut command = self.program();
        command
            .args(words)
            .stdin(Stdio::piped())
            .stdout(Stdio::piped())
            .stderr(Stdio::piped());
        command.spawn().expect("the program starts")
    }

    pub fn run_words(&self, words: &[impl AsRef<OsStr>], input: &[u8]) -> Ran {
        let mut child = self.start(words);
        // A program that refuses before it reads closes the pipe, which is no fault.
        let _ = child.stdin.take().expect("a pipe").write_all(input);
        ended(child)
    }

    /// The program with words between spaces.
    pub fn run(&self, line: &str) -> Ran {
        self.pipe(line, b"")
    }

    pub fn pipe(&self, line: &str, input: &[u8]) -> Ran {
        self.run_words(&line.split(' ').collect::<Vec<_>>(), input)
    }
}

pub fn ended(child: Child) -> Ran {
    let output = child.wait_with_output().expect("it ends");
    Ran {
        status: output.status.code().expect("an exit status, and no signal"),
        out: output.stdout,
        err: String::from_utf8(output.stderr).expect("text"),
    }
}
