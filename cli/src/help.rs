//! The commands: what each takes, and the words that explain it.

use crate::failure::{FILE, USAGE};

/// What is to be done.
#[derive(Clone, Copy, Debug, PartialEq, Eq)]
pub enum Task {
    Format,
    Check,
    Room,
    Ls,
    Map,
    Put,
    Append,
    Get,
    Rm,
    Truncate,
    Cp,
}

/// An option, and the word for its value where it takes one.
#[derive(Clone, Copy, Debug, PartialEq, Eq)]
pub enum Flag {
    Blocks,
    Size,
    Force,
    HexName,
    Svg,
    Json,
}

impl Flag {
    pub const ALL: [Flag; 6] = [
        Flag::Blocks,
        Flag::Size,
        Flag::Force,
        Flag::HexName,
        Flag::Svg,
        Flag::Json,
    ];

    pub fn text(self) -> &'static str {
        match self {
            Flag::Blocks => "--blocks",
            Flag::Size => "--size",
            Flag::Force => "--force",
            Flag::HexName => "--hex-name",
            Flag::Svg => "--svg",
            Flag::Json => "--json",
        }
    }

    pub fn value(self) -> Option<&'static str> {
        match self {
            Flag::Blocks => Some("N"),
            Flag::Size => Some("BYTES"),
            _ => None,
        }
    }
}

/// A command: its words in their order (those in brackets may be left out) and its options besides --json.
pub struct Command {
    pub task: Task,
    pub name: &'static str,
    pub words: &'static [&'static str],
    pub must: &'static [Flag],
    pub may: &'static [Flag],
    pub what: &'static str,
    pub more: &'static str,
}

pub static COMMANDS: [Command; 11] = [
    Command {
        task: Task::Format,
        name: "format",
        words: &["CARD"],
        must: &[Flag::Blocks, Flag::Size],
        may: &[Flag::Force],
        what: "makes a new, empty card",
        more: "N is 1 to 4096; BYTES, the size of a block, is 64, 128, 256, 512, 1024, 2048 or 4096. The file has 87 bytes more\n\
               than N times BYTES, and never grows. A file that is there already is kept, unless --force says that all it\n\
               holds may go.\n\
               Example: lamporchid format box-12.card --blocks 1024 --size 1024",
    },
    Command {
        task: Task::Check,
        name: "check",
        words: &["CARD"],
        must: &[],
        may: &[],
        what: "tells whether the card is sound, or the first rule that it breaks",
        more: "Every other command checks the card too, before it does anything.",
    },
    Command {
        task: Task::Room,
        name: "room",
        words: &["CARD"],
        must: &[],
        may: &[],
        what: "tells how many blocks are free",
        more: "A long list needs a few blocks beside those of its bytes, to find them by.",
    },
    Command {
        task: Task::Ls,
        name: "ls",
        words: &["CARD"],
        must: &[],
        may: &[Flag::HexName],
        what: "shows the lists: size in bytes, and name",
        more: "Bytes of a name that are not printable are shown as \\xNN. With --hex-name names are shown as hex digits, as the\n\
               other commands take them with --hex-name.",
    },
    Command {
        task: Task::Map,
        name: "map",
        words: &["CARD"],
        must: &[],
        may: &[Flag::Svg],
        what: "shows which block belongs to whom, as text or as a picture",
        more: "Example: lamporchid map box-12.card --svg > box-12.svg",
    },
    Command {
        task: Task::Put,
        name: "put",
        words: &["CARD", "NAME", "[FILE]"],
        must: &[],
        may: &[Flag::HexName],
        what: "keeps the bytes of FILE, or of standard input, as the list NAME",
        more: "A list of that name is replaced. All of it goes onto the card, or nothing does.\n\
               Examples: lamporchid put box-12.card boats boats.csv\n\
               \x20         sort handsets.csv | lamporchid put box-12.card handsets",
    },
    Command {
        task: Task::Append,
        name: "append",
        words: &["CARD", "NAME", "[FILE]"],
        must: &[],
        may: &[Flag::HexName],
        what: "adds the bytes of FILE, or of standard input, to the end of a list",
        more: "Example: echo '201,clinic 9' | lamporchid append box-12.card handsets",
    },
    Command {
        task: Task::Get,
        name: "get",
        words: &["CARD", "NAME", "[FILE]"],
        must: &[],
        may: &[Flag::Force, Flag::HexName],
        what: "copies a list into FILE, or to standard output",
        more: "A FILE that is there already is kept, unless --force says that it may be replaced.",
    },
    Command {
        task: Task::Rm,
        name: "rm",
        words: &["CARD", "NAME"],
        must: &[],
        may: &[Flag::HexName],
        what: "removes a list, and frees its blocks",
        more: "There is no way back: 'lamporchid get' makes a copy first.",
    },
    Command {
        task: Task::Truncate,
        name: "truncate",
        words: &["CARD", "NAME", "BYTES"],
        must: &[],
        may: &[Flag::HexName],
        what: "keeps the first BYTES bytes of a list",
        more: "BYTES is 0 up to the list's size; 'lamporchid ls' shows that.",
    },
    Command {
        task: Task::Cp,
        name: "cp",
        words: &["CARD", "NAME", "CARD2", "[NAME2]"],
        must: &[],
        may: &[Flag::HexName],
        what: "copies a list onto another card",
        more: "It has the same name there, or NAME2; a list of that name is replaced. CARD2 may be the card itself.\n\
               Example: lamporchid cp box-12.card boats depot.card boats-12",
    },
];

impl Command {
    /// What it must have, in one line.
    fn short(&self) -> String {
        let mut out = format!("{} {}", self.name, self.words.join(" "));
        for flag in self.must {
            out.push_str(&format!(" {}", with_value(*flag)));
        }
        out
    }

    /// The command's form, in one line.
    pub fn form(&self) -> String {
        let mut out = format!("lamporchid {}", self.short());
        for flag in self.may {
            out.push_str(&format!(" [{}]", with_value(*flag)));
        }
        out
    }

    /// How many words it takes at least.
    pub fn least(&self) -> usize {
        self.words.iter().filter(|word| !word.starts_with('[')).count()
    }

    /// All that is to be said of it.
    pub fn help(&self) -> String {
        format!("{}\n\n{} {}.\n{}\n", self.form(), self.name, self.what, self.more)
    }
}

fn with_value(flag: Flag) -> String {
    match flag.value() {
        Some(value) => format!("{} {value}", flag.text()),
        None => flag.text().into(),
    }
}

/// The command with that name.
pub fn find(name: &str) -> Option<&'static Command> {
    COMMANDS.iter().find(|command| command.name == name)
}

/// What is said to 'lamporchid --help'.
pub fn all() -> String {
    let mut out =
        String::from("lamporchid keeps lists in one file, the card: all of a list, or a refusal in words.\n\n");
    for command in &COMMANDS {
        let short = command.short();
        out.push_str(&format!("  {short:<37} {}\n", command.what));
    }
    out.push_str(&format!(
        "\n'lamporchid help COMMAND' says more of one. Every command takes --json, which answers for programs; '-' as FILE is\n\
         standard input or output; after '--' no word is an option.\n\
         Exit status: 0 done; 1 DAMAGED, 2 BAD NAME, 3 NOT KNOWN, 5 PAST THE END, 6 STREAMS FULL, 7 NO ROOM, 9 BAD SHAPE;\n\
         {USAGE} a command that there is not; {FILE} a file that cannot be read or written. What was refused changed nothing.\n",
    ));
    out
}
