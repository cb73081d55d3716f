//! The command line, read: which command, its words and its options.

use crate::failure::Failure;
use crate::help::{self, Command, Flag, COMMANDS};
use crate::names;
use std::ffi::{OsStr, OsString};
use std::os::unix::ffi::OsStrExt;
use std::path::Path;

/// What a command line asks for.
pub enum Asked {
    Words(String),
    Command(Order),
}

/// A command with its words and options.
pub struct Order {
    pub command: &'static Command,
    pub words: Vec<OsString>,
    flags: Vec<(Flag, u64)>,
}

impl Order {
    pub fn has(&self, flag: Flag) -> bool {
        self.flags.iter().any(|(given, _)| *given == flag)
    }

    /// The number that came with an option, which the command must have.
    pub fn number(&self, flag: Flag) -> u64 {
        self.flags
            .iter()
            .find(|(given, _)| *given == flag)
            .map_or(0, |(_, n)| *n)
    }

    /// The word at that place as a path.
    pub fn path(&self, at: usize) -> &Path {
        Path::new(self.words.get(at).map_or(OsStr::new(""), OsString::as_os_str))
    }

    /// The word at that place as a path, if it is there and is not "-".
    pub fn file(&self, at: usize) -> Option<&Path> {
        self.words.get(at).filter(|word| *word != "-").map(Path::new)
    }

    /// The word at that place as a name: its bytes, or what its hex digits stand for.
    pub fn name(&self, at: usize) -> Result<Vec<u8>, Failure> {
        let word = self.words.get(at).map_or(&b""[..], |word| word.as_bytes());
        if !self.has(Flag::HexName) {
            return Ok(word.to_vec());
        }
        names::from_hex(word).ok_or_else(|| {
            let words = format!("{} is not a row of pairs of hex digits", names::quoted(word));
            Failure::usage(
                words,
                "with --hex-name a name is given as in 'lamporchid ls CARD --hex-name'",
            )
        })
    }

    /// The word at that place as a count of bytes.
    pub fn bytes(&self, at: usize) -> Result<u64, Failure> {
        number(self.words.get(at).map_or(OsStr::new(""), OsString::as_os_str), "BYTES")
    }
}

/// Reads the words after the program's name.
pub fn parse(words: &[OsString]) -> Result<Asked, Failure> {
    // --json may stand before the command too.
    let before = words.iter().take_while(|word| *word == Flag::Json.text()).count();
    let Some((first, rest)) = words[before..].split_first() else {
        return Err(Failure::usage("no command", "'lamporchid --help' shows them all"));
    };
    match first.to_str() {
        Some("--version" | "-V") => Ok(Asked::Words(format!("lamporchid {}\n", env!("CARGO_PKG_VERSION")))),
        Some("--help" | "-h" | "help") => explain(rest),
        _ => order(named(first)?, rest),
    }
}

/// The words before an end of options, which alone may be options.
fn options(words: &[OsString]) -> impl Iterator<Item = &OsString> {
    words.iter().take_while(|word| *word != "--")
}

/// Whether the answer is for a program, even where the command line cannot be read.
pub fn wants_json(words: &[OsString]) -> bool {
    options(words).any(|word| word == Flag::Json.text())
}

fn explain(rest: &[OsString]) -> Result<Asked, Failure> {
    match rest.first() {
        Some(name) => Ok(Asked::Words(named(name)?.help())),
        None => Ok(Asked::Words(help::all())),
    }
}

fn named(name: &OsStr) -> Result<&'static Command, Failure> {
    if let Some(command) = name.to_str().and_then(help::find) {
        return Ok(command);
    }
    let away = |command: &Command| distance(command.name.as_bytes(), name.as_bytes());
    let next = match COMMANDS.iter().min_by_key(|command| away(command)) {
        Some(near) if away(near) * 2 <= name.len() && away(near) <= 2 && name.len() > 2 => {
            format!("did you mean '{}'?", near.name)
        }
        _ => "'lamporchid --help' shows them all".into(),
    };
    Err(Failure::usage(
        format!("there is no command {}", names::word(name)),
        next,
    ))
}

/// How many bytes must be put in, left out or changed to make one word of the other.
fn distance(a: &[u8], b: &[u8]) -> usize {
    let mut row: Vec<usize> = (0..=b.len()).collect();
    for (i, x) in a.iter().enumerate() {
        let mut corner = row[0];
        row[0] = i + 1;
        for (j, y) in b.iter().enumerate() {
            let changed = corner + usize::from(x != y);
            corner = row[j + 1];
            row[j + 1] = changed.min(corner + 1).min(row[j] + 1);
        }
    }
    row[b.len()]
}

fn order(command: &'static Command, rest: &[OsString]) -> Result<Asked, Failure> {
    if options(rest).any(|word| word == "--help" || word == "-h") {
        return Ok(Asked::Words(command.help()));
    }
    let mut order = Order {
        command,
        words: Vec::new(),
        flags: Vec::new(),
    };
    let mut rest = rest.iter();
    while let Some(word) = rest.next() {
        if word == "--" {
            order.words.extend(rest.by_ref().cloned());
        } else if word.as_bytes().starts_with(b"-") && word != "-" {
            let flag = flag(command, word, &mut rest)?;
            order.flags.push(flag);
        } else {
            order.words.push(word.clone());
        }
    }
    complete(&order)?;
    Ok(Asked::Command(order))
}

fn flag<'a>(
    command: &Command,
    word: &OsStr,
    rest: &mut impl Iterator<Item = &'a OsString>,
) -> Result<(Flag, u64), Failure> {
    let mut halves = word.as_bytes().splitn(2, |byte| *byte == b'=');
    let text = halves.next().unwrap_or_default();
    let joined = halves.next().map(OsStr::from_bytes);
    let allowed = |flag: &Flag| *flag == Flag::Json || command.must.contains(flag) || command.may.contains(flag);
    let Some(flag) = Flag::ALL
        .into_iter()
        .find(|flag| flag.text().as_bytes() == text && allowed(flag))
    else {
        let words = format!("{} has no option {}", command.name, names::word(word));
        return Err(wrong(command, words));
    };
    match flag.value() {
        None if joined.is_none() => Ok((flag, 0)),
        None => Err(wrong(command, format!("{} takes no value", flag.text()))),
        Some(value) => {
            let given = joined.or_else(|| rest.next().map(OsString::as_os_str));
            let missing = || wrong(command, format!("{} is without its {value}", flag.text()));
            Ok((flag, number(given.ok_or_else(missing)?, flag.text())?))
        }
    }
}

fn complete(order: &Order) -> Result<(), Failure> {
    let command = order.command;
    if let Some(missing) = command.words[..command.least()].get(order.words.len()) {
        return Err(wrong(command, format!("{} is without its {missing}", command.name)));
    }
    if let Some(more) = order.words.get(command.words.len()) {
        return Err(wrong(command, format!("{} is one word too many", names::word(more))));
    }
    for flag in command.must {
        if !order.has(*flag) {
            return Err(wrong(
                command,
                format!("{} is without its {}", command.name, flag.text()),
            ));
        }
    }
    for (i, (flag, _)) in order.flags.iter().enumerate() {
        if order.flags[..i].iter().any(|(earlier, _)| earlier == flag) {
            return Err(wrong(command, format!("{} is given twice", flag.text())));
        }
    }
    Ok(())
}

fn wrong(command: &Command, words: String) -> Failure {
    Failure::usage(words, format!("the form is: {}", command.form()))
}

fn number(word: &OsStr, what: &str) -> Result<u64, Failure> {
    let digits = word
        .to_str()
        .filter(|text| text.bytes().all(|byte| byte.is_ascii_digit()));
    digits.and_then(|text| text.parse().ok()).ok_or_else(|| {
        let words = format!("{what} is a whole number, and {} is none", names::word(word));
        Failure::usage(words, "write it with the digits 0 to 9 alone")
    })
}

#[cfg(test)]
mod tests {
    use super::*;

    fn read(line: &str) -> Result<Order, Failure> {
        let words: Vec<OsString> = line.split(' ').map(OsString::from).collect();
        match parse(&words)? {
            Asked::Command(order) => Ok(order),
            Asked::Words(words) => panic!("{words}"),
        }
    }

    fn wrong(line: &str) -> String {
        let failure = read(line).err().expect(line);
        format!("{}; {}", failure.words, failure.next)
    }

    #[test]
    fn options_stand_anywhere_and_end_at_two_dashes() {
        let order = read("format --size=64 c --blocks 4 --force").expect("good");
        assert_eq!(
            (
                order.number(Flag::Size),
                order.number(Flag::Blocks),
                order.has(Flag::Force)
            ),
            (64, 4, true)
        );
        let order = read("put c --json -- --force -").expect("good");
        assert_eq!(order.name(1).expect("a name"), b"--force");
        assert_eq!(
            (order.has(Flag::Json), order.has(Flag::Force), order.file(2)),
            (true, false, None)
        );
        assert_eq!(
            read("rm c --hex-name 6100").expect("good").name(1).expect("a name"),
            b"a\0"
        );
    }

    #[test]
    fn wrong_lines_in_words() {
        assert!(wrong("pit c a").ends_with("did you mean 'put'?"));
        assert!(wrong("teleport c").ends_with("shows them all"));
        assert!(wrong("put c").starts_with("put is without its NAME; the form is: lamporchid put CARD NAME [FILE]"));
        assert!(wrong("ls c d").starts_with("'d' is one word too many"));
        assert!(wrong("ls c --force").starts_with("ls has no option '--force'"));
        assert!(wrong("format c --size 64").starts_with("format is without its --blocks"));
        assert!(wrong("format c --size 64 --blocks").starts_with("--blocks is without its N"));
        assert!(wrong("format c --size 64 --blocks -4").starts_with("--blocks is a whole number, and '-4' is none"));
        assert!(wrong("format c --size 64 --size 64 --blocks 4").starts_with("--size is given twice"));
        assert!(wrong("ls c --json=1").starts_with("--json takes no value"));
        let bytes = read("truncate c a 99999999999999999999").expect("a word").bytes(2);
        assert!(bytes
            .expect_err("too large")
            .words
            .starts_with("BYTES is a whole number"));
    }
}
