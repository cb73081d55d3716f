//! `lamporchid`: a card in a volunteer's hands. Every act on a card is a call of the proved store; around it are files,
//! words and pictures.

#![forbid(unsafe_code)]

mod answer;
mod arguments;
mod card;
mod change;
mod failure;
mod files;
mod help;
mod json;
mod look;
mod map;
mod names;
mod progress;
mod svg;
mod turn;
mod words;

use answer::Answer;
use arguments::{Asked, Order};
use failure::{Failure, Kind};
use help::Task;
use progress::Progress;
use std::ffi::OsString;
use std::io::{self, Write};
use std::os::unix::ffi::OsStrExt;
use std::process::ExitCode;

fn main() -> ExitCode {
    let line: Vec<OsString> = std::env::args_os().skip(1).collect();
    let (asked, json) = (echo(&line), arguments::wants_json(&line));
    let done = arguments::parse(&line).and_then(|wanted| match wanted {
        Asked::Words(words) => say(words.as_bytes(), None),
        Asked::Command(order) => {
            let answer = carry_out(&order)?;
            let written = answer.written.clone();
            match json {
                true => say(answer.object(&asked).as_bytes(), written.as_deref()),
                false => say(&answer.text, written.as_deref()),
            }
        }
    });
    match done {
        Ok(()) => ExitCode::SUCCESS,
        Err(failure) => {
            complain(&failure, &asked, json);
            ExitCode::from(failure.number())
        }
    }
}

/// What was asked, as it was typed.
fn echo(line: &[OsString]) -> String {
    let mut out = String::from("lamporchid");
    for word in line {
        let shown = names::shown(word.as_bytes());
        let plain = !shown.is_empty() && !shown.contains([' ', '\'', ';']);
        out.push_str(&if plain {
            format!(" {shown}")
        } else {
            format!(" '{shown}'")
        });
    }
    out
}

fn carry_out(order: &Order) -> Result<Answer, Failure> {
    let progress = Progress::start();
    match order.command.task {
        Task::Format => change::format(order, &progress),
        Task::Check => look::check(order, &progress),
        Task::Room => look::room(order, &progress),
        Task::Ls => look::ls(order, &progress),
        Task::Map => look::map(order, &progress),
        Task::Put => change::put(order, &progress),
        Task::Append => change::append(order, &progress),
        Task::Get => look::get(order, &progress),
        Task::Rm => change::rm(order, &progress),
        Task::Truncate => change::truncate(order, &progress),
        Task::Cp => change::cp(order, &progress),
    }
}

/// Writes to standard output. What was done before that is told where it fails.
fn say(bytes: &[u8], written: Option<&str>) -> Result<(), Failure> {
    let mut out = io::stdout().lock();
    let next = match written {
        Some(file) => format!("{file} was written before that"),
        None => "nothing was changed".into(),
    };
    out.write_all(bytes)
        .and_then(|()| out.flush())
        .map_err(|error| match error.kind() {
            io::ErrorKind::BrokenPipe => Failure::new(Kind::Closed, "", ""),
            _ => Failure::file(format!("cannot write standard output: {}", files::why(&error)), next),
        })
}

fn complain(failure: &Failure, asked: &str, json: bool) {
    if failure.kind == Kind::Closed {
        return;
    }
    let told = json && say((failure.json(asked).to_string() + "\n").as_bytes(), None).is_ok();
    if !told {
        // Where standard error is gone too, the exit status is all that is left.
        let _ = writeln!(io::stderr(), "{}", failure.line(asked));
    }
}
