//! Why a command was not done: one line for a person, one object for a program, one exit status.

use crate::json::Json;
use lamporchid::Refusal;

/// The exit status of a command line that asks for nothing that there is.
pub const USAGE: u8 = 64;
/// The exit status where a file, or standard input or output, does not do what it must.
pub const FILE: u8 = 74;

/// What kind of failure it is.
#[derive(Clone, Copy, Debug, PartialEq, Eq)]
pub enum Kind {
    Usage,
    File,
    Refused(Refusal),
    /// Whoever read standard output has closed it; nobody is there to be told.
    Closed,
}

/// A failure with its words: what is the matter, and what to do next.
#[derive(Clone, Debug)]
pub struct Failure {
    pub kind: Kind,
    pub words: String,
    pub next: String,
}

impl Failure {
    pub fn usage(words: impl Into<String>, next: impl Into<String>) -> Failure {
        Failure::new(Kind::Usage, words, next)
    }

    pub fn file(words: impl Into<String>, next: impl Into<String>) -> Failure {
        Failure::new(Kind::File, words, next)
    }

    pub fn new(kind: Kind, words: impl Into<String>, next: impl Into<String>) -> Failure {
        let (words, next) = (words.into(), next.into());
        Failure { kind, words, next }
    }

    /// The exit status: the refusal's number in the layout page's list, or one of the two above.
    pub fn number(&self) -> u8 {
        match self.kind {
            Kind::Usage => USAGE,
            Kind::File | Kind::Closed => FILE,
            Kind::Refused(refusal) => refusal.number(),
        }
    }

    fn title(&self) -> &'static str {
        match self.kind {
            Kind::Usage => "USAGE",
            Kind::File | Kind::Closed => "FILE",
            Kind::Refused(refusal) => refusal.title(),
        }
    }

    /// The one line: what was asked, which refusal, why, and what to do.
    pub fn line(&self, asked: &str) -> String {
        let (title, number) = (self.title(), self.number());
        format!("{asked}: {title} ({number}): {}; {}", self.words, self.next)
    }

    /// The same for a program.
    pub fn json(&self, asked: &str) -> Json {
        let rule = match self.kind {
            Kind::Refused(Refusal::Damaged(rule)) => rule,
            _ => 0,
        };
        Json::Object(vec![
            ("done", Json::Truth(false)),
            ("asked", Json::text(asked)),
            ("number", Json::Number(self.number().into())),
            ("refusal", Json::text(self.title())),
            ("rule", Json::Number(rule.into())),
            ("words", Json::text(&self.words)),
            ("next", Json::text(&self.next)),
        ])
    }
}
