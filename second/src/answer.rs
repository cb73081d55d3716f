//! What a call answers: done with its numbers, or one of nine refusals.

use std::fmt;

/// Why a call refused. The lowest number that applies is given.
#[derive(Clone, Copy, Debug, PartialEq, Eq, PartialOrd, Ord)]
pub enum Refusal {
    /// The card breaks this rule, and none before it.
    Damaged(u8),
    /// The name is empty, longer than 64 bytes, or holds "/".
    BadName,
    /// No entry has this name.
    NotKnown,
    /// An entry has this name.
    AlreadyKnown,
    /// A place or length above the stream's size, or an entry number not below their count.
    PastTheEnd,
    /// All 256 descriptors are live.
    StreamsFull,
    /// The call needs more blocks than are free.
    NoRoom,
    /// A listing's tray has under 64 bytes.
    ShortTray,
    /// No card has this block size and length.
    BadShape,
}

impl Refusal {
    /// The number in the layout page's list.
    pub fn number(self) -> u8 {
        match self {
            Refusal::Damaged(_) => 1,
            Refusal::BadName => 2,
            Refusal::NotKnown => 3,
            Refusal::AlreadyKnown => 4,
            Refusal::PastTheEnd => 5,
            Refusal::StreamsFull => 6,
            Refusal::NoRoom => 7,
            Refusal::ShortTray => 8,
            Refusal::BadShape => 9,
        }
    }

    /// The words in the layout page's list.
    pub fn words(self) -> &'static str {
        match self {
            Refusal::Damaged(_) => "DAMAGED",
            Refusal::BadName => "BAD NAME",
            Refusal::NotKnown => "NOT KNOWN",
            Refusal::AlreadyKnown => "ALREADY KNOWN",
            Refusal::PastTheEnd => "PAST THE END",
            Refusal::StreamsFull => "STREAMS FULL",
            Refusal::NoRoom => "NO ROOM",
            Refusal::ShortTray => "SHORT TRAY",
            Refusal::BadShape => "BAD SHAPE",
        }
    }
}

impl fmt::Display for Refusal {
    fn fmt(&self, f: &mut fmt::Formatter<'_>) -> fmt::Result {
        match self {
            Refusal::Damaged(rule) => write!(f, "{} (rule {rule})", self.words()),
            _ => f.write_str(self.words()),
        }
    }
}

/// Every number a call answers; what a call does not set is 0.
#[derive(Clone, Copy, Debug, Default, PartialEq, Eq)]
pub struct Outcome {
    /// 0 for done, else the refusal's number.
    pub number: u8,
    /// The broken rule, with DAMAGED only.
    pub rule: u8,
    /// Bytes written or read, or blocks free.
    pub count: u64,
    /// A stream's size.
    pub size: u64,
    /// A listed name's length.
    pub length: u64,
}

impl Outcome {
    /// Done, with nothing more to say.
    pub const DONE: Outcome = Outcome {
        number: 0,
        rule: 0,
        count: 0,
        size: 0,
        length: 0,
    };

    /// Whether the call was done rather than refused.
    pub fn is_done(&self) -> bool {
        self.number == 0
    }

    /// The answer as one word: number in bits 0 to 7, rule or name length in bits 8 to 15,
    /// count or size above.
    pub fn word(&self) -> u64 {
        let middle = u64::from(self.rule) | self.length;
        u64::from(self.number) | middle << 8 | (self.count | self.size) << 16
    }
}

impl From<Refusal> for Outcome {
    fn from(refusal: Refusal) -> Outcome {
        let rule = match refusal {
            Refusal::Damaged(rule) => rule,
            _ => 0,
        };
        Outcome {
            number: refusal.number(),
            rule,
            ..Outcome::DONE
        }
    }
}

impl From<Result<Outcome, Refusal>> for Outcome {
    fn from(result: Result<Outcome, Refusal>) -> Outcome {
        result.unwrap_or_else(Outcome::from)
    }
}

#[cfg(test)]
mod tests {
    use super::*;

    #[test]
    fn numbers_and_words_of_the_list() {
        let list = [
            (Refusal::Damaged(8), 1, "DAMAGED (rule 8)"),
            (Refusal::BadName, 2, "BAD NAME"),
            (Refusal::NotKnown, 3, "NOT KNOWN"),
            (Refusal::AlreadyKnown, 4, "ALREADY KNOWN"),
            (Refusal::PastTheEnd, 5, "PAST THE END"),
            (Refusal::StreamsFull, 6, "STREAMS FULL"),
            (Refusal::NoRoom, 7, "NO ROOM"),
            (Refusal::ShortTray, 8, "SHORT TRAY"),
            (Refusal::BadShape, 9, "BAD SHAPE"),
        ];
        for (refusal, number, words) in list {
            assert_eq!(
                (refusal.number(), refusal.to_string()),
                (number, words.into())
            );
            let outcome = Outcome::from(refusal);
            let rule = u64::from(outcome.rule);
            assert_eq!(rule, if number == 1 { 8 } else { 0 });
            assert_eq!(outcome.word(), u64::from(number) + (rule << 8));
        }
    }

    #[test]
    fn the_word_keeps_every_number() {
        let listed = Outcome {
            length: 64,
            size: 0x0102_0304_0506,
            ..Outcome::DONE
        };
        assert_eq!(listed.word(), 0x0102_0304_0506_4000);
        let read = Outcome {
            count: 0xFFFF_FFFF_FFFF,
            ..Outcome::DONE
        };
        assert_eq!(read.word(), 0xFFFF_FFFF_FFFF_0000);
    }
}
