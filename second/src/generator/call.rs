//! A call as a value.

use crate::answer::Outcome;
use crate::calls;

/// One call with everything handed to it but the card.
#[derive(Clone, Debug, PartialEq, Eq)]
#[allow(missing_docs)] // the fields are the calls' parameters
pub enum Call {
    Format {
        s: u64,
    },
    Check,
    Room,
    Create {
        name: Vec<u8>,
    },
    Write {
        name: Vec<u8>,
        place: u64,
        data: Vec<u8>,
    },
    Read {
        name: Vec<u8>,
        place: u64,
        tray: usize,
    },
    Truncate {
        name: Vec<u8>,
        n: u64,
    },
    Delete {
        name: Vec<u8>,
    },
    Size {
        name: Vec<u8>,
    },
    List {
        k: u64,
        tray: usize,
    },
}

impl Call {
    /// A create.
    pub fn create(name: &[u8]) -> Call {
        let name = name.to_vec();
        Call::Create { name }
    }

    /// A write.
    pub fn write(name: &[u8], place: u64, data: Vec<u8>) -> Call {
        let name = name.to_vec();
        Call::Write { name, place, data }
    }

    /// A read into a tray of so many bytes.
    pub fn read(name: &[u8], place: u64, tray: usize) -> Call {
        let name = name.to_vec();
        Call::Read { name, place, tray }
    }

    /// A truncation.
    pub fn truncate(name: &[u8], n: u64) -> Call {
        let name = name.to_vec();
        Call::Truncate { name, n }
    }

    /// A deletion.
    pub fn delete(name: &[u8]) -> Call {
        let name = name.to_vec();
        Call::Delete { name }
    }

    /// A question for the size.
    pub fn size(name: &[u8]) -> Call {
        let name = name.to_vec();
        Call::Size { name }
    }

    /// The length of the tray this call wants to be lent, 0 for a call without one.
    pub fn tray_length(&self) -> usize {
        match self {
            Call::Read { tray, .. } | Call::List { tray, .. } => *tray,
            _ => 0,
        }
    }

    /// Whether the call, once accepted, may change the card.
    pub fn edits(&self) -> bool {
        !matches!(
            self,
            Call::Check | Call::Room | Call::Read { .. } | Call::Size { .. } | Call::List { .. }
        )
    }

    /// Makes the call.
    pub fn run(&self, card: &mut [u8], tray: &mut [u8]) -> Outcome {
        match self {
            Call::Format { s } => calls::format(card, *s),
            Call::Check => calls::check(card),
            Call::Room => calls::room(card),
            Call::Create { name } => calls::create(card, name),
            Call::Write { name, place, data } => calls::write(card, name, *place, data),
            Call::Read { name, place, .. } => calls::read(card, name, *place, tray),
            Call::Truncate { name, n } => calls::truncate(card, name, *n),
            Call::Delete { name } => calls::delete(card, name),
            Call::Size { name } => calls::size(card, name),
            Call::List { k, .. } => calls::list(card, *k, tray),
        }
    }
}
