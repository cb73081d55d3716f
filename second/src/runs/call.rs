//! Names and calls by their numbers (R2, R3).

use crate::answer::Outcome;
use crate::calls;

/// The ten calls, in the order of the layout page.
#[derive(Clone, Copy, Debug, PartialEq, Eq, PartialOrd, Ord)]
pub enum Which {
    /// A new card.
    Format,
    /// Whether the card is sound.
    Check,
    /// The free blocks.
    Room,
    /// A new stream.
    Create,
    /// Bytes into a stream.
    Write,
    /// Bytes out of a stream.
    Read,
    /// A shorter stream.
    Truncate,
    /// A stream gone.
    Delete,
    /// A stream's size.
    Size,
    /// An entry's name and size.
    List,
}

impl Which {
    /// All of them.
    pub const ALL: [Which; 10] = [
        Which::Format,
        Which::Check,
        Which::Room,
        Which::Create,
        Which::Write,
        Which::Read,
        Which::Truncate,
        Which::Delete,
        Which::Size,
        Which::List,
    ];
}

/// A call by its five numbers.
#[derive(Clone, Copy, Debug)]
pub struct Call {
    /// Which call.
    pub which: Which,
    /// The name's number.
    pub name: u64,
    /// The place, format's s, truncate's n or list's k.
    pub place: u64,
    /// How much data or tray.
    pub length: usize,
    /// Where the data begin.
    pub from: usize,
}

impl Call {
    /// A call whose other numbers are 0.
    pub fn plain(which: Which, name: u64, place: u64) -> Call {
        Call {
            which,
            name,
            place,
            length: 0,
            from: 0,
        }
    }

    /// Makes it.
    pub fn run(&self, card: &mut [u8], tray: &mut [u8], data: &[u8]) -> Outcome {
        let name = name(self.name);
        let lent = self.length.min(tray.len());
        let tray = &mut tray[..lent];
        match self.which {
            Which::Format => calls::format(card, self.place),
            Which::Check => calls::check(card),
            Which::Room => calls::room(card),
            Which::Create => calls::create(card, &name),
            Which::Write => {
                let given = &data[self.from..];
                let given = &given[..self.length.min(given.len())];
                calls::write(card, &name, self.place, given)
            }
            Which::Read => calls::read(card, &name, self.place, tray),
            Which::Truncate => calls::truncate(card, &name, self.place),
            Which::Delete => calls::delete(card, &name),
            Which::Size => calls::size(card, &name),
            Which::List => calls::list(card, self.place, tray),
        }
    }
}

/// The name with a number.
pub fn name(j: u64) -> Vec<u8> {
    let length = match j {
        256 => 0,
        257 => 65,
        258 => 64,
        0..=255 => 1 + 9 * (j % 8),
        _ => 2,
    };
    let letter = |i: u64| match (j + 48 + 5 * i) % 256 {
        _ if (j, i) == (258, 63) => b'/',
        47 if i > 0 => 0,
        byte => byte as u8,
    };
    (0..length).map(letter).collect()
}
