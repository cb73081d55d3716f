//! Damage by its number (R4).

/// A shorter card, or a number added to one byte.
#[derive(Clone, Copy, Debug)]
pub struct Damage {
    /// How much of the card is lent.
    pub lent: usize,
    /// The byte that changes, if one does.
    pub byte: Option<usize>,
    /// What is added.
    pub more: u8,
}

/// How many places a damage may take, on a card of `len` bytes.
pub fn span(number: u64, len: usize) -> u64 {
    match number {
        1 => 87,
        2 | 4 => 25,
        3 => 63,
        5 => 33,
        6 | 7 => 8,
        8 => 6,
        9 => len as u64,
        _ => 1,
    }
}

impl Damage {
    /// The damage with that number, so many places back, on a card of `len` bytes in blocks of `z`.
    pub fn new(number: u64, len: usize, z: usize, back: u64, more: u8) -> Damage {
        let back = back as usize;
        let (lent, last) = match number {
            1 => (86 - back, None),
            3 => (len - 1 - back, None),
            2 => (len, Some(24)),
            4 => (len, Some(69)),
            5 => (len, Some(119)),
            6 => (len, Some(110)),
            7 => (len, Some(34)),
            8 => (len, Some(87 + z + 5)),
            9 => (len, Some(len - 1)),
            _ => (len, None),
        };
        let byte = last.map(|last| last - back).filter(|&byte| byte < len);
        Damage { lent, byte, more }
    }

    /// Does it.
    pub fn strike(&self, card: &mut [u8]) {
        if let Some(byte) = self.byte {
            card[byte] = card[byte].wrapping_add(self.more);
        }
    }

    /// Takes it back.
    pub fn mend(&self, card: &mut [u8]) {
        if let Some(byte) = self.byte {
            card[byte] = card[byte].wrapping_sub(self.more);
        }
    }
}
