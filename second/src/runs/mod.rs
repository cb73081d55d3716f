//! The runs of calls of docs/CASES.md (R1 to R9), with a line for each call.
//!
//! - [`call`]: names and calls by their numbers. [`damage`]: damage by its number.
//! - [`random`]: runs of steps that the dice choose. [`situations`]: five cards with every call on each.
//! - [`refusals`]: which refusals hold for a call, whatever their order; the tests count with it.

pub mod call;
pub mod damage;
pub mod random;
pub mod refusals;
pub mod situations;

use crate::answer::Outcome;
use crate::cases::dice::{Dice, MODULUS};
use call::Call;

/// Bytes of the row that holds the cards.
pub const ROW: usize = 1_048_663;
/// Bytes of the tray.
pub const TRAY: usize = 600;
/// Bytes of the data.
pub const DATA: usize = 131_072;

/// What a call was lent and what it answered.
pub struct Made<'a> {
    /// The call.
    pub call: &'a Call,
    /// The card as the run knows it, before it was damaged.
    pub sound: &'a [u8],
    /// The card as it was lent.
    pub before: &'a [u8],
    /// The card afterwards.
    pub after: &'a [u8],
    /// The answer.
    pub answer: Outcome,
    /// The sum of card and tray afterwards.
    pub sum: u64,
}

impl Made<'_> {
    /// The line that is printed.
    pub fn line(&self) -> String {
        let Outcome {
            number,
            rule,
            count,
            size,
            length,
        } = self.answer;
        let small = u64::from(rule) + length;
        let which = self.call.which as usize;
        format!("{which} {number} {small} {} {}\n", count + size, self.sum)
    }
}

/// What is kept from call to call, and who is told of each call.
pub struct Table<'a> {
    row: Vec<u8>,
    tray: Vec<u8>,
    data: Vec<u8>,
    told: &'a mut dyn FnMut(Made),
    wants_cards: bool,
}

impl<'a> Table<'a> {
    fn new(wants_cards: bool, told: &'a mut dyn FnMut(Made)) -> Table<'a> {
        let mut dice = Dice::at(1);
        let mut data = vec![0; DATA];
        for byte in data.iter_mut().rev() {
            *byte = dice.below(256) as u8;
        }
        Table {
            row: vec![0; ROW],
            tray: vec![238; TRAY],
            data,
            told,
            wants_cards,
        }
    }

    /// Makes a call on the first bytes of the row. `sound` is the card without its damage, where it has one.
    fn make(&mut self, lent: usize, call: Call, sound: Option<&[u8]>) -> Outcome {
        let before = match self.wants_cards {
            true => self.row[..lent].to_vec(),
            false => vec![],
        };
        let card = &mut self.row[..lent];
        let answer = call.run(card, &mut self.tray, &self.data);
        let bytes = card.iter().chain(&self.tray);
        let sum = bytes.fold(1, |sum, &byte| (sum * 48271 + u64::from(byte)) % MODULUS);
        (self.told)(Made {
            call: &call,
            sound: sound.unwrap_or(&before),
            before: &before,
            after: card,
            answer,
            sum,
        });
        answer
    }
}

/// Makes all calls, and tells of each. The cards before each call are only told where they are wanted.
pub fn all(wants_cards: bool, told: &mut dyn FnMut(Made)) {
    let mut table = Table::new(wants_cards, told);
    random::all(&mut table);
    situations::all(&mut table);
}

/// All that the program prints.
pub fn printed() -> String {
    let mut text = String::new();
    all(false, &mut |made| text.push_str(&made.line()));
    text
}
