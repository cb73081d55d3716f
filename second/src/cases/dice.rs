//! The dice of docs/CASES.md: a product and a remainder, so that a proof of them is short.

/// Rolls are below this prime.
pub const MODULUS: u64 = 2_147_483_647;

/// The dice.
#[derive(Clone, Debug)]
pub struct Dice(u64);

impl Dice {
    /// Starts at a state.
    pub fn at(state: u64) -> Dice {
        Dice(state)
    }

    /// Starts at a state, and throws three rolls away.
    pub fn new(state: u64) -> Dice {
        let mut dice = Dice(state);
        (0..3).for_each(|_| {
            dice.roll();
        });
        dice
    }

    /// The next number.
    pub fn roll(&mut self) -> u64 {
        self.0 = self.0 * 48271 % MODULUS;
        self.0
    }

    /// A number below `n`.
    pub fn below(&mut self, n: u64) -> u64 {
        self.roll() % n
    }

    /// Puts items into another order.
    pub fn shuffle(&mut self, items: &mut [u64]) {
        for left in (1..=items.len()).rev() {
            items.swap(left - 1, self.below(left as u64) as usize);
        }
    }
}
