//! Damaged and scrambled cards, made as docs/CASES.md describes, with the rule that each breaks.
//!
//! - [`dice`]: the one source of chance. [`names`]: the kinds and the clauses, by name.
//! - [`plan`]: what a card is to hold. [`image`]: its bytes, and where everything stands in them.
//! - [`header`], [`own`], [`descriptors`], [`pyramids`], [`chain`], [`root`]: the damage, rule by rule.

pub mod chain;
pub mod descriptors;
pub mod dice;
pub mod header;
pub mod image;
pub mod names;
pub mod own;
pub mod plan;
pub mod pyramids;
pub mod root;

use crate::calls::check;
use image::Image;
use names::NAMES;
use plan::Plan;

/// "All FF" in 4 bytes.
pub const FF4: u64 = u32::MAX as u64;
/// "All FF" in 8 bytes.
pub const FF8: u64 = u64::MAX;

/// Which card: the rule (0 for a sound one), the clause of that rule or the kind, the number.
#[derive(Clone, Copy, Debug, PartialEq, Eq)]
pub struct Case {
    /// The rule to be broken; 0 for none.
    pub rule: usize,
    /// The clause of the rule; for rule 0 the kind.
    pub clause: usize,
    /// The card's number.
    pub i: u64,
}

impl Case {
    /// All of them, in order.
    pub fn all() -> impl Iterator<Item = Case> {
        let of_rule = |rule: usize| (0..NAMES[rule].len()).map(move |clause| (rule, clause));
        let clauses = (0..NAMES.len()).flat_map(of_rule);
        clauses.flat_map(|(rule, clause)| {
            let cards = if rule == 0 { 70 } else { 21 };
            (0..cards).map(move |i| Case { rule, clause, i })
        })
    }

    /// The clause's name, or the kind's.
    pub fn name(self) -> &'static str {
        NAMES[self.rule][self.clause]
    }

    /// The rule and the clause.
    pub fn key(self) -> (usize, usize) {
        (self.rule, self.clause)
    }

    /// The value whose turn it is.
    pub fn of<T: Copy>(self, values: &[T]) -> T {
        values[self.i as usize % values.len()]
    }

    /// The card's bytes.
    pub fn card(self) -> Vec<u8> {
        let mut image = Image::of(Plan::draw(self));
        match self.rule {
            0 => {}
            1..=3 => header::damage(&mut image, self),
            4 => own::damage(&mut image, self),
            5 => descriptors::damage(&mut image, self),
            6 => pyramids::damage(&mut image, self),
            7 => chain::damage(&mut image, self),
            _ => root::damage(&mut image, self),
        }
        image.card()
    }

    /// The line that is printed: name, number, rule, sum.
    pub fn line(self) -> String {
        let card = self.card();
        let rule = check(&card).rule;
        format!("{} {} {} {}\n", self.name(), self.i, rule, sum(&card))
    }
}

/// A card's bytes as one number, the first byte highest, in the remainder that the dice use.
pub fn sum(card: &[u8]) -> u64 {
    let more = |sum: u64, &byte: &u8| (sum * 256 + u64::from(byte)) % dice::MODULUS;
    card.iter().fold(0, more)
}

/// All that the program prints.
pub fn printed() -> String {
    Case::all().map(Case::line).collect()
}
