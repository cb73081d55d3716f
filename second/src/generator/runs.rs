//! Random calls that suit a plain list: mostly accepted, often at an edge, sometimes refused.

use super::call::Call;
use super::dice::Dice;
use super::plain::Plain;
use crate::answer::Outcome;
use crate::shape::Shape;

/// What a run is fond of. The first eight numbers are weights.
#[derive(Clone, Copy, Debug)]
#[allow(missing_docs)] // the weights are named like the calls
pub struct Taste {
    pub create: u64,
    pub write: u64,
    pub read: u64,
    pub truncate: u64,
    pub delete: u64,
    pub size: u64,
    pub list: u64,
    pub others: u64,
    /// How many names the run knows.
    pub names: u64,
    /// The longest good name it uses.
    pub longest_name: u64,
    /// The longest ordinary write, in bytes.
    pub longest_write: u64,
}

impl Taste {
    /// The same taste with another longest ordinary write.
    pub fn writing_up_to(self, longest_write: u64) -> Taste {
        Taste {
            longest_write,
            ..self
        }
    }
}

/// A bit of everything.
pub const MIXED: Taste = Taste {
    create: 4,
    write: 10,
    read: 3,
    truncate: 4,
    delete: 2,
    size: 1,
    list: 1,
    others: 1,
    names: 12,
    longest_name: 64,
    longest_write: 1000,
};

/// Many streams, mostly small: for the table, the root and STREAMS FULL.
pub const CROWD: Taste = Taste {
    create: 20,
    write: 3,
    delete: 3,
    truncate: 1,
    read: 1,
    names: 400,
    longest_name: 8,
    longest_write: 80,
    ..MIXED
};

/// Few streams that grow tall and fall again.
pub const TALL: Taste = Taste {
    create: 1,
    names: 3,
    longest_write: 12_000,
    ..MIXED
};

/// A call with what it must answer and leave in the tray.
#[derive(Clone, Debug)]
pub struct Step {
    /// The call.
    pub call: Call,
    /// What it must answer.
    pub answer: Outcome,
    /// The tray to lend it, full of noise.
    pub lent: Vec<u8>,
    /// The tray as it must come back.
    pub tray: Vec<u8>,
}

/// An endless random run on one card, answered by a plain list alone. It never sees the card,
/// so any store can be led through it.
#[derive(Clone, Debug)]
pub struct Run {
    /// Decides everything.
    pub dice: Dice,
    /// The names and bytes so far.
    pub plain: Plain,
    /// What the run is fond of.
    pub taste: Taste,
}

impl Run {
    /// A run from a newly formatted card on.
    pub fn new(shape: Shape, taste: Taste, seed: u64) -> Run {
        Run {
            dice: Dice::new(seed),
            plain: Plain::fresh(shape),
            taste,
        }
    }

    /// The step for a call of one's own choice.
    pub fn step(&mut self, call: Call) -> Step {
        let lent = self.dice.bytes(call.tray_length());
        let mut tray = lent.clone();
        let answer = self.plain.answer(&call, &mut tray);
        Step {
            call,
            answer,
            lent,
            tray,
        }
    }
}

impl Iterator for Run {
    type Item = Step;

    fn next(&mut self) -> Option<Step> {
        let call = random_call(&mut self.dice, &self.plain, &self.taste);
        Some(self.step(call))
    }
}

/// One random call.
pub fn random_call(dice: &mut Dice, plain: &Plain, taste: &Taste) -> Call {
    let weights = [
        taste.create,
        taste.write,
        taste.read,
        taste.truncate,
        taste.delete,
        taste.size,
        taste.list,
        taste.others,
    ];
    let which = pick_weighted(dice, &weights);
    let name = match which {
        0 => any_name(dice, taste),
        _ => likely_name(dice, plain, taste),
    };
    match which {
        0 => Call::create(&name),
        1 => random_write(dice, plain, taste, &name),
        2 => random_read(dice, plain, &name),
        3 => Call::truncate(&name, random_place(dice, plain, &name)),
        4 => Call::delete(&name),
        5 => Call::size(&name),
        6 => random_list(dice, plain),
        _ => random_other(dice),
    }
}

fn pick_weighted(dice: &mut Dice, weights: &[u64]) -> usize {
    let mut at = dice.below(weights.iter().sum());
    for (which, &weight) in weights.iter().enumerate() {
        if at < weight {
            return which;
        }
        at -= weight;
    }
    weights.len()
}

/// Name number `j`: the same bytes in every run, any byte but "/", of 1 to `longest` bytes.
pub fn good_name(j: u64, longest: u64) -> Vec<u8> {
    let mut dice = Dice::new(j);
    let length = 1 + dice.below(longest);
    let mut name = dice.bytes(length as usize);
    name.iter_mut().filter(|b| **b == b'/').for_each(|b| *b = 0);
    name
}

fn bad_name(dice: &mut Dice) -> Vec<u8> {
    match dice.below(4) {
        0 => Vec::new(),
        1 => good_name(1, 1).repeat(65),
        2 => b"a/b".to_vec(),
        _ => [good_name(2, 1).repeat(70_000), b"/".to_vec()].concat(),
    }
}

fn any_name(dice: &mut Dice, taste: &Taste) -> Vec<u8> {
    match dice.below(24) {
        0 => bad_name(dice),
        1 => good_name(dice.below(taste.names), 1).repeat(64),
        _ => good_name(dice.below(taste.names), taste.longest_name),
    }
}

/// Mostly a name on the list.
fn likely_name(dice: &mut Dice, plain: &Plain, taste: &Taste) -> Vec<u8> {
    match dice.pick(&plain.streams) {
        Some(stream) if !dice.one_in(12) => stream.name.clone(),
        _ => any_name(dice, taste),
    }
}

fn size_of(plain: &Plain, name: &[u8]) -> u64 {
    plain
        .find(name)
        .map_or(0, |at| plain.streams[at].bytes.len() as u64)
}

/// A place in a stream: its ends, a block's edge, anywhere, or past the end.
fn random_place(dice: &mut Dice, plain: &Plain, name: &[u8]) -> u64 {
    let size = size_of(plain, name);
    let block = plain.shape.block_size();
    match dice.below(16) {
        0 => size + 1,
        1 if dice.one_in(2) => [u64::MAX, 1 << 32][dice.below(2) as usize],
        1 => size + 1 + dice.below(5000),
        2 | 3 => 0,
        4..=7 => size,
        8..=10 => dice.below(size / block + 1) * block,
        _ => dice.below(size + 1),
    }
}

fn random_write(dice: &mut Dice, plain: &Plain, taste: &Taste, name: &[u8]) -> Call {
    let place = random_place(dice, plain, name);
    let block = plain.shape.block_size();
    let edge = plain.shape.count() * block - place.min(block);
    let length = match dice.below(24) {
        0 => 0,
        1..=4 => 1 + dice.below(4),
        5..=8 => dice.below(2 * block),
        9..=11 => block - place % block + dice.below(3) * block,
        12 => brim(plain, name).saturating_sub(place).min(edge),
        13 => brim(plain, name).saturating_sub(place).min(edge) + 1,
        14 => dice.below(edge + 1),
        _ => dice.below(taste.longest_write + 1),
    };
    Call::write(name, place, dice.bytes(length as usize))
}

/// The greatest size to which a stream can grow: all free blocks taken, or all that fit.
pub fn brim(plain: &Plain, name: &[u8]) -> u64 {
    let block = plain.shape.block_size();
    let size = size_of(plain, name);
    let has = plain.blocks_needed(size) + plain.free();
    let mut end = size.div_ceil(block) * block;
    while plain.blocks_needed(end + block) <= has {
        end += block;
    }
    end
}

fn random_read(dice: &mut Dice, plain: &Plain, name: &[u8]) -> Call {
    let place = random_place(dice, plain, name);
    let tray = match dice.below(4) {
        0 => 0,
        1 => size_of(plain, name) as usize + 9,
        _ => dice.below(3 * plain.shape.block_size()) as usize,
    };
    Call::read(name, place, tray)
}

fn random_list(dice: &mut Dice, plain: &Plain) -> Call {
    let k = match dice.below(8) {
        0 => u64::MAX,
        1 => plain.streams.len() as u64,
        _ => dice.below(plain.streams.len() as u64),
    };
    let tray = *dice.pick(&[64, 64, 65, 200, 63, 0]).unwrap_or(&64);
    Call::List { k, tray }
}

/// Check, room, and a format that is refused.
fn random_other(dice: &mut Dice) -> Call {
    match dice.below(4) {
        0 => Call::Check,
        1 => Call::Format {
            s: *dice.pick(&[0, 5, 13, 256 + 6, u64::MAX]).unwrap_or(&0),
        },
        _ => Call::Room,
    }
}
