//! Runs whose steps the dice choose (R5 to R7).

use super::call::{Call, Which};
use super::damage::{span, Damage};
use super::Table;
use crate::answer::Outcome;
use crate::cases::dice::Dice;

/// A kind of run: how many, and the ranges of its plan.
struct Kind {
    runs: u64,
    shifts: u64,
    blocks: (u64, u64),
    made: u64,
    pool: u64,
    steps: usize,
    longest: Longest,
}

/// How long a write may be.
#[derive(Clone, Copy)]
enum Longest {
    Blocks(u64),
    Bytes(u64),
    Room,
}

const KINDS: [Kind; 7] = [
    kind(42, 7, (1, 8), 0, 3, 40, Longest::Blocks(3)),
    kind(42, 7, (12, 20), 3, 6, 60, Longest::Blocks(4)),
    kind(42, 7, (6, 30), 4, 5, 60, Longest::Room),
    kind(8, 1, (400, 300), 2, 3, 40, Longest::Bytes(22_000)),
    kind(4, 3, (290, 20), 255, 510, 120, Longest::Blocks(1)),
    kind(7, 7, (1 << 20, 1), 2, 3, 12, Longest::Bytes(130_000)),
    kind(9, 3, (90, 60), 30, 8, 60, Longest::Blocks(12)),
];

const fn kind(
    runs: u64,
    shifts: u64,
    blocks: (u64, u64),
    made: u64,
    pool: u64,
    steps: usize,
    longest: Longest,
) -> Kind {
    Kind {
        runs,
        shifts,
        blocks,
        made,
        pool,
        steps,
        longest,
    }
}

/// All runs of all kinds.
pub fn all(table: &mut Table) {
    for (k, kind) in KINDS.iter().enumerate() {
        for i in 0..kind.runs {
            Run::new(k as u64, kind, i).go(table);
        }
    }
}

/// A new card with the first names.
pub fn begin(table: &mut Table, len: usize, s: u64, made: u64) {
    table.make(len, Call::plain(Which::Format, 0, s), None);
    for name in 0..made {
        table.make(len, Call::plain(Which::Create, name, 0), None);
    }
}

/// One byte for each of the first names.
pub fn write_ones(table: &mut Table, len: usize, ones: u64) {
    for name in 0..ones {
        let mut call = Call::plain(Which::Write, name, 0);
        call.length = 1;
        table.make(len, call, None);
    }
}

struct Run<'k> {
    dice: Dice,
    kind: &'k Kind,
    s: u64,
    len: usize,
    scrambled: bool,
}

impl Run<'_> {
    fn new(k: u64, kind: &Kind, i: u64) -> Run<'_> {
        let mut dice = Dice::new(1 + 1000 * k + i);
        let s = 6 + i % kind.shifts;
        let (least, spread) = kind.blocks;
        // The large kind has as many bytes as fit, the others so many blocks.
        let drawn = least + dice.below(spread);
        let blocks = match k {
            5 => (drawn >> s).min(4096),
            _ => drawn,
        };
        let len = 87 + (blocks << s) as usize;
        Run {
            dice,
            kind,
            s,
            len,
            scrambled: k == 6,
        }
    }

    fn z(&self) -> u64 {
        1 << self.s
    }

    fn go(&mut self, table: &mut Table) {
        begin(table, self.len, self.s, self.kind.made);
        if self.scrambled {
            self.scramble(table);
        }
        for _ in 0..self.kind.steps {
            self.step(table);
        }
    }

    /// Each name gets a block, and most of them go.
    fn scramble(&mut self, table: &mut Table) {
        write_ones(table, self.len, self.kind.made);
        for _ in 0..60 {
            let name = self.dice.below(self.kind.made);
            table.make(self.len, Call::plain(Which::Delete, name, 0), None);
        }
    }

    fn step(&mut self, table: &mut Table) {
        let which = match self.dice.below(20) {
            0..=3 => Which::Create,
            4..=8 => Which::Write,
            9 | 10 => Which::Read,
            11 | 12 => Which::Truncate,
            13 | 14 => Which::Delete,
            15 => Which::Size,
            16 => Which::List,
            17 => Which::Room,
            18 => Which::Check,
            _ => return self.round(table),
        };
        let name = self.name();
        let place = self.place(table, which, name);
        let length = self.length(table, which) as usize;
        let from = self.dice.below(1000) as usize;
        let call = Call {
            which,
            name,
            place,
            length,
            from,
        };
        table.make(self.len, call, None);
    }

    fn name(&mut self) -> u64 {
        match self.dice.below(16) {
            0 => 255 + self.dice.below(10),
            _ => self.dice.below(self.kind.pool),
        }
    }

    fn place(&mut self, table: &mut Table, which: Which, name: u64) -> u64 {
        match which {
            Which::Write | Which::Read | Which::Truncate => {
                let size = table
                    .make(self.len, Call::plain(Which::Size, name, 0), None)
                    .size;
                self.near(size)
            }
            Which::List => self.dice.below(self.kind.pool + 2),
            _ => 0,
        }
    }

    /// A place in or just past a stream of that size.
    fn near(&mut self, size: u64) -> u64 {
        let z = self.z();
        match self.dice.below(9) {
            0..=2 => size,
            3 => 0,
            4 | 5 => self.dice.below(size + 1),
            6 => z * self.dice.below(size / z + 1),
            7 => size + 1 + self.dice.below(3),
            _ => u64::MAX - self.dice.below(3),
        }
    }

    fn length(&mut self, table: &mut Table, which: Which) -> u64 {
        match which {
            Which::Write => self.write_length(table),
            Which::Read | Which::List => match self.dice.below(4) {
                0 => self.dice.below(64),
                1 => 64,
                2 => self.dice.below(601),
                _ => 600,
            },
            _ => 0,
        }
    }

    fn write_length(&mut self, table: &mut Table) -> u64 {
        let longest = match self.kind.longest {
            Longest::Room => {
                let free = table
                    .make(self.len, Call::plain(Which::Room, 0, 0), None)
                    .count;
                let blocks = self.dice.below(free + 3);
                return (self.z() * blocks + self.dice.below(4)).saturating_sub(2);
            }
            Longest::Blocks(n) => n * self.z(),
            Longest::Bytes(n) => n,
        };
        match self.dice.below(8) {
            0 => 0,
            _ => self.dice.below(longest + 1),
        }
    }

    /// The ten calls on the damaged card.
    fn round(&mut self, table: &mut Table) {
        let number = 1 + self.dice.below(9);
        let back = self.dice.below(span(number, self.len));
        let more = 1 + self.dice.below(255) as u8;
        let damage = Damage::new(number, self.len, self.z() as usize, back, more);
        let sound = table.row[..self.len].to_vec();
        damage.strike(&mut table.row[..self.len]);
        for which in Which::ALL {
            let call = Call {
                which,
                name: self.name(),
                place: self.dice.below(5),
                length: self.dice.below(700) as usize,
                from: self.dice.below(1000) as usize,
            };
            table.make(damage.lent, call, Some(&sound));
        }
        damage.mend(&mut table.row[..self.len]);
        let answer = table.make(self.len, Call::plain(Which::Check, 0, 0), None);
        if answer != Outcome::DONE {
            table.make(self.len, Call::plain(Which::Format, 0, self.s), None);
        }
    }
}
