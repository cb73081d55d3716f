//! What a card is to hold: drawn by its kind, and changed where the clause asks for it.

use super::dice::Dice;
use super::{root, Case};

/// A plan, and the dice as it left them.
#[derive(Clone, Debug)]
pub struct Plan {
    /// The dice.
    pub dice: Dice,
    /// The kind.
    pub kind: usize,
    /// Block size: 2^s.
    pub s: u64,
    /// Named streams.
    pub m: u64,
    /// Free descriptors.
    pub v: u64,
    /// Free blocks.
    pub q: u64,
    /// Descriptors: the root, the named streams in the order of their entries, the free ones.
    pub order: Vec<u64>,
    /// The sizes of the named streams.
    pub sizes: Vec<u64>,
    /// The lengths of the names, and one more.
    pub names: Vec<u64>,
    /// The indices in the entries, and one more.
    pub indices: Vec<u64>,
    /// How many entries there are.
    pub entries: u64,
    /// How names are made: 0 or 1.
    pub style: u64,
    /// Whether the block count is to be even.
    pub even: bool,
    /// Two entries whose names are to be equal.
    pub equal: Option<(u64, u64)>,
}

/// The least number, and how many numbers there are from it on, of m, v and q; by kind.
const RANGES: [[(u64, u64); 3]; 11] = [
    [(4, 3), (3, 2), (3, 6)],
    [(0, 7), (0, 5), (0, 9)],
    [(1, 6), (0, 5), (0, 1)],
    [(1, 6), (0, 5), (1, 1)],
    [(1, 4), (0, 3), (0, 9)],
    [(1, 4), (0, 3), (0, 9)],
    [(250, 6), (0, 1), (0, 9)],
    [(1, 6), (0, 5), (0, 1)],
    [(0, 1), (0, 1), (0, 1)],
    [(0, 7), (0, 5), (0, 9)],
    [(20, 20), (0, 1), (0, 9)],
];

fn kind(case: Case) -> usize {
    match case.key() {
        (0, kind) => kind,
        (3, 9) => 7,
        (4, 6 | 7 | 14 | 17) => 6,
        (5, 22) => 10,
        (6, 2 | 5) => 4 + case.i as usize % 2,
        (7, 1) => 2,
        _ => 0,
    }
}

fn s(case: Case, kind: usize) -> u64 {
    match case.key() {
        (3, 0 | 1) | (4, 10 | 11 | 14 | 17) => 6,
        (3, 2) | (4, 7) => 12,
        (4, 13 | 15 | 16) => 6 + case.i % 2,
        (4, 2) | (8, 3 | 4) => 9 + case.i % 4,
        _ if [4, 5, 7].contains(&kind) => 6,
        _ if kind == 10 => 6 + case.i % 3,
        _ => 6 + case.i % 7,
    }
}

impl Plan {
    /// Draws the plan of a card.
    pub fn draw(case: Case) -> Plan {
        let seed = 1 + 1000 * (100 * case.rule as u64 + case.clause as u64) + case.i;
        let mut dice = Dice::new(seed);
        let kind = kind(case);
        let [m, mut v, q] = RANGES[kind].map(|(least, span)| least + dice.below(span));
        if kind == 6 {
            v = 255 - m;
        }
        let mut order: Vec<u64> = (0..=m + v).collect();
        if kind != 9 {
            dice.shuffle(&mut order[1..]);
        }
        let mut indices = order[1..=m as usize].to_vec();
        indices.push(0);
        let mut plan = Plan {
            dice,
            kind,
            s: s(case, kind),
            m,
            v,
            q,
            order,
            sizes: vec![0; m as usize],
            names: vec![0; m as usize + 1],
            indices,
            entries: m,
            style: 0,
            even: case.key() == (3, 2),
            equal: None,
        };
        plan.draw_sizes();
        plan.draw_names();
        plan.style = plan.dice.below(2);
        plan.change(case);
        plan
    }

    /// Bytes of a block.
    pub fn z(&self) -> u64 {
        1 << self.s
    }

    /// How many descriptors there are.
    pub fn n(&self) -> u64 {
        1 + self.m + self.v
    }

    /// The index of spare `j`.
    pub fn spare(&self, j: u64) -> u64 {
        self.order[(1 + self.m + j) as usize]
    }

    /// The table's place of spare `j`.
    pub fn spare_offset(&self, j: u64) -> u64 {
        8 + 25 * self.spare(j)
    }

    fn draw_sizes(&mut self) {
        let z = self.z();
        for e in (0..self.m as usize).rev() {
            let a = self.dice.below(4);
            let b = self.dice.below(3 * z);
            self.sizes[e] = match (self.kind, e) {
                (0, 0) => z + 1 + b,
                (0, 1) => 1 + b % z,
                (0, 2) => 0,
                (4, 0) => 16 * z + b * z + 1 + a,
                (5, 0) => 256 * z + b * z + 1 + a,
                (6, 3..) => 0,
                _ => [0, z * (1 + b / z), z * (1 + b / z) + 1, 1 + b][a as usize],
            };
        }
    }

    fn draw_names(&mut self) {
        for e in (0..=self.m as usize).rev() {
            self.names[e] = 1 + self.dice.below(64);
        }
        match self.kind {
            0 => {
                let last = &mut self.names[self.m as usize - 1];
                *last = 8 + *last % 40;
            }
            10 => self.names.fill(64),
            _ => {}
        }
    }

    /// The clause's change of the plan.
    fn change(&mut self, case: Case) {
        match case.key() {
            (5, 13) => self.sizes[1] = self.spare_offset(0),
            (5, 14) => self.sizes[1] = self.spare_offset(1),
            (8, _) => root::change(self, case),
            _ => {}
        }
    }
}
