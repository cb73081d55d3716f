//! A plan's card: its blocks given out, its bytes laid over noise, and where everything stands.

use super::plan::Plan;
use super::{Case, FF4, FF8};
use crate::header::TEMPLATE;

/// An owner of blocks: 0 the table, 1 the root, 2 and above the named streams.
pub type Owner = usize;

/// The card, with one block of noise after it.
#[derive(Clone, Debug)]
pub struct Image {
    /// What it holds; the dice go on from it.
    pub plan: Plan,
    /// How many blocks the card has.
    pub count: u64,
    /// The bytes.
    pub bytes: Vec<u8>,
    /// How many of them are the card.
    pub length: u64,
    /// All blocks: owner after owner, and then the free chain.
    blocks: Vec<u64>,
    /// Where each owner's blocks begin among them, and last where the free ones do.
    bases: Vec<usize>,
}

/// The lengths of the rows of a pyramid, the data first; none for no data.
fn rows(d: u64, fan: u64) -> Vec<u64> {
    let mut rows = Vec::new();
    let mut width = d;
    while width > 0 {
        rows.push(width);
        width = if width == 1 { 0 } else { width.div_ceil(fan) };
    }
    rows
}

impl Image {
    /// Lays a plan.
    pub fn of(plan: Plan) -> Image {
        let mut image = Image {
            plan,
            count: 0,
            bytes: Vec::new(),
            length: 0,
            blocks: Vec::new(),
            bases: vec![0],
        };
        image.give_blocks();
        image.noise();
        image.lay_header();
        (0..image.owners()).for_each(|owner| image.lay_pyramid(owner));
        image.lay_table();
        image.lay_root();
        image.lay_chain();
        image
    }

    /// The card itself.
    pub fn card(mut self) -> Vec<u8> {
        self.bytes.truncate(self.length as usize);
        self.bytes
    }

    fn owners(&self) -> Owner {
        self.plan.m as usize + 2
    }

    /// Bytes of a block.
    pub fn z(&self) -> u64 {
        self.plan.z()
    }

    /// An owner's size.
    pub fn size(&self, owner: Owner) -> u64 {
        let entries = 0..self.plan.entries as usize;
        match owner {
            0 => 8 + 25 * self.plan.n(),
            1 => entries.map(|e| 6 + self.plan.names[e]).sum(),
            _ => self.plan.sizes[owner - 2],
        }
    }

    /// An owner's data blocks.
    pub fn d(&self, owner: Owner) -> u64 {
        self.size(owner).div_ceil(self.z())
    }

    /// The lengths of an owner's rows.
    pub fn rows(&self, owner: Owner) -> Vec<u64> {
        rows(self.d(owner), self.z() / 4)
    }

    fn give_blocks(&mut self) {
        for owner in 0..self.owners() {
            let p: u64 = self.rows(owner).iter().sum();
            self.bases.push(self.bases[owner] + p as usize);
        }
        let used = self.bases[self.owners()] as u64;
        if self.plan.kind == 7 {
            self.plan.q = 4096 - used;
        }
        if self.plan.even {
            self.plan.q += (used + self.plan.q) % 2;
        }
        self.count = used + self.plan.q;
        self.length = 87 + self.count * self.z();
        self.blocks = (0..self.count).collect();
        if self.plan.kind != 9 {
            self.plan.dice.shuffle(&mut self.blocks);
        }
    }

    fn noise(&mut self) {
        self.bytes = vec![0; (self.length + self.z()) as usize];
        let dice = &mut self.plan.dice;
        let last_to_first = self.bytes.iter_mut().rev();
        last_to_first.for_each(|byte| *byte = dice.below(256) as u8);
    }

    /// An owner's blocks: data, then level by level up to the top.
    pub fn blocks(&self, owner: Owner) -> &[u64] {
        &self.blocks[self.bases[owner]..self.bases[owner + 1]]
    }

    /// An owner's top; 0 for no data.
    pub fn top(&self, owner: Owner) -> u64 {
        self.blocks(owner).last().copied().unwrap_or(0)
    }

    /// The free chain.
    pub fn free(&self) -> &[u64] {
        &self.blocks[self.bases[self.owners()]..]
    }

    /// A block of the owner's, drawn.
    pub fn any_block(&mut self, owner: Owner) -> u64 {
        let p = self.blocks(owner).len() as u64;
        let at = self.plan.dice.below(p) as usize;
        self.blocks(owner)[at]
    }

    /// A data block of the owner's, drawn.
    pub fn any_data(&mut self, owner: Owner) -> u64 {
        let at = self.plan.dice.below(self.d(owner)) as usize;
        self.blocks(owner)[at]
    }

    /// Where a block starts.
    fn start(&self, block: u64) -> usize {
        (87 + block * self.z()) as usize
    }

    /// Puts a number of so many bytes on the card.
    pub fn put(&mut self, at: usize, width: usize, value: u64) {
        self.bytes[at..at + width].copy_from_slice(&value.to_le_bytes()[..width]);
    }

    /// Where a byte of an owner's contents stands.
    pub fn spot(&self, owner: Owner, offset: u64) -> usize {
        let block = self.blocks(owner)[(offset / self.z()) as usize];
        self.start(block) + (offset % self.z()) as usize
    }

    /// Puts a number of so many bytes into an owner's contents.
    pub fn put_in(&mut self, owner: Owner, offset: u64, width: usize, value: u64) {
        for (i, &byte) in value.to_le_bytes()[..width].iter().enumerate() {
            let at = self.spot(owner, offset + i as u64);
            self.bytes[at] = byte;
        }
    }

    /// Where the slot stands that names block `j` of an owner's row.
    pub fn slot(&self, owner: Owner, row: usize, j: u64) -> usize {
        let fan = self.z() / 4;
        let above: u64 = self.rows(owner)[..=row].iter().sum();
        let block = self.blocks(owner)[(above + j / fan) as usize];
        self.start(block) + 4 * (j % fan) as usize
    }

    /// The block `j` of an owner's row.
    pub fn block(&self, owner: Owner, row: usize, j: u64) -> u64 {
        let before: u64 = self.rows(owner)[..row].iter().sum();
        self.blocks(owner)[(before + j) as usize]
    }

    /// Puts a link.
    pub fn link(&mut self, block: u64, next: u64) {
        self.put(self.start(block), 4, next);
    }

    /// Puts the first-free field.
    pub fn first_free(&mut self, value: u64) {
        self.put(27, 8, value);
    }

    /// Puts the table's first 8 bytes.
    pub fn first_offset(&mut self, value: u64) {
        self.put_in(0, 0, 8, value);
    }

    /// The index of the descriptor of an owner above 0.
    pub fn index(&self, owner: Owner) -> u64 {
        self.plan.order[owner - 1]
    }

    /// Puts a field of descriptor `k` of the table, by its place and width.
    pub fn field(&mut self, k: u64, (at, width): (u64, usize), value: u64) {
        self.put_in(0, 8 + 25 * k + at, width, value);
    }

    /// Reserved, as it is right.
    pub fn reserved(&self, owner: Owner) -> u64 {
        self.d(owner) * self.z()
    }

    fn lay_header(&mut self) {
        self.bytes[..87].copy_from_slice(&TEMPLATE);
        self.bytes[25] = self.plan.s as u8;
        let first = self.free().first().copied().unwrap_or(FF8);
        self.first_free(first);
        self.put(45, 8, self.size(0));
        self.put(53, 8, self.top(0));
        self.put(61, 8, self.reserved(0));
    }

    fn lay_pyramid(&mut self, owner: Owner) {
        let rows = self.rows(owner);
        for row in 0..rows.len().saturating_sub(1) {
            for j in 0..rows[row] {
                let at = self.slot(owner, row, j);
                self.put(at, 4, self.block(owner, row, j));
            }
        }
    }

    fn lay_table(&mut self) {
        for owner in 1..self.owners() {
            let k = self.index(owner);
            self.field(k, SIZE, self.size(owner));
            self.field(k, TOP, self.top(owner));
            self.field(k, RESERVED, self.reserved(owner));
            self.field(k, FLAGS, 0);
        }
        let mut next = FF8;
        for j in (0..self.plan.v).rev() {
            let k = self.plan.spare(j);
            self.field(k, SIZE, next);
            self.field(k, TOP, FF8);
            self.field(k, RESERVED, 0);
            self.field(k, FLAGS, 0);
            next = self.plan.spare_offset(j);
        }
        self.first_offset(next);
    }

    /// Where an entry stands in the root.
    pub fn entry(&self, e: u64) -> u64 {
        (0..e as usize).map(|e| 6 + self.plan.names[e]).sum()
    }

    fn lay_root(&mut self) {
        for e in 0..self.plan.entries {
            let at = self.entry(e);
            let length = self.plan.names[e as usize];
            self.put_in(1, at, 4, self.plan.indices[e as usize]);
            self.put_in(1, at + 4, 2, length);
            self.lay_name(at + 6, length, if e > 46 { e + 1 } else { e });
        }
    }

    fn lay_name(&mut self, at: u64, length: u64, mark: u64) {
        for i in 0..length {
            let spot = self.spot(1, at + i);
            self.bytes[spot] = match self.plan.style {
                0 if self.bytes[spot] == 47 => 46,
                0 => self.bytes[spot],
                _ => 97,
            };
        }
        if length > 0 {
            let place = if self.plan.style == 0 { 0 } else { length - 1 };
            self.put_in(1, at + place, 1, mark);
        }
    }

    fn lay_chain(&mut self) {
        let mut next = FF4;
        for block in self.free().to_vec().into_iter().rev() {
            self.link(block, next);
            next = block;
        }
    }

    /// Flags that are wrong.
    pub fn wrong_flags(&mut self, case: Case) -> u64 {
        match case.i % 4 {
            3 => 1 + self.plan.dice.below(255),
            which => [1, 128, 255][which as usize],
        }
    }

    /// A reserved that is wrong, by the right one.
    pub fn wrong_reserved(&self, case: Case, x: u64) -> u64 {
        let z = self.z();
        let values = [x + 1, x - 1, x + z, x - z, x + (1 << 32), x + (1 << 63)];
        case.of(&values)
    }

    /// A number that is wrong where 0 is right.
    pub fn not_zero(&self, case: Case) -> u64 {
        case.of(&[1, self.z(), 1 << 32, 1 << 63, FF8])
    }

    /// The wrong blocks in 8 bytes, by the right one.
    pub fn wrong_blocks(&self, x: u64) -> [u64; 8] {
        let beyond = self.count;
        [
            beyond,
            beyond + 1,
            x + (1 << 32),
            x + (1 << 63),
            FF4,
            FF8 - 1,
            x + 65536,
            x + (1 << 24),
        ]
    }

    /// A wrong block in a slot, by the right one.
    pub fn wrong_slot(&self, case: Case, x: u64) -> u64 {
        case.of(&[self.count, self.count + 1, x + (1 << 31), FF4, x + 65536])
    }

    /// Draws the slot of a row, among the rows below `rows`: the row and the number in it.
    pub fn deep(&mut self, owner: Owner, rows: u64) -> (usize, u64) {
        let row = self.plan.dice.below(rows) as usize;
        let j = self.plan.dice.below(self.rows(owner)[row]);
        (row, j)
    }

    /// Damage that a table and a stream share: a drawn slot that is out of range.
    pub fn deep_out_of_range(&mut self, case: Case, owner: Owner, rows: u64) {
        let (row, j) = self.deep(owner, rows);
        let wrong = self.wrong_slot(case, self.block(owner, row, j));
        self.put(self.slot(owner, row, j), 4, wrong);
    }

    /// The same: a slot of the data row that is out of range.
    pub fn out_of_range(&mut self, case: Case, owner: Owner) {
        let j = self.plan.dice.below(self.d(owner));
        let wrong = self.wrong_slot(case, self.block(owner, 0, j));
        self.put(self.slot(owner, 0, j), 4, wrong);
    }

    /// The same: a data block that stands in its neighbour's slot too.
    pub fn twice(&mut self, owner: Owner) {
        let d = self.d(owner);
        let j = self.plan.dice.below(d);
        let other = self.block(owner, 0, (j + 1) % d);
        self.put(self.slot(owner, 0, j), 4, other);
    }

    /// The same: a block in a slot of the data row.
    pub fn in_data_row(&mut self, owner: Owner, block: u64) {
        let j = self.plan.dice.below(self.d(owner));
        self.put(self.slot(owner, 0, j), 4, block);
    }

    /// The same: a drawn slot that names another block of its row.
    pub fn deep_twice(&mut self, owner: Owner, rows: u64) {
        let (row, j) = self.deep(owner, rows);
        let width = self.rows(owner)[row];
        let y = self.plan.dice.below(width - 1);
        let other = self.block(owner, row, (j + 1 + y) % width);
        self.put(self.slot(owner, row, j), 4, other);
    }
}

/// A descriptor's size: its place and width.
pub const SIZE: (u64, usize) = (0, 8);
/// Its top.
pub const TOP: (u64, usize) = (8, 8);
/// Its reserved.
pub const RESERVED: (u64, usize) = (16, 8);
/// Its flags.
pub const FLAGS: (u64, usize) = (24, 1);
