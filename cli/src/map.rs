//! Which block belongs to whom, on a card that the proved check has passed.

use crate::json::{self, Json};
use crate::names::{counted, shown};
use second::check::examine;
use second::shape::Shape;

/// Who has a block.
#[derive(Clone, Copy, Debug, PartialEq, Eq)]
pub enum Owner {
    Free,
    Table,
    Root,
    List(usize),
}

/// A block: its owner, and whether it holds the way to other blocks instead of bytes.
#[derive(Clone, Copy, Debug, PartialEq, Eq)]
pub struct Block {
    pub owner: Owner,
    pub redirector: bool,
}

/// Every block of a card, and the lists by their places in the directory.
pub struct Map {
    pub shape: Shape,
    pub lists: Vec<(Vec<u8>, u64)>,
    pub blocks: Vec<Block>,
}

impl Map {
    pub fn of(image: &[u8]) -> Option<Map> {
        let sound = examine(image).ok()?;
        let shape = sound.shape;
        let nobody = Block {
            owner: Owner::Free,
            redirector: false,
        };
        let mut blocks = vec![nobody; shape.count() as usize];
        let mut streams = vec![(Owner::Table, sound.table.stream), (Owner::Root, sound.table.root())];
        let entries = sound.filing.entries.iter().enumerate();
        streams.extend(entries.map(|(i, entry)| (Owner::List(i), entry.stream)));
        for (owner, stream) in streams {
            stream.pyramid(shape).walk(image, shape, &mut |block, height| {
                let redirector = height > 0;
                blocks[block as usize] = Block { owner, redirector };
                true
            });
        }
        let named = |entry| (sound.filing.name(entry).to_vec(), entry.stream.size);
        let lists = sound.filing.entries.iter().map(named).collect();
        Some(Map { shape, lists, blocks })
    }

    /// The numbers of an owner's blocks: those with bytes, or its redirectors.
    pub fn of_owner(&self, owner: Owner, redirector: bool) -> Vec<u64> {
        let wanted = Block { owner, redirector };
        (0..)
            .zip(&self.blocks)
            .filter(|(_, block)| **block == wanted)
            .map(|(number, _)| number)
            .collect()
    }

    /// Where each owner stands in the text: a sign for a block of bytes.
    fn sign(&self, owner: Owner) -> String {
        let letter = |n: usize| char::from(b'a' + n as u8);
        let sign = match owner {
            Owner::Free => ".".into(),
            Owner::Table => "#".into(),
            Owner::Root => "@".into(),
            Owner::List(i) if self.lists.len() <= 26 => String::from(letter(i)),
            Owner::List(i) => format!("{}{}", letter(i / 26), letter(i % 26)),
        };
        format!("{sign:<0$}", if self.lists.len() <= 26 { 1 } else { 2 })
    }

    pub fn text(&self, card: &str) -> String {
        let size = self.shape.block_size();
        let mut out = format!("{card}: {} of {size} bytes\n\n", counted(self.shape.count(), "block"));
        for (row, blocks) in self.blocks.chunks(32).enumerate() {
            out.push_str(&format!("{:>6}  ", row * 32));
            for block in blocks {
                let sign = self.sign(block.owner);
                out.push_str(&if block.redirector { sign.to_uppercase() } else { sign });
                out.push(' ');
            }
            out.truncate(out.trim_end().len());
            out.push('\n');
        }
        out.push('\n');
        let owners = [Owner::Table, Owner::Root, Owner::Free]
            .into_iter()
            .chain((0..self.lists.len()).map(Owner::List));
        let mark = |owner| {
            if matches!(owner, Owner::List(_)) {
                " (in capitals)"
            } else {
                ""
            }
        };
        for owner in owners {
            out.push_str(&format!("{}  {}\n", self.sign(owner), self.legend(owner, mark(owner))));
        }
        out
    }

    /// Who an owner is, and how many blocks it has; `mark` tells how its redirectors look.
    pub fn legend(&self, owner: Owner, mark: &str) -> String {
        let blocks = counted(self.of_owner(owner, false).len() as u64, "block");
        let who = match owner {
            Owner::Free => return format!("free: {blocks}"),
            Owner::Table => "the table of lists".into(),
            Owner::Root => "the names".into(),
            Owner::List(i) => format!("{}, {}", shown(&self.lists[i].0), counted(self.lists[i].1, "byte")),
        };
        match self.of_owner(owner, true).len() as u64 {
            0 => format!("{who}: {blocks}"),
            n => format!("{who}: {blocks}, and {n} to find them by{mark}"),
        }
    }

    pub fn json(&self) -> Vec<(&'static str, Json)> {
        let parts = |owner| {
            vec![
                ("data", Json::numbers(&self.of_owner(owner, false))),
                ("redirectors", Json::numbers(&self.of_owner(owner, true))),
            ]
        };
        let list = |i: usize| {
            let mut fields = json::name(&self.lists[i].0);
            fields.push(("size", Json::Number(self.lists[i].1)));
            fields.extend(parts(Owner::List(i)));
            Json::Object(fields)
        };
        vec![
            ("blocks", Json::Number(self.shape.count())),
            ("block_size", Json::Number(self.shape.block_size())),
            ("free", Json::numbers(&self.of_owner(Owner::Free, false))),
            ("table", Json::Object(parts(Owner::Table))),
            ("root", Json::Object(parts(Owner::Root))),
            ("lists", Json::List((0..self.lists.len()).map(list).collect())),
        ]
    }
}
