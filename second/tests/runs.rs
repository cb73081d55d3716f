//! Random runs that hold the store against a plain list of names with their bytes.
//!
//! Every answer must be the plain list's, refusals included. After every accepted call the card
//! is read afresh and held against the list, the layout's block formula, what the call may
//! touch, and the bytes the oracle expects.

use second::generator::call::Call;
use second::generator::dice::Dice;
use second::generator::layout::{byte_at, Layout, Rows};
use second::generator::oracle::card_after;
use second::generator::plain::Plain;
use second::generator::runs::{brim, good_name, Run, Step, Taste, CROWD, MIXED, TALL};
use second::generator::scramble::scramble;
use second::shape::Shape;
use second::{check, format, list, read, room, Outcome, Refusal};

/// A card, the run it is led through, and what was met on the way.
struct Trial {
    card: Vec<u8>,
    run: Run,
    /// How often each number was answered.
    answers: [u64; 10],
    /// The greatest height of a stream's pyramid.
    height: usize,
    /// The most streams at once.
    streams: usize,
}

impl Trial {
    /// Starts on a card newly formatted over noise.
    fn new(s: u64, blocks: usize, seed: u64) -> Trial {
        let mut card = Dice::new(seed).bytes(87 + (blocks << s));
        assert_eq!(format(&mut card, s), Outcome::DONE);
        let shape = Shape::of(s, card.len()).expect("a good shape");
        Trial {
            card,
            run: Run::new(shape, MIXED, seed),
            answers: [0; 10],
            height: 0,
            streams: 0,
        }
    }

    fn steps(&mut self, taste: Taste, steps: usize) {
        self.run.taste = taste;
        for _ in 0..steps {
            let step = self.run.next().expect("a run does not end");
            self.take(step);
        }
        self.reads_like_the_list();
    }

    fn call(&mut self, call: Call) -> Outcome {
        let step = self.run.step(call);
        self.take(step)
    }

    /// Makes a call and finds everything as the run says.
    fn take(&mut self, step: Step) -> Outcome {
        let call = &step.call;
        let before = self.card.clone();
        let mut tray = step.lent;
        let answer = call.run(&mut self.card, &mut tray);
        assert_eq!(answer, step.answer, "{call:?}");
        assert!(tray == step.tray, "the tray after {call:?}");
        self.answers[usize::from(answer.number)] += 1;
        if answer.is_done() && call.edits() {
            self.accepted(&before, call);
        } else {
            assert!(self.card == before, "the card after {call:?}");
        }
        answer
    }

    /// Everything owed after an accepted edit.
    fn accepted(&mut self, before: &[u8], call: &Call) {
        assert_eq!(check(&self.card), Outcome::DONE, "{call:?}");
        let old = Layout::read(before).expect("sound before");
        let new = Layout::read(&self.card).expect("sound after");
        assert!(new.plain() == self.run.plain, "the list after {call:?}");
        let free = self.run.plain.free();
        assert_eq!(new.chain.len() as u64, free, "{call:?}");
        assert_eq!(room(&self.card).count, free, "{call:?}");
        every_block_has_one_owner(&new);
        if !matches!(call, Call::Format { .. }) {
            others_are_the_same(&old, &new, call);
            only_listed_parts_changed(before, &self.card, &old, &new, call);
        }
        let expected = card_after(before, call).expect("sound before");
        assert!(self.card == expected, "some byte after {call:?}");
        let heights = new.streams.values().map(|held| held.rows.len());
        self.height = self
            .height
            .max(heights.max().unwrap_or(0).saturating_sub(1));
        self.streams = self.streams.max(new.streams.len());
    }

    /// Reads every name and every byte through the store's own calls.
    fn reads_like_the_list(&self) {
        for (k, stream) in self.run.plain.streams.iter().enumerate() {
            let mut tray = [0xEE; 64];
            let answer = list(&self.card, k as u64, &mut tray);
            let (length, size) = (stream.name.len(), stream.bytes.len());
            assert_eq!((answer.length, answer.size), (length as u64, size as u64));
            assert_eq!(tray[..length], stream.name);
            let mut tray = vec![0xEE; size + 1];
            let answer = read(&self.card, &stream.name, 0, &mut tray);
            assert_eq!((answer.number, answer.count), (0, size as u64));
            assert!(tray[..size] == stream.bytes && tray[size] == 0xEE);
        }
    }

    /// Goes on with another card that has the same names and bytes.
    fn scramble(&mut self) {
        self.card = scramble(&self.card, &mut self.run.dice).expect("sound");
        let layout = Layout::read(&self.card).expect("a scrambled card is sound");
        let before = std::mem::replace(&mut self.run.plain, layout.plain());
        let sorted = |mut plain: Plain| {
            plain.streams.sort_by(|a, b| a.name.cmp(&b.name));
            plain
        };
        let same = sorted(before) == sorted(layout.plain());
        assert!(same, "scrambling keeps names and bytes");
        self.reads_like_the_list();
    }
}

fn blocks_of(rows: &Rows) -> impl Iterator<Item = u64> + '_ {
    rows.iter().flatten().copied()
}

fn every_block_has_one_owner(layout: &Layout) {
    let streams = layout
        .streams
        .values()
        .flat_map(|held| blocks_of(&held.rows));
    let filing = blocks_of(&layout.table).chain(blocks_of(&layout.root));
    let mut all: Vec<u64> = streams
        .chain(filing)
        .chain(layout.chain.iter().copied())
        .collect();
    all.sort_unstable();
    assert!(all.into_iter().eq(0..layout.shape.count()));
}

/// The index of the stream a call names, before or after it.
fn named(old: &Layout, new: &Layout, call: &Call) -> u64 {
    let (Call::Create { name }
    | Call::Write { name, .. }
    | Call::Truncate { name, .. }
    | Call::Delete { name }) = call
    else {
        panic!("{call:?} names no stream it may change");
    };
    old.find(name).or(new.find(name)).expect("a known stream")
}

/// All streams but the named one have the same blocks in the same order with the same bytes.
fn others_are_the_same(old: &Layout, new: &Layout, call: &Call) {
    let named = named(old, new, call);
    let others = |layout: &Layout| {
        let mut streams = layout.streams.clone();
        streams.remove(&named);
        streams
    };
    assert!(others(old) == others(new), "the others after {call:?}");
    if matches!(call, Call::Write { .. } | Call::Truncate { .. }) {
        assert!(old.table == new.table && old.root == new.root && old.entries == new.entries);
        assert!(old.spare == new.spare);
    }
}

/// Marks what a call may touch and finds every other byte as it was.
fn only_listed_parts_changed(before: &[u8], after: &[u8], old: &Layout, new: &Layout, call: &Call) {
    let shape = old.shape;
    let mut may_touch = vec![false; before.len()];
    may_touch[27..35].fill(true);
    let index = named(old, new, call);
    let own = [old, new].map(|layout| layout.streams.get(&index).map(|held| &held.rows));
    let mut pyramids: Vec<&Rows> = own.into_iter().flatten().collect();
    if matches!(call, Call::Create { .. } | Call::Delete { .. }) {
        may_touch[45..70].fill(true);
        pyramids.extend([&old.table, &new.table, &old.root, &new.root]);
    } else {
        let descriptor = 8 + 25 * index as usize;
        for offset in descriptor..descriptor + 25 {
            may_touch[byte_at(shape, &old.table, offset)] = true;
        }
    }
    for block in pyramids.into_iter().flat_map(blocks_of) {
        may_touch[shape.span(block)].fill(true);
    }
    let bytes = before.iter().zip(after).zip(may_touch);
    let strays = bytes.filter(|((old, new), may)| old != new && !may).count();
    assert_eq!(strays, 0, "bytes outside the listed parts after {call:?}");
}

#[test]
fn small_cards_of_every_block_size() {
    let mut answers = [0; 10];
    for s in 6..=12 {
        for (blocks, seed) in [(4, 1), (9, 2), (17, 3), (40, 4), (40, 5)] {
            let mut trial = Trial::new(s, blocks, 100 * s + seed);
            trial.steps(MIXED.writing_up_to(4 << s), 600);
            (0..10).for_each(|i| answers[i] += trial.answers[i]);
        }
    }
    // Every number but DAMAGED and STREAMS FULL, which have their own tests.
    for number in [0, 2, 3, 4, 5, 7, 8, 9] {
        assert!(answers[number] > 100, "number {number} in {answers:?}");
    }
}

#[test]
fn tiny_cards_nearly_full() {
    let short = Taste {
        names: 4,
        longest_name: 3,
        longest_write: 90,
        ..MIXED
    };
    let mut no_room = 0;
    for blocks in 1..=12 {
        for seed in 0..16 {
            let mut trial = Trial::new(6, blocks, 1000 + 20 * blocks as u64 + seed);
            trial.steps(short, 300);
            no_room += trial.answers[7];
        }
    }
    assert!(no_room > 5000, "NO ROOM met {no_room} times");
}

#[test]
fn tall_pyramids() {
    let mut height = 0;
    for (s, blocks, seed) in [
        (6, 60, 1),
        (6, 330, 2),
        (6, 700, 3),
        (7, 400, 4),
        (8, 300, 5),
    ] {
        let mut trial = Trial::new(s, blocks, 2000 + seed);
        let third = (blocks << s) as u64 / 3;
        trial.steps(TALL.writing_up_to(third), 2000);
        height = height.max(trial.height);
    }
    assert_eq!(height, 3, "heights from 0 to 3 belong to these runs");
}

#[test]
fn crowds_up_to_255_streams() {
    for (s, blocks, seed) in [(6, 700, 1), (7, 300, 2), (10, 120, 3)] {
        let mut trial = Trial::new(s, blocks, 3000 + seed);
        trial.steps(CROWD, 700);
        for stream in trial.run.plain.streams.clone() {
            trial.call(Call::truncate(&stream.name, 0));
        }
        for j in 0..300 {
            trial.call(Call::create(&good_name(j + 1000, 9)));
        }
        assert_eq!(trial.streams, 255, "s = {s}");
        assert!(trial.answers[6] > 0, "STREAMS FULL, s = {s}");
        trial.scramble();
        let emptying = Taste {
            delete: 40,
            create: 5,
            ..CROWD
        };
        trial.steps(emptying, 500);
        trial.steps(CROWD, 300);
    }
}

#[test]
fn strangers_cards() {
    for (s, blocks, seed) in [
        (6, 7, 1),
        (6, 40, 2),
        (6, 350, 3),
        (7, 90, 4),
        (8, 60, 5),
        (9, 30, 6),
        (12, 12, 7),
    ] {
        let mut trial = Trial::new(s, blocks, 4000 + seed);
        let quarter = (blocks << s) as u64 / 4;
        for _ in 0..10 {
            for taste in [MIXED, TALL, CROWD] {
                trial.steps(taste.writing_up_to(quarter), 60);
                trial.scramble();
            }
        }
    }
}

#[test]
fn formatting_again_starts_afresh() {
    let mut trial = Trial::new(6, 64, 5000);
    for s in [6, 8, 12, 7, 6] {
        trial.steps(MIXED, 60);
        assert_eq!(trial.call(Call::Format { s }), Outcome::DONE);
        assert_eq!(trial.run.plain.free(), (4096 >> s) - 1);
    }
}

/// Writes to the brim, one byte over it, and gives everything back, at every height.
#[test]
fn the_brim_to_the_byte() {
    for blocks in (3..40).chain([270, 280, 300]) {
        let mut trial = Trial::new(6, blocks, 6000 + blocks as u64);
        trial.call(Call::create(b"x"));
        let brim = brim(&trial.run.plain, b"x");
        let mut data = trial.run.dice.bytes(brim as usize + 1);
        let over = trial.call(Call::write(b"x", 0, data.clone()));
        assert_eq!(over, Refusal::NoRoom.into(), "{blocks} blocks");
        data.pop();
        let full = trial.call(Call::write(b"x", 0, data));
        assert_eq!((full.number, full.count), (0, brim), "{blocks} blocks");
        for n in [brim / 2, brim / 4, brim / 64, 0] {
            assert!(trial.call(Call::truncate(b"x", n)).is_done());
        }
        assert_eq!(room(&trial.card).count, blocks as u64 - 2);
    }
}

/// One block after another, then cut off again around every edge, on a stranger's card.
#[test]
fn growth_and_truncation_around_every_edge() {
    let mut trial = Trial::new(6, 330, 7000);
    trial.call(Call::create(b"edge"));
    trial.scramble();
    for d in 0..290u64 {
        let data = trial.run.dice.bytes(64);
        let answer = trial.call(Call::write(b"edge", 64 * d, data));
        assert!(answer.is_done(), "after {d} blocks");
    }
    assert_eq!(trial.height, 3);
    for d in (0..290u64).rev().filter(|d| d % 16 < 3 || *d < 40) {
        for n in [64 * d + 1, 64 * d] {
            let answer = trial.call(Call::truncate(b"edge", n));
            assert!(answer.is_done(), "to {n} bytes");
        }
    }
}

#[test]
fn the_largest_card() {
    let mut trial = Trial::new(12, 4096, 8000);
    trial.call(Call::create(b"largest"));
    trial.scramble();
    let data = trial.run.dice.bytes(1025 << 12);
    assert!(trial.call(Call::write(b"largest", 0, data)).is_done());
    assert_eq!(trial.height, 2);
    let brim = brim(&trial.run.plain, b"largest");
    assert_eq!(trial.run.plain.blocks_needed(brim) + 2, 4096);
    let place = 1025 << 12;
    let data = vec![7; (brim - place) as usize + 1];
    let over = trial.call(Call::write(b"largest", place, data));
    assert_eq!(over, Refusal::NoRoom.into());
    assert!(trial.call(Call::truncate(b"largest", 1024 << 12)).is_done());
    assert!(trial.call(Call::delete(b"largest")).is_done());
}
