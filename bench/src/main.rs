//! Times the proved code against the same in ordinary Rust, in one run, and prints the ratios. It judges nothing but that
//! both sides made the same bytes.

mod calls;
mod ours;
mod plain;

use std::hint::black_box;
use std::time::Instant;

/// How a card is cut, as far as blocks need it.
#[derive(Clone, Copy)]
pub struct Cut {
    base: usize,
    size: usize,
    count: usize,
    first: usize,
}

impl Cut {
    /// A shape whose numbers are in the ranges that the proved code asks for.
    fn new(size: usize, count: usize) -> Cut {
        assert!((64..=4096).contains(&size) && count <= 4096);
        Cut {
            base: 87,
            size,
            count,
            first: 27,
        }
    }

    fn fan(self) -> usize {
        self.size / 4
    }

    fn place(self, b: usize) -> usize {
        self.base + b * self.size
    }

    fn slot(self, b: usize, i: usize) -> usize {
        self.place(b) + 4 * i
    }

    /// A card with every block on the free chain, in rising order, and noise in all of them.
    fn free_card(self) -> Vec<u8> {
        let mut card: Vec<u8> = (0..self.place(self.count))
            .map(|i| (i * 31 + 7) as u8)
            .collect();
        for b in 0..self.count {
            let link = if b + 1 < self.count {
                b as u32 + 1
            } else {
                u32::MAX
            };
            card[self.place(b)..][..4].copy_from_slice(&link.to_le_bytes());
        }
        card[self.first..][..8].copy_from_slice(&0u64.to_le_bytes());
        card
    }
}

const ROUNDS: usize = 100;

/// One line of the table: the best of the rounds, ours and plain by turns. Both work on the same lent bytes, since where
/// those lie changes how fast they are copied; that both make the same of them is asserted before.
fn row<S>(
    name: &str,
    lent: &mut S,
    mut ours: impl FnMut(&mut S) -> f64,
    mut plain: impl FnMut(&mut S) -> f64,
) {
    let (mut best, mut best_plain) = (f64::MAX, f64::MAX);
    for _ in 0..ROUNDS {
        best = best.min(ours(lent));
        best_plain = best_plain.min(plain(lent));
    }
    let ratio = best / best_plain;
    println!("{name:44} {best:11.2} {best_plain:11.2} {ratio:7.2}");
}

/// Nanoseconds of one call, of `n` in a row.
fn each(n: usize, mut f: impl FnMut(usize)) -> f64 {
    let start = Instant::now();
    for i in 0..n {
        f(i);
    }
    start.elapsed().as_nanos() as f64 / n as f64
}

/// Nanoseconds of one call on a card that is made anew before it.
fn once(card: &mut [u8], from: &[u8], mut f: impl FnMut(&mut [u8])) -> f64 {
    card.copy_from_slice(from);
    let start = Instant::now();
    f(black_box(card));
    start.elapsed().as_nanos() as f64
}

/// That both make the same bytes and the same answer of a card.
fn same<R: PartialEq>(
    card: &[u8],
    ours: impl FnOnce(&mut [u8]) -> R,
    plain: impl FnOnce(&mut [u8]) -> R,
) -> Vec<u8> {
    let (mut one, mut other) = (card.to_vec(), card.to_vec());
    assert!(ours(&mut one) == plain(&mut other) && one == other);
    one
}

// Places that move a little from call to call, none of them aligned.
fn at(i: usize) -> usize {
    87 + (i & 7) * 4096
}

fn bulk(n: usize) {
    let calls = 4_000_000 / (n + 200);
    let src: Vec<u8> = (0..9000).map(|i| (i % 251) as u8).collect();
    let mut card: Vec<u8> = (0..87 + 8 * 4096).map(|i| (i % 253) as u8).collect();
    let mut tray = vec![0; 8192];
    for p in (0..8).map(at).chain([card.len() - 9, card.len()]) {
        same(&card, |c| ours::clear(c, p, n), |c| plain::clear(c, p, n));
        same(
            &card,
            |c| ours::copy(c, p, &src, 3, n),
            |c| plain::copy(c, p, &src, 3, n),
        );
        same(
            &tray,
            |t| ours::copy(t, 5, &card, p, n),
            |t| plain::copy(t, 5, &card, p, n),
        );
    }
    row(
        &format!("clear {n} bytes"),
        &mut card,
        |c| each(calls, |i| ours::clear(black_box(c), at(i), n)),
        |c| each(calls, |i| plain::clear(black_box(c), at(i), n)),
    );
    row(
        &format!("copy {n} bytes into the card"),
        &mut card,
        |c| each(calls, |i| ours::copy(black_box(c), at(i), &src, 3, n)),
        |c| each(calls, |i| plain::copy(black_box(c), at(i), &src, 3, n)),
    );
    row(
        &format!("copy {n} bytes out of the card"),
        &mut tray,
        |t| each(calls, |i| ours::copy(black_box(t), 5, &card, at(i), n)),
        |t| each(calls, |i| plain::copy(black_box(t), 5, &card, at(i), n)),
    );
}

fn matching(n: usize) {
    let mut card: Vec<u8> = (0..87 + 8 * 4096).map(|i| (i % 4096 % 251) as u8).collect();
    let run = card[87..87 + n].to_vec();
    for k in 0..n {
        let mut wrong = run.clone();
        wrong[k] ^= 1;
        assert!(ours::matches(&card, at(k), &run) && plain::matches(&card, at(k), &run));
        assert!(!ours::matches(&card, at(k), &wrong) && !plain::matches(&card, at(k), &wrong));
    }
    let calls = 20_000;
    row(
        &format!("matches {n} bytes"),
        &mut card,
        |c| {
            each(calls, |i| {
                _ = black_box(ours::matches(black_box(c), at(i), &run))
            })
        },
        |c| {
            each(calls, |i| {
                _ = black_box(plain::matches(black_box(c), at(i), &run))
            })
        },
    );
}

/// The reader over a pyramid of `d` data blocks, whose height is `h`, against two plain ones.
fn reading(cut: Cut, d: usize, h: usize) {
    let mut card = cut.free_card();
    let top = ours::grow(&mut card, cut, 0, 0, d);
    for j in 0..d {
        let found = plain::reader(&card, cut, top, h, j);
        assert!(ours::reader(&card, cut, top, h, j) == found);
        assert!(ours::node(&card, cut, top, h, j) == found);
        assert!(plain::reader_by_slots(&card, cut, top, h, j) == found);
    }
    let (calls, mask, size) = (20_000, d.next_power_of_two() / 2 - 1, cut.size);
    let block = |i: usize| (i * 1031) & mask;
    row(
        &format!("reader, height {h} in {size}-byte blocks"),
        &mut card,
        |c| {
            each(calls, |i| {
                _ = black_box(ours::reader(black_box(c), cut, top, h, block(i)))
            })
        },
        |c| {
            each(calls, |i| {
                _ = black_box(plain::reader(black_box(c), cut, top, h, block(i)))
            })
        },
    );
    row(
        "  against a plain one that finds slots first",
        &mut card,
        |c| {
            each(calls, |i| {
                _ = black_box(ours::reader(black_box(c), cut, top, h, block(i)))
            })
        },
        |c| {
            each(calls, |i| {
                _ = black_box(plain::reader_by_slots(black_box(c), cut, top, h, block(i)))
            })
        },
    );
}

fn taking(cut: Cut) {
    let (mut card, empty, n) = (cut.free_card(), cut.free_card(), cut.count);
    same(
        &card,
        |c| ours::take_block(c, cut),
        |c| plain::take_block(c, cut),
    );
    row(
        &format!("{n} blocks of {} bytes taken", cut.size),
        &mut card,
        |c| {
            once(c, &empty, |c| {
                (0..n).for_each(|b| assert!(ours::take_block(c, cut) == b))
            })
        },
        |c| {
            once(c, &empty, |c| {
                (0..n).for_each(|b| assert!(plain::take_block(c, cut) == b))
            })
        },
    );
    card.copy_from_slice(&empty);
    assert!(!ours::enough(&card, cut, n + 1) && !plain::enough(&card, cut, n + 1));
    row(
        &format!("{n} free blocks counted"),
        &mut card,
        |c| each(10, |_| assert!(ours::enough(black_box(c), cut, n))),
        |c| each(10, |_| assert!(plain::enough(black_box(c), cut, n))),
    );
}

fn growing(cut: Cut, d: usize) {
    let (empty, size) = (cut.free_card(), cut.size);
    let (mut card, mut marks, mut top) = (empty.clone(), vec![0; cut.count], 0);
    let grown = same(
        &empty,
        |c| {
            top = ours::grow(c, cut, 0, 0, d);
            top
        },
        |c| plain::grow(c, cut, 0, 0, d),
    );
    row(
        &format!("growth by {d} blocks of {size} bytes"),
        &mut card,
        |c| once(c, &empty, |c| _ = black_box(ours::grow(c, cut, 0, 0, d))),
        |c| once(c, &empty, |c| _ = black_box(plain::grow(c, cut, 0, 0, d))),
    );
    let freed = same(
        &grown,
        |c| ours::release(c, cut, top, d, 0, &mut marks.clone()),
        |c| plain::release(c, cut, top, d, &mut marks.clone()),
    );
    assert!(ours::enough(&freed, cut, cut.count));
    row(
        &format!("release of {d} blocks of {size} bytes"),
        &mut (card, &mut marks),
        |(c, m)| once(c, &grown, |c| ours::release(c, cut, top, d, 0, m)),
        |(c, m)| once(c, &grown, |c| plain::release(c, cut, top, d, m)),
    );
}

/// 64 KiB of a stream of `d` data blocks and height `h`, read and written whole.
fn streaming(cut: Cut, d: usize, h: usize) {
    let size = cut.size;
    let mut card = cut.free_card();
    let top = plain::grow(&mut card, cut, 0, 0, d);
    let given: Vec<u8> = (0..d * size).map(|i| (i * 7 + i / 251) as u8).collect();
    let mut tray = vec![0; d * size];
    for (p, n) in [(0, given.len()), (5, 3000), (size - 1, 2), (700, 0)] {
        let given = &given[..n];
        let laid = same(
            &card,
            |c| ours::lay(c, cut, top, h, p, given),
            |c| plain::lay(c, cut, top, h, p, given),
        );
        let back = same(
            &vec![0; n],
            |t| ours::gather(&laid, cut, top, d, p, t),
            |t| plain::gather(&laid, cut, top, h, p, t),
        );
        assert!(back == given);
    }
    row(
        &format!("64 KiB read, blocks of {size} bytes"),
        &mut tray,
        |t| each(20, |_| ours::gather(&card, cut, top, d, 0, black_box(t))),
        |t| each(20, |_| plain::gather(&card, cut, top, h, 0, black_box(t))),
    );
    row(
        &format!("64 KiB written, blocks of {size} bytes"),
        &mut card,
        |c| each(20, |_| ours::lay(black_box(c), cut, top, h, 0, &given)),
        |c| each(20, |_| plain::lay(black_box(c), cut, top, h, 0, &given)),
    );
}

/// The check of a whole card, against `second`, which keeps its marks in a vector and its names in a hash set.
fn checking(s: u64, blocks: usize, streams: usize, length: usize) {
    let mut card = second::generator::filled(s, blocks, streams, length);
    assert!(ours::check(&card) == 0 && second::check(&card).is_done());
    row(
        &format!("check: {blocks} blocks, {streams} names of {length}"),
        &mut card,
        |c| each(20, |_| _ = black_box(ours::check(black_box(c)))),
        |c| each(20, |_| _ = black_box(second::check(black_box(c)))),
    );
}

fn main() {
    println!(
        "{:44} {:>11} {:>11} {:>7}",
        format!("nanoseconds a call, the best of {ROUNDS} rounds"),
        "ours",
        "plain Rust",
        "ratio"
    );
    // The compiler is not to know the numbers: it would make a copy of the plain functions for each.
    for n in [64, 4096] {
        bulk(black_box(n));
    }
    matching(black_box(64));
    let (small, large) = (
        black_box(Cut::new(64, 4096)),
        black_box(Cut::new(4096, 1028)),
    );
    reading(small, black_box(3800), black_box(3));
    reading(large, black_box(1024), black_box(1));
    taking(small);
    growing(small, black_box(1000));
    streaming(small, black_box(1024), black_box(3));
    streaming(large, black_box(16), black_box(1));
    checking(6, 64, 3, 8);
    checking(6, 1022, 100, 8);
    checking(6, 4096, 255, 8);
    checking(6, 4096, 255, 64);
    checking(12, 1022, 255, 64);
    // The calls as a program of C or Rust makes them, by their exports.
    calls::rows(6, 64, 3);
    calls::rows(9, 1022, 100);
    calls::rows(6, 4096, 200);
    calls::rows(12, 4096, 200);
}
