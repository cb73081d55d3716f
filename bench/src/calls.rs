//! The ten calls of the proved store against those of the second program, which keeps its marks in vectors, its names in a
//! hash set, and copies slices.

use crate::{once, row};
use second::generator::call::Call;
use second::generator::filled;
use std::hint::black_box;

// The exports called by a `Call`, as the judge calls them.
#[path = "../../judge/src/ours.rs"]
mod store;

/// A card with `streams` names and the calls on it: a stream grows by a quarter of the card, is read, cut and deleted.
pub fn rows(s: u64, blocks: usize, streams: usize) {
    let card = filled(s, blocks, streams, 8);
    let last = format!("{:08}", streams - 1).into_bytes();
    let long = vec![5; (blocks << s) / 4];
    let write = Call::write(&last, 50, long.clone());
    let mut grown = card.clone();
    assert!(write.run(&mut grown, &mut []).is_done());
    println!("{blocks} blocks of {} bytes, {streams} names", 1 << s);
    timed("format", &card, &Call::Format { s });
    timed("check", &card, &Call::Check);
    timed("room", &card, &Call::Room);
    timed("create", &card, &Call::create(b"one more"));
    timed("write, a quarter of the card", &card, &write);
    timed(
        "write, one byte in place",
        &card,
        &Call::write(&last, 50, vec![1]),
    );
    timed(
        "read, a quarter of the card",
        &grown,
        &Call::read(&last, 50, long.len()),
    );
    timed(
        "truncate, a quarter of the card",
        &grown,
        &Call::truncate(&last, 50),
    );
    timed(
        "delete, a quarter of the card",
        &grown,
        &Call::delete(&last),
    );
    timed("size", &card, &Call::size(&last));
    let k = streams as u64 - 1;
    timed("list, the last entry", &card, &Call::List { k, tray: 64 });
}

/// One call, made by both on the same card; that they agree in every byte is asserted first.
fn timed(name: &str, card: &[u8], call: &Call) {
    let tray = vec![0; call.tray_length()];
    let (mut ours, mut other) = ((card.to_vec(), tray.clone()), (card.to_vec(), tray.clone()));
    let word = store::run(call, &mut ours.0, &mut ours.1);
    assert!(
        word == call.run(&mut other.0, &mut other.1).word() && ours == other && word & 255 == 0
    );
    row(
        &format!("  {name}"),
        &mut ours,
        |(c, t)| {
            once(c, card, |c| {
                _ = black_box(store::run(black_box(call), c, t))
            })
        },
        |(c, t)| once(c, card, |c| _ = black_box(black_box(call).run(c, t))),
    );
}
