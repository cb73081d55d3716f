//! What the runs of docs/CASES.md meet: every refusal of every call, every pair that can hold together, every rule, and
//! cards of all shapes.

use second::check::examine;
use second::generator::layout::Layout;
use second::runs::call::Which;
use second::runs::refusals::{can_meet, holding, list, wanted};
use second::runs::{all, Made};
use std::collections::{BTreeMap, BTreeSet};

/// What was met.
#[derive(Default)]
struct Met {
    calls: usize,
    numbers: [usize; 10],
    answers: BTreeMap<(Which, u8), usize>,
    rules: BTreeSet<(Which, u8)>,
    /// The refusal given, and another that held too.
    pairs: BTreeMap<(Which, u8, u8), usize>,
    shifts: BTreeSet<u32>,
    heights: BTreeSet<u32>,
    most_streams: usize,
    longest: usize,
    /// Creates and writes that took every free block, and those that wanted one more than was free.
    took_all: usize,
    one_short: usize,
    /// Cards whose free chain does not rise, and cards with a pyramid whose blocks do not.
    chains: usize,
    pyramids: usize,
}

impl Met {
    fn take(&mut self, made: &Made) {
        let (which, answer) = (made.call.which, made.answer);
        self.calls += 1;
        self.numbers[usize::from(answer.number)] += 1;
        *self.answers.entry((which, answer.number)).or_default() += 1;
        if answer.number == 1 {
            self.rules.insert((which, answer.rule));
        }
        let holding = holding(made.call, made.before, made.sound);
        let lowest = holding.first().copied().unwrap_or(0);
        assert_eq!(answer.number, lowest, "{:?}: {holding:?}", made.call);
        for &other in holding.iter().skip(1) {
            *self.pairs.entry((which, lowest, other)).or_default() += 1;
        }
        if let (Ok(sound), 0 | 7) = (examine(made.before), lowest) {
            let wanted = wanted(made.call, &sound);
            self.took_all += usize::from(wanted > 0 && wanted == sound.free);
            self.one_short += usize::from(wanted == sound.free + 1);
        }
        if lowest != 0 {
            assert!(made.before == made.after, "a refusal changed the card");
        } else {
            self.look(made.after);
        }
    }

    /// Looks at a sound card.
    fn look(&mut self, card: &[u8]) {
        let layout = Layout::read(card).expect("sound");
        let rises = |row: &[u64]| row.windows(2).all(|two| two[0] < two[1]);
        self.chains += usize::from(!rises(&Vec::from(layout.chain)));
        let mut streams = layout.streams.values();
        let rows = streams.any(|held| held.rows.iter().any(|row| !rises(row)));
        self.pyramids += usize::from(rows);
        let sound = examine(card).expect("sound after a call that was done");
        self.longest = self.longest.max(card.len());
        self.shifts.insert(sound.shape.s());
        self.most_streams = self.most_streams.max(sound.filing.entries.len());
        for entry in &sound.filing.entries {
            self.heights.insert(height(
                sound.shape.data_blocks(entry.stream.size),
                sound.shape.block_size() / 4,
            ));
        }
    }
}

/// How often d must be divided to come to one block.
fn height(d: u64, f: u64) -> u32 {
    match d {
        0 | 1 => 0,
        _ => 1 + height(d.div_ceil(f), f),
    }
}

#[test]
fn the_runs_meet_every_refusal_and_every_pair() {
    let mut met = Met::default();
    all(true, &mut |made| met.take(&made));
    println!("{} calls, answers 0 to 9: {:?}", met.calls, met.numbers);

    assert!(met.calls >= 20_000, "{} calls", met.calls);
    for which in Which::ALL {
        let numbers: BTreeSet<u8> = list(which).iter().copied().chain([0]).collect();
        let given = met.answers.keys().filter(|key| key.0 == which);
        assert_eq!(
            given.map(|key| key.1).collect::<BTreeSet<u8>>(),
            numbers,
            "{which:?}"
        );
        for (at, &one) in list(which).iter().enumerate() {
            for &other in &list(which)[at + 1..] {
                let times = met.pairs.get(&(which, one, other)).copied().unwrap_or(0);
                println!("{which:?} {one} {other}: {times}");
                assert_eq!(
                    times > 0,
                    can_meet(which, one, other),
                    "{which:?} {one} {other}"
                );
            }
        }
        if list(which).contains(&1) {
            let rules = (1..=8).filter(|&rule| met.rules.contains(&(which, rule)));
            assert_eq!(rules.count(), 8, "{which:?}: {:?}", met.rules);
        }
    }
    assert_eq!(met.shifts, (6..=12).collect());
    assert_eq!(met.heights, (0..=3).collect());
    assert_eq!(met.most_streams, 255);
    let edges = [met.took_all, met.one_short, met.chains, met.pyramids];
    println!("took all, one short, chains and pyramids out of order: {edges:?}");
    assert!(edges.iter().all(|&times| times >= 50), "{edges:?}");
    assert_eq!(met.longest, 87 + (1 << 20));
}
